#!/usr/bin/env bash
# Compares what the program writes of the examples with the texts beside the tests, and makes their pages by `./abt picture`.
#     by_program.sh [LAUNCHER [WORD]]   without words it is ./abt, or ./abt --unproved where no proved program was built
set -u
cd "$(dirname "$0")/../.." || exit 1
abt=("$@")
[ $# -gt 0 ] || abt=(./abt)
[ $# -gt 0 ] || [ ! -e crates.txt ] || [ -x crates/abt_main/out/abt_main ] || abt=(./abt --unproved)
room=$(mktemp -d)
trap 'rm -rf "$room"' EXIT
failed=0
wrong() { echo "picture: $1" >&2; failed=1; }

# alike FILE OTHER: they have the same bytes
alike() { cmp -s "$1" "$2" || wrong "$2 is not what the program writes"; }

for name in meeting sensors pigeons queens4 makespan; do
  model=examples/$name.fzn schedule=$room/$name.sch
  case $name in
    pigeons | queens4) "${abt[@]}" solve "$model" "$room/log" --seed 1 --record "$schedule" >/dev/null 2>&1 ;;
    *) schedule=examples/$name.sch ;;
  esac
  "${abt[@]}" story "$model" "$schedule" "$room/$name.story" >/dev/null 2>&1 || wrong "no story of $name"
  "${abt[@]}" measure "$model" "$schedule" >"$room/$name.measures" 2>/dev/null || wrong "no measures of $name"
  alike "$room/$name.story" "picture/tests/texts/$name.story"
  alike "$room/$name.measures" "picture/tests/texts/$name.measures"
  "${abt[@]}" picture "$model" "$schedule" "$room/$name.html" 2>/dev/null || wrong "no page of $name"
  # a search's page has the log of its last round too, which only the maker is given
  [ "$name" = makespan ] || [ ! -e "examples/pages/$name.html" ] || cmp -s "$room/$name.html" "examples/pages/$name.html" ||
    wrong "examples/pages/$name.html is not the page that is made"
done
# under an order: the page plays that run, whose agents keep the model's numbers
"${abt[@]}" order examples/meeting.fzn reverse "$room/order" >/dev/null 2>&1
"${abt[@]}" solve examples/meeting.fzn "$room/log" --seed 1 --record "$room/ordered.sch" --order "$room/order" >/dev/null 2>&1 || wrong "no run under an order"
"${abt[@]}" picture examples/meeting.fzn "$room/ordered.sch" "$room/ordered.html" --order "$room/order" 2>/dev/null || wrong "no page under an order"
"${abt[@]}" picture examples/meeting.fzn "$room/ordered.sch" "$room/order" --order "$room/order" 2>/dev/null && wrong "a page in the order's place"
"${abt[@]}" picture examples/meeting.fzn examples/pairs.sch "$room/none.html" 2>/dev/null && wrong "a page of no schedule"
[ ! -e "$room/none.html" ] || wrong "a page of no run was written"
exit "$failed"
