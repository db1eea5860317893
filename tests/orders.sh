#!/usr/bin/env bash
# Outside the gate: each example runs under each rule of `order` and under three random orders, as under the model's own:
# verdicts agree, the log of each refutation is verified without the order, and a record under its order is the same run.
#     tests/orders.sh PROGRAM
set -u
[ $# = 1 ] || { echo "usage: tests/orders.sh PROGRAM" >&2; exit 2; }
program=$(realpath -- "$1") examples=$(cd "$(dirname "$0")/../examples" && pwd)
room=$(mktemp -d)
trap 'rm -rf "$room"' EXIT
cd "$room" || exit 70
failed=0 runs=0
wrong() { echo "FAILED  $model under $order: $1" && failed=$((failed + 1)); }

# verdict FILE: whether it is solved, best, refuted or unfinished, and the value at the aim, where the model has one
verdict() { grep -E "^(=====|-----${aim:+|$aim = })" "$1"; }

# random SEED: a random order of the variables of the order in `own`
random() {
  echo 'order 1'
  sed -e 1d -e '$d' own | awk -v seed="$1" 'BEGIN { srand(seed) } { print rand() "\t" $0 }' | sort -n | cut -f 2
  echo end
}

for path in "$examples"/*.fzn; do
  model=$(basename "$path") order=own
  aim=$(sed -n 's/^solve.* m[ai][xn]imize *\([A-Za-z_][A-Za-z0-9_]*\) *;.*/\1/p' "$path")
  "$program" solve "$path" plain.ngd >plain.out
  status=$?
  for order in degree links reverse 1 2 3; do
    case $order in
      [1-3]) "$program" order "$path" degree own >/dev/null && random "$order" >order ;;
      *) "$program" order "$path" "$order" order >/dev/null ;;
    esac || wrong "no order"
    "$program" solve "$path" log --order order --record record >out
    [ $? = "$status" ] || wrong "another status"
    [ "$(verdict out)" = "$(verdict plain.out)" ] || wrong "another verdict"
    if [ "$status" = 1 ]; then [ "$("$program" check "$path" log)" = verified ] || wrong "the log is not verified"; fi
    if ! grep -q '^% rounds' out; then
      "$program" replay "$path" record again --order order >again.out
      cmp -s log again || wrong "a replay has another log"
      [ "$(grep -v '^% unused' again.out)" = "$(cat out)" ] || wrong "a replay has another answer"
    fi
    bound=$("$program" bound "$path" --order order)
    deliveries=$(sed -n 's/^% deliveries //p' out)
    grep -q '^% rounds' out || [ "$bound" = 'bound over' ] || [ "$(echo "$deliveries <= ${bound#bound }" | bc)" = 1 ] || wrong "more deliveries than the bound"
    runs=$((runs + 1))
  done
done
echo "$runs runs, $failed failed"
[ "$failed" = 0 ]
