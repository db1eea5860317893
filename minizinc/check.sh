#!/bin/sh
# Outside the gate: models are solved through MiniZinc by this solver and by another, and what they say is compared.
#   minizinc/check.sh [FOLDER [SECONDS]]
# The models are those of examples/ and each .mzn file below FOLDER, but for checkers, with the .dzn file of the same
# name where there is one. SECONDS is the limit of each model for each solver, 20 where none is given. The other solver
# is Gecode. ABT_PROGRAM names the program, as for abt-fzn. Status 1 where an answer is wrong.
set -u
here=$(cd -P -- "$(dirname -- "$0")" && pwd -P) || exit 70
program=${ABT_PROGRAM:-$here/../abt}
seconds=${2:-20}
export MZN_SOLVER_PATH="$here${MZN_SOLVER_PATH:+:$MZN_SOLVER_PATH}"
if ! command -v minizinc >/dev/null || ! command -v fzn-gecode >/dev/null; then
  echo "skipped: MiniZinc or Gecode is missing; Debian's packages are installed by: apt-get install minizinc flatzinc"
  exit 0
fi
models=$(find "$here/../examples" ${1:+"$1"} -name '*.mzn' ! -name '*.mzc.mzn' -type f -exec realpath {} + | LC_ALL=C sort)
room=$(mktemp -d) || exit 70
trap 'rm -rf "$room"' EXIT
trap 'exit 143' HUP INT TERM
cd "$room" || exit 70
: >facts

# Gecode over MiniZinc's own library, with sets as Booleans, since Gecode's order of sets is not MiniZinc's.
mkdir library && echo 'include "nosets.mzn";' >library/redefinitions.mzn
printf '{"id": "other", "name": "other", "version": "1", "executable": "%s", "mznlib": "library"}' \
  "$(command -v fzn-gecode)" >other.msc

# solve NAME WORDS..: makes a run of MiniZinc, with its answer in NAME.out and its errors in NAME.err.
solve() {
  name=$1
  shift
  timeout $((seconds + 10)) minizinc --time-limit "${seconds}000" --output-mode dzn --output-objective "$@" \
    >"$name.out" 2>"$name.err" </dev/null || [ $? != 124 ] || echo '=====UNKNOWN=====' >>"$name.out"
}

# verdict NAME: what that run said.
verdict() {
  if grep -qx '=====UNSATISFIABLE=====' "$1.out"; then echo refuted
  elif grep -qx '==========' "$1.out" && grep -q '^_objective' "$1.out"; then echo "best $(objective "$1")"
  elif grep -qx '=====UNKNOWN=====' "$1.out" || grep -q 'communication with solver' "$1.err"; then echo unfinished
  elif grep -q '^-----*$' "$1.out"; then echo solved
  else echo refused; fi
}

# objective NAME: the last value of the aim in that run, if any.
objective() { sed -n 's/^_objective = \(.*\);$/\1/p' "$1.out" | tail -n 1; }

# fact WORDS: is counted at the end.
fact() { echo "$*" >>facts; }

# wrong WORDS: an answer is wrong.
wrong() {
  echo "WRONG $model: $*"
  fact wrong
}

# reason: why this solver refused the model, without numbers and places.
reason() {
  sed -n -e 's/^abt: model: //' -e 's/.*assertion failed: abt: //' -e 't found' -e 'd' \
    -e ':found' -e 's/ at [0-9]*$//' -e 's/^\(limit [a-z-]*\) .*/\1/' -e 'p' -e 'q' ours.err
}

# plain FILE: that FlatZinc file without annotations, which MiniZinc may not know.
plain() {
  sed -e '/^constraint/s/)::.*;$/);/' -e 's/^solve ::.*) *\(satisfy\|minimize\|maximize\)/solve \1/' \
    -e '/^[va]/s/ *::[^=]*\(= .*\)\{0,1\};$/ \1;/' "$1"
}

# constraints FILE: a solution in FILE as constraints, but for the aim and for empty arrays.
constraints() {
  sed -n -e '/^_objective/d' -e '/\[\])\{0,1\};$/d' -e 's/^\([^ ]*\) = \(.*\);$/constraint \1 = \2;/p' "$1"
}

# accepts WHAT WORDS..: whether MiniZinc finds the solution that the words hold to be one, and no better one in it.
accepts() {
  what=$1
  shift
  solve checked --solver other.msc "$@"
  case $(verdict checked) in
    refuted) wrong "the solution is none of the $what" ;;
    solved | best*) [ "$(objective checked)" = "$(objective ours)" ] || wrong "the $what has a better value" ;;
    *) echo "unchecked $model: $what" && fact unchecked "$what" ;;
  esac
}

# check_solution: the printed solution is one of the flattened model, and of the model.
check_solution() {
  { plain model.fzn && sed 's/^\([^ ]*\) = array[1-6]d(.*\(\[.*\]\));$/\1 = \2;/' raw | constraints /dev/stdin; } >flat.mzn
  accepts "flattened model" flat.mzn
  constraints ours.out >solution.mzn
  accepts model "$model" solution.mzn ${data:+"$data"}
}

# check_log [--better VALUE]: the log of the run refutes the flattened model, with better values alone.
check_log() {
  if [ ! -e model.fzn ]; then fact "by MiniZinc itself" && return; fi
  case $("$program" check model.fzn log "$@" 2>&1) in
    verified) fact verified ;;
    'abt: model: no aim') fact "with a constant aim" ;;
    *) wrong "the log is not verified" ;;
  esac
}

# judge: solves the model by both, compares, and checks.
judge() {
  rm -f model.fzn log raw
  solve ours --solver abt --abt-log log --abt-model model.fzn --output-raw raw "$model" ${data:+"$data"}
  solve theirs --solver other.msc "$model" ${data:+"$data"}
  ours=$(verdict ours) theirs=$(verdict theirs) why=''
  [ "$ours" != refused ] || why=$(reason)
  case $ours,$theirs,$why in
    refused,refused,) ours='not read' ;;
    refused,*) why=${why:-$(grep -m 1 . ours.err)} ;;
  esac
  echo "$ours${why:+ ($why)}: $model"
  case $ours,$theirs in
    refuted,solved | refuted,best* | solved,refuted | best*,refuted) wrong "the other says $theirs" ;;
    best*,best*) [ "$ours" = "$theirs" ] || wrong "the other says $theirs" ;;
    refuted,refuted | solved,solved) ;;
    refuted,* | solved,* | best*,*) fact uncompared ;;
  esac
  case $ours in
    refused) fact "refused $why" ;;
    refuted) fact refuted && check_log ;;
    best*) fact solved && fact optimal && check_solution && check_log --better "$(objective ours)" ;;
    solved) fact solved && check_solution ;;
    *) fact "$ours" ;;
  esac
}

# judge_stream: of a model with an aim, with -i and a limit that may cut the run off, each solution that the program found
# is told, each better than the one before, and none better than the best.
judge_stream() {
  [ -e model.fzn ] || return 0
  goal=$(sed -n 's/^solve.* \(m[ai][xn]imize\) .*/\1/p' model.fzn)
  [ -n "$goal" ] || return 0
  rm -f raw
  timeout $((seconds + 10)) minizinc -i --time-limit 500 --output-mode dzn --output-objective --solver abt --output-raw raw \
    "$model" ${data:+"$data"} >stream.out 2>stream.err </dev/null
  found=$(grep -cx -- '----------' raw) told=$(grep -cx -- '----------' stream.out)
  fact streamed
  grep -qx -- '==========' stream.out || fact "cut off"
  [ "$found" = "$told" ] || wrong "of $found solutions that were found $told were told"
  { sed -n 's/^_objective = \(.*\);$/\1/p' stream.out && case $ours in best*) echo "${ours#best }" ;; esac; } >values
  awk -v goal="$goal" -v told="$told" 'function better(a, b) { return goal == "minimize" ? a < b : a > b }
    NR > 1 && NR <= told && !better($1, last) { bad = 1 } NR > told && NR > 1 && better(last, $1) { bad = 1 } { last = $1 } END { exit bad }' values ||
    wrong "with -i a solution is no better than the one before, or better than the best"
}

printf '%s\n' "$models" >models
while read -r model; do
  data=${model%.mzn}.dzn
  [ -e "$data" ] || data=
  judge
  [ "$ours" = refused ] || judge_stream
done <models

echo
echo "$(grep -c . models) models, $seconds seconds each"
for what in solved optimal refuted verified "by MiniZinc itself" "with a constant aim" unfinished streamed "cut off" "not read" uncompared unchecked refused wrong; do
  echo "$(grep -c "^$what" facts) $what"
done
sed -n 's/^refused //p' facts | sort | uniq -c | sort -rn
[ "$(grep -c '^wrong' facts)" = 0 ]
