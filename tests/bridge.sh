#!/bin/sh
# Outside the gate: minizinc/abt-fzn answers as MiniZinc's driver wants it. No MiniZinc and no built program is needed: a
# stub stands in the program's place, which tells how it was called, and answers what a row says.
set -u
bridge=$(cd "$(dirname "$0")/../minizinc" && pwd)/abt-fzn
top=$(dirname "$bridge")/..
room=$(mktemp -d)
trap 'rm -rf "$room"' EXIT
cd "$room" || exit 70
failed=0

cat >stub <<'END'
#!/bin/sh
echo "$@" >>called
case $1 in
  order) [ "$STATUS" != 3 ] || { printf '%b' "$SAID" >&2; exit 3; } ;;
  solve) printf '%b' "$ANSWER"; printf '%b' "$SAID" >&2; exit "$STATUS" ;;
  story) echo "abt: fault" >&2; exit 6 ;;
  bound) if [ -n "$SAID" ]; then printf '%b' "$SAID" >&2; exit 3; else echo "bound $BOUND"; fi ;;
esac
END
chmod +x stub
export TMPDIR=$room ABT_PROGRAM=./stub ANSWER SAID STATUS BOUND=6
printf 'var 1..2: x:: output_var;\nvar int: y;\nsolve  satisfy;\n' >m.fzn
printf 'var 1..2: x:: output_var;\nsolve  minimize x;\n' >aim.fzn

# row WHAT STATUS ANSWER SAID GOOD-STATUS GOOD-OUT GOOD-ERR WORDS..: the program ends like this, and the bridge like that.
row() {
  what=$1 STATUS=$2 ANSWER=$3 SAID=$4 good=$5
  printf '%b' "$6" >good.out
  printf '%b' "$7" >good.err
  shift 7
  rm -f called
  "$bridge" "$@" >out 2>err
  got=$?
  sed -i 's/^\(%%%mzn-stat: solveTime=\)[0-9]*\.[0-9]*$/\1T/' out
  [ ! -e called ] || sed -i "s|$room/tmp\.[A-Za-z0-9]*/order|ORDER|g" out err called
  if [ $got = "$good" ] && cmp -s out good.out && cmp -s err good.err; then echo "ok      $what"; else
    echo "FAILED  $what: status $got" && cat out err
    failed=$((failed + 1))
  fi
}

# called WORDS: a call of the last row had these words.
called() {
  if ! grep -qxF -- "$*" called; then
    echo "FAILED  not called with $*, but with:" && cat called
    failed=$((failed + 1))
  fi
}

solved='x = 1;\n----------\n'
took='% deliveries 9\n% steps 2\n'
row 'a solution' 0 "$solved$took" '' 0 "$solved" '' m.fzn
called order m.fzn links ORDER
called solve m.fzn /dev/null --seed 0 --order ORDER
row 'a refutation' 1 "=====UNSATISFIABLE=====\n$took" '' 0 '=====UNSATISFIABLE=====\n' '' m.fzn
row 'no verdict' 5 "=====UNKNOWN=====\n$took" '' 0 '=====UNKNOWN=====\n' '' m.fzn
row 'a best value' 0 "$solved==========\n% rounds 2\n$took" '' 0 "$solved==========\n" '' -i -a aim.fzn
called solve aim.fzn /dev/null --seed 0 --each --order ORDER
row 'a best value by halves' 0 "$solved==========\n% rounds 2\n$took" '' 0 "$solved==========\n" '' --abt-halves aim.fzn
called solve aim.fzn /dev/null --seed 0 --halves --order ORDER
row 'no better value known' 5 "$solved% rounds 2\n$took" '' 0 "$solved" '' aim.fzn
row 'files and seed' 0 "$solved$took" '' 0 "$solved" '' --abt-log l --abt-record r --abt-model c -r 18446744073709551615 m.fzn
called solve m.fzn l --seed 18446744073709551615 --order ORDER --record r
cmp -s m.fzn c || { echo "FAILED  the kept model differs" && failed=$((failed + 1)); }
row 'a page, which fails' 0 "$solved$took" '' 6 "$solved" 'abt: fault\n' --abt-record r --abt-picture p m.fzn
called solve m.fzn /dev/null --seed 0 --order ORDER --record r
grep -q '^story m.fzn r .* --order ORDER$' called || { echo "FAILED  the page is made by $(cat called)" && failed=$((failed + 1)); }
row "the model's order" 0 "$solved$took" '' 0 "$solved" '' --abt-order model m.fzn
called solve m.fzn /dev/null --seed 0
row 'another rule' 0 "$solved$took" '' 0 "$solved" '' --abt-order degree m.fzn
called order m.fzn degree ORDER
called solve m.fzn /dev/null --seed 0 --order ORDER
: >my.ord
row 'an order of a file' 0 "$solved$took" '' 0 "$solved" '' --abt-order my.ord m.fzn
called solve m.fzn /dev/null --seed 0 --order my.ord
row 'no such order' 0 "$solved$took" '' 2 '' 'abt-fzn: --abt-order linkz: a rule (links, degree, reverse), model, or a file that can be read\n' \
  --abt-order linkz m.fzn
row 'an order that is refused' 4 '' 'abt: order: line 2\n' 4 '' 'abt: order: line 2\n' --abt-order my.ord m.fzn
row 'statistics' 0 "$solved$took" '' 0 \
  "$solved%%%mzn-stat: deliveries=9\n%%%mzn-stat: steps=2\n%%%mzn-stat: nSolutions=1\n%%%mzn-stat: solveTime=T\n%%%mzn-stat: agents=2\n%%%mzn-stat: bound=\"6\"\n%%%mzn-stat-end\n" '' -s m.fzn
called bound m.fzn --order ORDER
row 'statistics of a best value' 0 "$solved==========\n% rounds 2\n" '' 0 \
  "$solved==========\n%%%mzn-stat: rounds=2\n%%%mzn-stat: objective=1\n%%%mzn-stat: nSolutions=1\n%%%mzn-stat: solveTime=T\n%%%mzn-stat: agents=1\n%%%mzn-stat: bound=\"6\"\n%%%mzn-stat-end\n" '' -s aim.fzn
row 'one solution' 0 "$solved$took" '' 0 "$solved" '' -n 1 m.fzn
row 'two solutions' 0 '' '' 2 '' 'abt-fzn: -n 2: this solver finds one solution\n' -n 2 m.fzn
row 'more is said' 0 "$solved$took" '' 0 "$solved" 'abt-fzn: the agents have the order: links\nabt-fzn: ./stub solve m.fzn /dev/null --seed 0 --order ORDER\n' -v m.fzn
said='abt: model: unbounded at 26\n'
# helps REFUSAL: what the table of refusals says of it.
helps() { sed -n "s/^$1 | \(.*\) | \(.*\)/abt-fzn: \1\\\\nabt-fzn: \2\\\\n/p" "$top/launcher/refusals.txt"; }
row 'a refused model' 3 '' "$said" 3 '' "${said}abt-fzn: this line: var int: y;\n$(helps 'model: unbounded at N')" m.fzn
printf 'predicate fzn_table_int(array [int] of var int: x,array [int,int] of int: t);\nvar 1..3: x:: output_var;\nconstraint fzn_table_int([x,x],[1,2,3]);\nsolve  satisfy;\n' >rows.fzn
row 'a table with a short row' 3 '' 'abt: model: ill-typed at 115\n' 3 '' \
  "abt: model: ill-typed at 115\nabt-fzn: this line: constraint fzn_table_int([x,x],[1,2,3]);\n$(helps 'model: ill-typed at N')" rows.fzn
row 'a place within a line' 3 '' 'abt: model: ill-typed at 36\n' 3 '' \
  "abt: model: ill-typed at 36\nabt-fzn: this line: var int: y;\n$(helps 'model: ill-typed at N')" m.fzn
row 'a limit' 3 '' 'abt: model: limit domain-size 65537 at 0\n' 3 '' \
  "abt: model: limit domain-size 65537 at 0\nabt-fzn: this line: var 1..2: x:: output_var;\n$(helps 'model: limit domain-size N at N')" m.fzn
row 'no place' 3 '' 'abt: model: no solve item\n' 3 '' "abt: model: no solve item\n$(helps 'model: no solve item')" m.fzn
printf 'var set of 1..4: s:: output_var;\nsolve  satisfy;\n' >sets.fzn
row 'variables of sets' 3 '' 'abt: model: unsupported at 0\n' 3 '' \
  "abt: model: unsupported at 0\nabt-fzn: this line: var set of 1..4: s:: output_var;\n$(helps 'model: unsupported at N')abt-fzn: the model has variables of sets: without -G std, this solver's own library makes Booleans of them\n" sets.fzn
row 'a fault' 6 '' 'abt: fault\n' 6 '' 'abt: fault\n' m.fzn
row 'no memory' 7 '' 'abt: memory\n' 7 '' 'abt: memory\n' m.fzn
row 'bad words' 2 '' 'abt: bad words\n' 2 '' 'abt: bad words\nabt-fzn: the program refused the words solve m.fzn -l --seed 0 --order ORDER\n' --abt-log -l m.fzn
row 'all solutions' 0 '' '' 2 '' 'abt-fzn: -a: this solver does not list all solutions\n' -a m.fzn
row 'an unknown flag' 0 '' '' 2 '' 'abt-fzn: there is no flag -t\n' -t 1000 m.fzn
row 'a flag without its word' 0 '' '' 2 '' 'abt-fzn: -r asks for a word after it\n' m.fzn -r
row 'no model' 0 '' '' 2 '' 'abt-fzn: no model\n' -s


# files that are told twice, or that a user may want to keep
printf 'var 1..2: x;\nsolve satisfy;\n' >own.mzn
printf 'notes\n' >notes
printf 'ngd 1\nend\n' >old.ngd
row 'one name for log and record' 0 '' '' 2 '' 'abt-fzn: --abt-log and --abt-record name one file, x\n' --abt-log x --abt-record ./x m.fzn
row 'one name for log and model' 0 '' '' 2 '' 'abt-fzn: --abt-log and --abt-model name one file, x\n' --abt-log x --abt-model x m.fzn
row 'one name for record and page' 0 '' '' 2 '' 'abt-fzn: --abt-record and --abt-picture name one file, x\n' --abt-record x --abt-picture x m.fzn
row 'a page over notes' 0 '' '' 2 '' 'abt-fzn: --abt-picture: notes is there, and is not what would be written over it\n' --abt-picture notes m.fzn
row 'the model kept in itself' 0 '' '' 2 '' 'abt-fzn: --abt-model and the model name one file, m.fzn\n' --abt-model m.fzn m.fzn
ln -s m.fzn other.fzn
row 'the model by another name' 0 '' '' 2 '' 'abt-fzn: --abt-log and the model name one file, other.fzn\n' --abt-log other.fzn m.fzn
row 'the log over a model of MiniZinc' 0 '' '' 2 '' "abt-fzn: --abt-log: own.mzn has the name of a file of MiniZinc's\n" --abt-log own.mzn m.fzn
row 'the log over notes' 0 '' '' 2 '' 'abt-fzn: --abt-log: notes is there, and is not what would be written over it\n' --abt-log notes m.fzn
row 'a log over a log' 0 "$solved$took" '' 0 "$solved" '' --abt-log old.ngd m.fzn
[ "$(cat own.mzn m.fzn notes | md5sum)" = "$( (printf 'var 1..2: x;\nsolve satisfy;\n'; printf 'var 1..2: x:: output_var;\nvar int: y;\nsolve  satisfy;\n'; printf 'notes\n') | md5sum)" ] ||
  { echo "FAILED  a file that was refused changed" && failed=$((failed + 1)); }

# ended WHAT SIGNAL WHOM: where the driver, or the bridge, is ended by a signal, no program is left after four seconds.
printf '#!/bin/sh\n[ "$1" = solve ] || exit 0\necho $$ >program\nexec sleep 30\n' >slow
chmod +x slow
ended() {
  rm -f program bridge
  ABT_PROGRAM=./slow sh -c '"$1" m.fzn & echo $! >bridge; wait' driver "$bridge" >/dev/null 2>&1 &
  driver=$!
  while [ ! -s program ] || [ ! -s bridge ]; do sleep 0.1; done
  case $3 in driver) kill -s "$2" "$driver" ;; bridge) kill -s "$2" "$(cat bridge)" ;; esac
  sleep 4
  if kill -0 "$(cat program)" 2>/dev/null; then
    echo "FAILED  $1: the program runs on" && failed=$((failed + 1))
    kill "$(cat program)"
  else echo "ok      $1"; fi
  wait "$driver" 2>/dev/null
}
ended 'a driver that is killed' KILL driver
ended 'a bridge that is killed' KILL bridge
ended 'a bridge that is told to end' TERM bridge

version=$(sed -n 's/^pub const VERSION.*"abt \([0-9.]*\)\\n.*/\1/p' "$top/crates/abt_command/src/plain.rt")
grep -q "\"version\": \"$version\"" "$top/minizinc/abt.msc" || {
  echo "FAILED  the configuration has another version than the program, $version"
  failed=$((failed + 1))
}

echo "$failed failed"
[ "$failed" = 0 ]
