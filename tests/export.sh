#!/usr/bin/env bash
# Outside the gate: what `abt export` writes, read by other programs. Exports the refutations of the examples and 200
# generated ones, and hands each to `rup`; to drat-trim, where there is one; and the formula to the solver cadical (Debian's
# package `cadical`), where there is one, which is to find that nothing satisfies it. The logs themselves, and each once with one
# digit changed, are read by tests/own_checker.py, which was written from docs/FORMATS.md alone, and is to find what `check`
# finds. Then meets each limit of formulas.
#     tests/export.sh PROGRAM
set -u
program=$(realpath "${1:?the program}")
repository=$(cd "$(dirname "$0")/.." && pwd)
room=$(mktemp -d) || exit 1
trap 'rm -rf "$room"' EXIT
cd "$room" || exit 1

failed=0 exported=0
wrong() { echo "export: $1" >&2; failed=$((failed + 1)); }
has() { command -v "$1" > /dev/null; }
has drat-trim || echo "skipped drat-trim: there is none here"
has cadical || echo "skipped cadical: there is none here (apt-get install cadical)"
has python3 || echo "skipped a checker of one's own, and limits of clauses and literals: there is no python3 here"

# Exports a log, with these further words, and hands what is written to whoever reads it.
opinions() {
    local name=$1 model=$2 log=$3
    shift 3
    rm -f f.cnf p.rup
    "$program" export "$model" "$log" f.cnf p.rup "$@" > out || { wrong "$name is not exported"; return; }
    exported=$((exported + 1))
    [ "$("$program" rup f.cnf p.rup)" = verified ] || wrong "$name: rup does not verify it"
    ! has drat-trim || drat-trim f.cnf p.rup | grep -q '^s VERIFIED' || wrong "$name: drat-trim does not verify it"
    if has cadical; then
        cadical -q -n f.cnf > /dev/null
        [ $? = 20 ] || wrong "$name: cadical finds values that satisfy it"
    fi
}

# A log, and the same with one digit changed, which may make it no log, are to the own checker what they are to `check`.
own() {
    local name=$1 model=$2 log=$3 seed=$4 found told
    has python3 || return
    python3 - "$log" "$seed" > spoiled.ngd << 'END'
import random, sys
text, draw = open(sys.argv[1], encoding="utf-8").read(), random.Random(int(sys.argv[2]))
at = draw.choice([at for at, byte in enumerate(text) if byte.isdigit()])
print(text[:at] + draw.choice("0123456789") + text[at + 1 :], end="")
END
    for log in "$log" spoiled.ngd; do
        found=$("$program" check "$model" "$log" 2> err)
        told=$(python3 "$repository/tests/own_checker.py" "$model" "$log")
        [ "$told" = "$found" ] || [[ -z $found && $told == rejected* ]] || wrong "$name: $told, and check finds $found"
    done
}

for log in "$repository"/examples/*.ngd; do
    model=${log%.ngd}.fzn
    own "$(basename "$model")" "$model" "$log" 1
    [ "$("$program" check "$model" "$log")" = verified ] || continue
    opinions "$(basename "$model")" "$model" "$log"
    opinions "$(basename "$model") --atoms" "$model" "$log" --atoms
done
for best in "makespan 7" "allocation 20"; do
    read -r name value <<< "$best"
    opinions "$name --better $value" "$repository/examples/$name.fzn" "$repository/examples/$name.ngd" --better "$value"
done
[ "$exported" -ge 10 ] || wrong "only $exported examples were exported"
echo "$exported exports of examples"

exported=0
for seed in $(seq 1 1000); do
    [ "$exported" -lt 200 ] || break
    if [ $((seed % 10)) = 0 ]; then
        "$program" gen pigeons $((3 + seed / 10 % 4)) > m.fzn
    else
        "$program" gen colouring $((5 + seed % 8)) $((2 + seed % 2)) "$seed" > m.fzn
    fi
    "$program" solve m.fzn l.ngd --seed "$seed" > answer
    [ $? = 1 ] || continue
    if [ $((seed % 2)) = 0 ]; then
        "$program" upgrade l.ngd n.ngd > out && mv n.ngd l.ngd
    fi
    opinions "generated $seed" m.fzn l.ngd
    own "generated $seed" m.fzn l.ngd "$seed"
done
[ "$exported" = 200 ] || wrong "only $exported generated refutations were exported"
echo "$exported exports of generated refutations"

# Each limit at its number and above it: a model and the steps of its log.
limit() {
    local name=$1 said=$2
    printf 'ngd 1\n%send\n' "$(cat steps)
" > l.ngd
    if [ -z "$said" ]; then
        opinions "$name" m.fzn l.ngd
        return
    fi
    rm -f f.cnf p.rup
    "$program" export m.fzn l.ngd f.cnf p.rup > out 2> err
    if [ $? != 3 ] || [ "$(cat err)" != "abt: cnf: limit $said" ] || [ -s out ]; then wrong "$name: $(cat err)"; fi
    if [ -e f.cnf ] || [ -e p.rup ]; then wrong "$name: something was written"; fi
}

# a variable of so many values, and no values of two of so many that will do
values() { printf 'var 1..%s: x;\nconstraint bool_eq(true,false);\nsolve satisfy;\n' "$1" > m.fzn; echo '1 - [] <- c1' > steps; }
values 4096; limit "4,096 atoms" ""
values 4097; limit "4,097 atoms" "variables 4097"

# A constraint that is false at all values of its variables, with the log that gives each of these a clause. The words are
# the variables' sizes, and after a dash those of variables of no constraint.
excluding() {
    python3 - "$@" << 'END' || wrong "no model of $*"
import sys
dash = sys.argv.index("-", 1)
sizes, others = [[int(size) for size in some] for some in (sys.argv[1:dash], sys.argv[dash + 1 :])]
with open("m.fzn", "w") as model:
    for at, size in enumerate(sizes + others, 1):
        print(f"var 1..{size}: x{at};", file=model)
    names = ",".join(f"x{at}" for at in range(1, len(sizes) + 1))
    ones = ",".join("1" for _ in sizes)
    print(f"constraint int_lin_eq([{ones}],[{names}],0);\nsolve satisfy;", file=model)
number = 0
with open("steps", "w") as steps:
    def refute(values):
        """Writes the steps that exclude these values of the first variables, and returns the number of the last."""
        global number
        if len(values) == len(sizes) - 1:
            reasons = ["c1"] * sizes[-1]
        else:
            reasons = [f"n{refute((*values, value))}" for value in range(1, sizes[len(values)] + 1)]
        number += 1
        pairs = ",".join(f"v{at}={value}" for at, value in enumerate(values, 1))
        print(f"{number} v{len(values) + 1} [{pairs}] <- {' '.join(reasons)}", file=steps)
        return number
    refute(())
END
}
if has python3; then
    # 2 + 257 * 1020 = 262,142 clauses
    excluding 257 1020 - 1 1; limit "262,144 clauses" ""
    excluding 257 1020 - 1 1 1; limit "262,145 clauses" "rules 262145"
    # 5 * (2 * 3 * 28 * 32 * 39) + (2 + 3 + 28 + 32 + 39) = 1,048,424 literals
    excluding 2 3 28 32 39 - 152; limit "1,048,576 literals" ""
    excluding 2 3 28 32 39 - 153; limit "1,048,577 literals" "terms 1048577"
fi

echo "$failed failed"
[ "$failed" = 0 ]
