#!/usr/bin/env bash
# Outside the gate: what the launcher tells a reader at a terminal, that it adds nothing elsewhere, and when it builds.
#   launcher.sh [PROGRAM]
# PROGRAM is the program itself; without one it is the proved one, where that was built, else one without a proof.
set -u
repository=$(cd "$(dirname "$0")/.." && pwd)
program=$(readlink -f "${1:-$repository/crates/abt_main/out/abt_main}")
if [ ! -x "$program" ]; then
    "$repository/abt" --unproved gen queens 4 > /dev/null || exit 1
    program=$(echo "$repository"/out/unproved-*)
fi
room=$(mktemp -d)
trap 'rm -rf "$room"' EXIT
failed=0
unset ABT_HELP

# tell WHAT GOOD: prints a line, and counts it where it is not good.
tell() {
    if [ "$2" = 1 ]; then echo "ok      $1"; else echo "FAILED  $1"; failed=$((failed + 1)); fi
}

# A launcher with the program beside it, as it is installed, and a folder to type lines in.
mkdir "$room/place" "$room/typed"
cp -r "$repository/abt" "$repository/launcher" "$room/place"
cp "$program" "$room/place/program" && chmod 755 "$room/place/program"
abt=$room/place/abt
cp "$repository"/examples/*.* "$room/typed"
cd "$room/typed" || exit 1

# terminal.py COMMAND..: with standard error on a pseudo-terminal; what comes there is put on standard error, and the
# status is the command's as a shell sees it. With TYPED set the command has that terminal for all its streams, and these
# characters are typed there after a second.
cat > "$room/terminal.py" << 'END'
import os, pty, subprocess, sys, time

def read_all(stream):
    data = b""
    while True:
        try:
            piece = os.read(stream, 65536)
        except OSError:
            return data
        if not piece:
            return data
        data += piece

typed = os.environ.get("TYPED")
if typed:
    child, master = pty.fork()
    if child == 0:
        os.execvp(sys.argv[1], sys.argv[1:])
    time.sleep(1)
    os.write(master, typed.encode())
    data = read_all(master)
    status = os.waitstatus_to_exitcode(os.waitpid(child, 0)[1])
else:
    master, terminal = os.openpty()
    child = subprocess.Popen(sys.argv[1:], stderr=terminal)
    os.close(terminal)
    data = read_all(master)
    status = child.wait()
sys.stderr.buffer.write(data.replace(b"\r\n", b"\n"))
sys.exit(status if status >= 0 else 128 - status)
END
at_terminal() { python3 "$room/terminal.py" "$@"; }

# judge WHAT STATUS TELLS: what is in the file err has these lines' texts, one in each line of TELLS, and no line that
# does not begin with `abt: `; the run ended with the status.
judge() {
    local what=$1 status=$2 told good=1
    while read -r told; do [ -z "$told" ] || grep -qF -- "$told" err || { good=0 && echo "        not told: $told"; }; done <<< "$3"
    grep -qv '^abt: ' err && good=0
    [ "$got" = "$status" ] || { good=0 && echo "        status $got"; }
    tell "$what" $good
    [ $good = 1 ] || cat err
}

# row WHAT STATUS TELLS WORDS..: at a terminal the launcher tells this; where there is none, output, errors and status
# are the program's.
row() {
    local what=$1 status=$2 tells=$3 got=0 plain=0
    shift 3
    at_terminal "$abt" "$@" > out 2> err || got=$?
    judge "$what" "$status" "$tells"
    got=0
    "$program" "$@" > good.out 2> good.err || got=$?
    "$abt" "$@" > plain.out 2> plain.err || plain=$?
    tell "$what: nothing is added without a terminal" \
        "$([ $got = $plain ] && cmp -s good.out plain.out && cmp -s good.err plain.err && cmp -s good.out out && echo 1)"
}

echo "== words"
printf 'var 0..1: x;\nvar 0..1: y;\nconstraint int_ne(x,y);\nsolve satisfy;\n' > m
row "no words" 2 "usage:
abt solve MODEL LOG [--seed N] [--choices N] [--record FILE] [--order FILE] [--trace] [--progress] [--each] [--halves]
a first answer"
row "-h" 2 "abt check MODEL LOG [--better N]" -h
row "help" 2 "abt bound MODEL" help
row "solve --help" 2 "usage: abt solve MODEL LOG [--seed N] [--choices N] [--record FILE] [--order FILE] [--trace] [--progress] [--each] [--halves]
LOG is the file that a log is written to" solve --help
row "version" 2 "did you mean abt --version" version
row "a log is forgotten" 2 "LOG is missing, as in: abt solve m out.ngd" solve m
row "--seed=7" 2 "--seed=7 is written with a blank: --seed 7" solve m l --seed=7
row "options first" 2 "options follow the names: abt solve m l --seed 7" solve --seed 7 m l
row "--seed without a number" 2 "--seed wants a word after it: N is a number from 0 to 2^64 - 1" solve m l --seed
row "--seed -1" 2 "N is a number from 0 to 2^64 - 1, in digits; -1 is none" solve m l --seed -1
row "--trace twice" 2 "--trace is given twice" solve m l --trace --trace
row "slove" 2 "did you mean abt solve m l" slove m l
row "equal names" 2 "MODEL and LOG are both m: each file of a line has a name of its own" solve m m
row "solve - without a log" 2 "LOG is missing, as in: abt solve /dev/stdin out.ngd" solve -
row "starve m 0 1" 2 "FILE is missing
variables are numbered from 1" starve m 0 1
row "starve m x y" 2 "FILE is missing
x is variable 1 of m
y is variable 2 of m" starve m x y
row "starve by names" 2 "FROM is a number from 1 to 4,096, in digits; x is none
x is variable 1 of m" starve m x y s
row "gen queens 500" 2 "N is a number from 1 to 200; 500 is out of range" gen queens 500
row "more people in a meeting than there are" 2 "EACH is 2 at most, as many as there are people" gen meetings 2 2 3 3 1 0
row "people without a free hour" 2 "BUSY is 2 at most, so that each person has a free hour" gen meetings 3 2 3 3 3 0
row "more sensors than there are" 2 "SEES is 4 at most, as many as there are sensors" gen sensors 2 1 5 0
row "more edges than pairs" 2 "EDGES is 3 at most, the pairs of 3 variables" gen binary 3 2 4 0 0
row "more forbidden pairs than there are" 2 "PAIRS is 4 at most, the pairs of 2 values" gen binary 3 2 3 5 0
row "too many terms" 2 "a model has 1,048,576 terms at most, and this one would have 398,039,800" gen binary 200 100 19900 0 1
row "a seed past the last" 2 "the last seed is 2^64 - 1 at most, and 18446744073709551616 is not" survey m 2 --from 18446744073709551615
row "gen" 2 "the word after gen is queens or colouring" gen
row "an unknown option" 2 "solve has no option --sed: did you mean --seed?" solve m l --sed 7
row "a word too many" 2 "b is one word too many" solve m l b
row "a model alone" 2 "a line begins with what is to be done, as in: abt solve m out.ngd" m
row "an empty log's name" 2 "LOG is empty: LOG is the file that a log is written to" solve m ''
row "- as log" 2 "- is standard input in the place of a model or formula alone" solve m -
row "leading zeros" 2 "007 is not so written" solve m l --seed 007
row "an empty name" 2 "MODEL is empty" solve '' l
row "a name like an option" 2 "solve has no option -x: it has --seed, --choices, --record, --order, --trace, --progress, --each, --halves" solve m -x
row "names with blanks, quotes and line feeds" 2 "options follow the names: abt solve 'a b' \$'it\\'s\\n' --trace" solve 'a b' --trace $'it\'s\n'
row "a word that is not UTF-8" 2 "is not written in UTF-8" solve $'\xff' l

echo "== files"
row "a missing model" 6 "MODEL maekspan.fzn is not there; did you mean makespan.fzn?" solve maekspan.fzn l
row "a missing folder of the log" 6 "LOG none/l: there is no folder none; this makes it: mkdir -p none" solve m none/l
row "a folder as model" 6 "MODEL $room is a folder, and a file is wanted" solve "$room" l
row "a log that takes nothing" 6 "LOG /dev/full is a device that takes nothing" solve m /dev/full
if [ "$(id -u)" != 0 ]; then
    cp m shut && chmod 000 shut
    row "no rights" 6 "MODEL shut may not be read" solve shut l
    mkdir closed && chmod 555 closed
    row "no rights in a folder" 6 "LOG closed/l may not be written: its folder is protected" solve m closed/l
elif command -v setpriv > /dev/null && chmod -R a+rX "$room" && chmod a+w . && cp m shut && chmod 600 shut; then
    # root has all rights, so another user types this line
    got=0
    at_terminal setpriv --reuid 65534 --regid 65534 --clear-groups "$abt" solve shut l.other > out 2> err || got=$?
    judge "no rights" 6 "MODEL shut may not be read"
    rm -f l.other shut
else
    echo "skipped a model without rights: root has all"
fi

echo "== refused models"
row "a model in MiniZinc" 3 "meeting.mzn:10:22: 
meeting.mzn is a model in MiniZinc, and FlatZinc is read here
minizinc -c -G std meeting.mzn    (to meeting.fzn)" solve meeting.mzn l
printf 'include "globals.mzn";\nvar 0..1: x;\nsolve satisfy;\n' > unnamed
row "a model in MiniZinc by another name" 3 "unnamed:1:1: 
unnamed is a model in MiniZinc" solve unnamed l
row "model and log are swapped" 3 "m1.ngd is a log, and MODEL is to be a model
the names are swapped: abt check m1.fzn m1.ngd" check m1.ngd m1.fzn
# refused WHAT TELLS TEXT: the model of this text is refused.
refused() {
    printf '%b' "$3" > refused.fzn
    row "$1" 3 "$2" solve refused.fzn l
}
refused "a float" "refused.fzn:2:1: floats, and sets as variables, are not read
  var 0.0..1.0: y;
  ^" 'var 0..1: x;\nvar 0.0..1.0: y;\nsolve satisfy;\n'
refused "a set" "refused.fzn:1:1: floats, and sets" 'var set of 1..3: s;\nsolve satisfy;\n'
refused "an integer without bounds" "refused.fzn:2:1: this integer has no bounds
write a range in its declaration, as \`var 0..100: x\`" 'var 0..1: x;\nvar int: y;\nsolve satisfy;\n'
refused "a huge domain" "refused.fzn:1:1: this variable would have more than 65,536 values" 'var 0..100000: y;\nsolve satisfy;\n'
refused "a name that is not declared" "refused.fzn:2:25: no declaration before this place has this name
                          ^
did you mean count?" 'var 0..1: count;\nconstraint int_eq(count,coumt);\nsolve satisfy;\n'
refused "a name twice" "refused.fzn:2:11: this name was declared before" 'var 0..1: x;\nvar 0..1: x;\nsolve satisfy;\n'
refused "a wrong type" "refused.fzn:2:21: what stands here is not of the sort" 'var 0..1: x;\nconstraint int_eq(x,[x]);\nsolve satisfy;\n'
refused "an unknown constraint" "refused.fzn:2:12: no constraint has this name" 'var 0..1: x;\nconstraint int_sqrt(x,x);\nsolve satisfy;\n'
refused "no solve item" "refused.fzn: the model ends without a solve item
end it with \`solve satisfy;\`" 'var 0..1: x;\n'
refused "text after the solve item" "refused.fzn:3:1: 
the solve item is the last one: leave out what follows it" 'var 0..1: x;\nsolve satisfy;\nbye\n'
refused "a declaration after the solve item" "refused.fzn:3:1: this item comes too late" 'var 0..1: x;\nsolve satisfy;\nvar 0..1: y;\n'
refused "an empty model" "refused.fzn is empty" ''
refused "a byte order mark" "byte order mark" '\xef\xbb\xbfvar 0..1: x;\nsolve satisfy;\n'
refused "what a terminal would obey" "  var 0..1: x; ??[31m" 'var 0..1: x; \x1b\x1b[31m\nsolve satisfy;\n'
printf 'p cnf 2 1\n1 2 0\n' > f.cnf
row "a formula as model" 3 "f.cnf is a formula, and MODEL is to be a model
it is read by: abt cnf CNF PROOF" solve f.cnf l
printf 'p cnf 2 1\n1 3 0\n' > g.cnf
row "a formula with a wrong literal" 3 "g.cnf:2:3: the word that begins here is not read
  1 3 0
    ^" cnf g.cnf l
printf 'var 1..4097: x;\nconstraint bool_eq(true,false);\nsolve satisfy;\n' > large.fzn
printf 'ngd 1\n1 - [] <- c1\nend\n' > large.ngd
row "an export that is too large" 3 "the formula would have more than 4,096 variables
check takes the log" export large.fzn large.ngd l k
row "no aim" 3 "leave out --better" check m1.fzn m1.ngd --better 5

echo "== refused logs and schedules, answers that are no or none"
sed 's/$/\r/' m1.ngd > cr.ngd
row "a log with carriage returns" 4 "cr.ngd:1: this is no line of a log
  ngd 1?
sed -i 's/\\r\$//' cr.ngd" check m1.fzn cr.ngd
head -c 60 m1.ngd > cut.ngd
row "a log that is cut off" 4 "cut.ngd:4: 
  3 v1 [] <- n
it has no line feed at its end" check m1.fzn cut.ngd
head -n 3 m1.ngd > lines.ngd
row "a log without its last lines" 4 "lines.ngd:4: this line is missing
the file has 3 lines, and none of them is \`end\`" check m1.fzn lines.ngd
row "a model as log" 4 "m1.fzn is a model, and LOG is to be a log" check meeting.fzn m1.fzn
sed '1s/1/2/' m1.ngd > two.ngd
row "an upgraded log" 4 "the log is of version 2 already" upgrade two.ngd new.ngd
row "a log of another model" 1 "the log does not show that busy.fzn has no solution
a log speaks of one model" check busy.fzn m1.ngd
row "a log of a run that was solved" 1 "its last step is no empty nogood" check meeting.fzn meeting.ngd
row "a log of a best value" 1 "makespan.fzn asks for the least done
abt check makespan.fzn makespan.ngd --better N" check makespan.fzn makespan.ngd
row "a log of another best value" 1 "has no better value than 6
N is the value of done that solve printed" check makespan.fzn makespan.ngd --better 6
printf 'schedule 1\n0\nx\nend\n' > wrong.sch
row "a wrong schedule" 4 "wrong.sch:3: this is no line of a schedule
  x
a number from 0 to 4294967295 on each line" replay meeting.fzn wrong.sch l
row "a log as schedule" 4 "m1.ngd is a log, and SCHEDULE is to be a schedule" replay meeting.fzn m1.ngd l
printf 'schedule 1\n0\n0\nend\n' > short.sch
row "a schedule that is too short" 5 "the 2 choices of short.sch were used up
put more numbers before its \`end\`
abt solve meeting.fzn LOG --record FILE" replay meeting.fzn short.sch l
row "starve of variables that do not exist" 0 "m has 2 variables, and there is no number 5 or 9: so nothing was starved" starve m 5 9 s

echo "== nothing to tell"
for words in "solve m l" "check m1.fzn m1.ngd" "solve m1.fzn l" "--help" "--version" "gen queens 4" "starve m 1 2 s" "bound m"; do
    # shellcheck disable=SC2086
    row "$words" "$("$program" $words > /dev/null 2>&1; echo $?)" "" $words
    tell "$words: nothing is told" "$([ ! -s err ] && echo 1)"
done
got=0
ABT_HELP=1 "$abt" slove m l > out 2> err || got=$?
judge "ABT_HELP=1 without a terminal" 2 "did you mean abt solve m l"
ABT_HELP=0 at_terminal "$abt" slove m l > out 2> err
tell "ABT_HELP=0 at a terminal" "$([ "$(cat err)" = "abt: bad words" ] && echo 1)"

echo "== streams and signals"
# both WHAT STATUS TELLS COMMAND: a shell's command, in which $abt is the launcher, at a terminal and without one.
both() {
    local got=0
    at_terminal bash -c "set -o pipefail; abt=\$1; $4" bash "$abt" > out 2> err || got=$?
    judge "$1" "$2" "$3"
    got=0
    bash -c "set -o pipefail; abt=\$1; $4" bash "$abt" > out 2> err || got=$?
    tell "$1: nothing is added without a terminal" "$([ $got = "$2" ] && [ "$(wc -l < err)" -le 1 ] && echo 1)"
}
both "solve - from a file" 3 "/dev/stdin:2:1: this integer has no bounds" "printf 'var 0..1: x;\nvar int: y;\n' > i; \$abt solve - l < i"
both "solve - from a pipe" 3 "/dev/stdin: this integer has no bounds
its text cannot be read again to show the place" "printf 'var int: y;\n' | \$abt solve - l"
for words in "solve - l" "bound -" "check - m1.ngd" "core - m1.ngd t" "starve - 1 2 s"; do
    # shellcheck disable=SC2086
    "$abt" $words < m1.fzn > out 2> err
    # shellcheck disable=SC2086
    "$program" ${words/ -/ m1.fzn} > good.out 2> good.err
    tell "$words reads standard input" "$(cmp -s out good.out && cmp -s err good.err && echo 1)"
done
both "output is closed" 6 "standard output is closed" "\$abt gen queens 8 >&-"
both "the reader of the output has ended" 6 "standard output is closed: the command that read it has ended" "\$abt gen queens 200 | true"
both "no room for the output" 6 "standard output is a device that takes nothing" "\$abt gen queens 8 > /dev/full"
both "a limit on the size of files" 6 "LOG limited.ngd: the limit on the size of files is 8192 bytes" \
    "ulimit -f 8; \$abt solve makespan.fzn limited.ngd"
mkdir tiny
if mount -t tmpfs -o size=16k none tiny 2> /dev/null; then
    both "a full disk" 6 "LOG tiny/l: the disk is full" "\$abt solve makespan.fzn tiny/l"
    umount tiny
else
    echo "skipped a full disk: nothing can be mounted here"
fi
mkfifo pipe
(printf 'var 0..1: x;\nvar int: y;\nsolve satisfy;\n' > pipe) &
got=0
at_terminal timeout 20 "$abt" solve pipe l > out 2> err || got=$?
judge "a model from a named pipe" 3 "pipe is no plain file, so its text cannot be read again"
for words in "check <(cat m1.fzn) <(cat m1.ngd)" "solve meeting.fzn >(cat > l.pipe)" "replay meeting.fzn <(cat meeting.sch) /dev/null" \
    "core m1.fzn <(cat m1.ngd) >(cat > t.pipe)" "upgrade <(cat m1.ngd) /dev/null"; do
    got=0
    bash -c "timeout 20 \"\$1\" $words" bash "$abt" > out 2> err || got=$?
    tell "$words" "$([ $got = 0 ] && echo 1)"
done
sleep 0.2
tell "what went into pipes" "$(cmp -s l.pipe meeting.ngd && cmp -s t.pipe m1.ngd && echo 1)"
# eleven variables with ten values, no two alike: minutes of work
{
    for v in {1..11}; do echo "var 1..10: p$v;"; done
    for v in {1..11}; do for ((w = v + 1; w <= 11; w++)); do echo "constraint int_ne(p$v,p$w);"; done; done
    echo "solve satisfy;"
} > long.fzn
got=0
TYPED=$'\x03' at_terminal "$abt" solve long.fzn long.ngd > out 2> err || got=$?
tell "an interrupt" "$([ $got = 130 ] && grep -q 'abt: interrupted before an answer: long.ngd may hold a first part only' err && echo 1)"
for signal in TERM KILL; do
    # the launcher is ended, and the program with it
    at_terminal bash -c "\"\$1\" solve long.fzn long.ngd & sleep 0.5; kill -$signal \$!; wait \$!; echo \$? > ended" bash "$abt" > out 2> err
    sleep 0.2
    running=no
    for folder in /proc/[0-9]*; do
        tr '\0' ' ' 2> /dev/null < "$folder/cmdline" | grep -qF "$room/place/program solve long.fzn" && running=yes
    done
    tell "the launcher gets $signal" "$([ $running = no ] && [ "$(cat ended)" = $((128 + $(kill -l $signal))) ] && echo 1)"
done
{ echo "var 0..1: x;" && yes "constraint int_le(x,x);" | head -n 200000 && echo "var int: y;"; } > large.fzn
got=0
at_terminal "$abt" solve large.fzn l > out 2> err || got=$?
judge "a large model, $(stat -c %s large.fzn) bytes" 3 "large.fzn:200002:1: this item comes too late"
said=$(head -n 1 err) SECONDS=0
python3 -B "$repository/launcher/help.py" help 3 "$said" solve large.fzn l 2> out
tell "help on it took $SECONDS seconds" "$([ $SECONDS -lt 3 ] && echo 1)"
yes "constraint int_le(x,x);" | head -n 400000 | tr -d '\n' >> large.fzn
got=0
at_terminal "$abt" check m1.fzn large.fzn > out 2> err || got=$?
judge "a line of a megabyte" 4 "large.fzn is a model, and LOG is to be a log"

echo "== the program's own texts"
if "$program" --usage > /dev/null 2>&1; then
    for text in help version usage; do
        "$program" --$text > out
        tell "launcher/$text.txt is what --$text prints" "$(cmp -s out "$repository/launcher/$text.txt" && echo 1)"
    done
else
    echo "skipped the texts: this program is older than --usage"
fi
cat > "$room/words.py" << 'END'
import random, subprocess, sys

# words.py PROGRAM HELP COUNT: whether words are a line is what the program says of as many random words.
program, help_py, count = sys.argv[1:4]
draw = random.Random(7)
keywords = "solve replay check upgrade core export starve lossy bound measure survey story order gen cnf rup queens colouring sparse pigeons --help --version".split()
others = ["m", "l", "k", "n", "--seed", "--choices", "--record", "--order", "--from", "links", "--trace", "--progress", "--each", "--halves", "--better", "0", "7", "007", "-0", "-5", "200", "500", "4097", "", "-", "-x", "--seed=7",
          str(2**64 - 1), str(2**64), str(-(2**63)), str(2**63), "a b", "\n", "x=1", "٣", "+3"]
wrong = 0
for at in range(int(count)):
    words = [draw.choice(keywords), *(draw.choice(others) for _ in range(draw.randrange(7)))]
    if words[0] == "gen" and draw.random() < 0.8:
        words[1:] = [draw.choice(["queens", "colouring", "sparse", "pigeons", "binary", "meetings", "sensors"]), *(draw.choice(["1", "2", "5", "16", "17", "200", "201", "4096", "4097", "01"]) for _ in range(draw.randrange(8)))]
    if words[0] == "gen" and draw.random() < 0.4:
        word, count = draw.choice([("binary", 5), ("meetings", 6), ("sensors", 4)])
        words[1:] = [word, *(str(draw.randrange(8)) for _ in range(count))]
    if words[0] in ("solve", "lossy", "starve", "check") and draw.random() < 0.6:
        numbers = {"solve": [], "check": [], "lossy": ["0"], "starve": ["1"]}[words[0]]
        words[1:3] = {"starve": ["m", "1", "2", "f"], "lossy": ["m", "l", "5", "7"]}.get(words[0], ["m", "l"])
    ran = subprocess.run([program, *words], capture_output=True, cwd=sys.argv[4])
    found = subprocess.run([sys.executable, "-E", "-S", "-B", "-X", "utf8", help_py, "is-line", *words]).returncode
    if (ran.returncode == 2) != (found == 3):
        wrong += 1
        print("differs:", words, ran.returncode, found)
sys.exit(wrong != 0)
END
mkdir empty
python3 "$room/words.py" "$program" "$repository/launcher/help.py" 600 empty
tell "whether 600 random words are lines" "$([ $? = 0 ] && echo 1)"
missing=$(grep -rhoE 'b"abt: (model|cnf|log|schedule|order|proof): [^"\\]*' --include='*.rt' --exclude-dir='*_trials' --exclude-dir=out "$repository/crates" | sed -e 's/b"abt: //' | sort -u |
    while read -r said; do grep -qF -- "$said" "$repository/launcher/refusals.txt" || echo "$said"; done)
tell "refusals.txt has each refusal of the sources" "$([ -z "$missing" ] && echo 1)"
[ -z "$missing" ] || echo "$missing"

echo "== builds"
# A repository of two crates, and a stub in the toolchain's place, which tells how it was called.
mkdir -p "$room/clone/crates/low/src" "$room/clone/crates/abt_main/src" "$room/bin" "$room/shut"
cp -r "$repository/abt" "$repository/launcher" "$repository/HANDLES" "$room/clone"
printf '# one and another\nabt_main: low itoa\nlow:\nhigh: abt_main\n' > "$room/clone/crates.txt"
echo "fn low" > "$room/clone/crates/low/src/lib.rt"
echo "fn main" > "$room/clone/crates/abt_main/src/main.rt"
cat > "$room/bin/rt" << 'END'
#!/bin/sh
echo "$@" >> "$CALLED"
case $1 in
ci)
    echo "rt: low is kept: it was proved before"
    echo "rt: abt_main proved"
    mkdir -p crates/abt_main/out && cp "$STUB" crates/abt_main/out/abt_main
    ;;
try)
    mkdir "$TMPDIR/trial" && cp "$STUB" "$TMPDIR/trial/program"
    while [ "$1" != -- ]; do shift; done && shift
    "$TMPDIR/trial/program" "$@"
    status=$?
    rm -r "$TMPDIR/trial"
    exit $status
    ;;
esac
END
chmod +x "$room/bin/rt"
export CALLED=$room/called STUB=$program
clone=$room/clone/abt
# without PATH WORDS..: a line of words in the clone, with only these folders on the path besides the system's
in_clone() { PATH=$1:/usr/bin:/bin "$clone" "${@:2}" > out 2> err; }
in_clone "$room/bin" --help && tell "--help without a build" "$(cmp -s out "$repository/launcher/help.txt" && [ ! -e "$CALLED" ] && echo 1)"
in_clone "$room/bin" --version && tell "--version without a build" "$(cmp -s out "$repository/launcher/version.txt" && [ ! -e "$CALLED" ] && echo 1)"
in_clone "$room/bin" slove m l
tell "no line, and no build" "$([ $? = 2 ] && [ "$(cat err)" = "abt: bad words" ] && [ ! -e "$CALLED" ] && echo 1)"
in_clone "$room/bin" --unproved slove m l
tell "no line, and no trial run" "$([ $? = 2 ] && [ "$(cat err)" = "abt: bad words" ] && [ ! -e "$CALLED" ] && echo 1)"
in_clone "$room/shut" solve m l
tell "no toolchain" "$([ $? = 70 ] && grep -q "the toolchain's rt is not on the path" err && echo 1)"
in_clone "$room/bin" --unproved solve m l
tell "without a proof, first" "$([ $? = 0 ] && cut -d ' ' -f 1 "$CALLED" | grep -qx try && grep -qx -- ---------- out && grep -q 'not proved' err && echo 1)"
rm -f "$CALLED"
in_clone "$room/shut" --unproved solve m l
tell "without a proof, again" "$([ $? = 0 ] && [ ! -e "$CALLED" ] && grep -qx -- ---------- out && grep -q 'not proved' err && echo 1)"
echo "// more" >> "$room/clone/crates/low/src/lib.rt"
in_clone "$room/bin" --unproved bound m
tell "without a proof, after a change" "$([ $? = 0 ] && [ "$(wc -l < "$CALLED")" = 1 ] && [ "$(find "$room/clone/out" -type f | wc -l)" = 1 ] && echo 1)"
rm -f "$CALLED"
in_clone "$room/bin" bound m
tell "the first proved call builds" "$([ $? = 0 ] && [ "$(cat "$CALLED")" = ci ] && grep -q '2 of 2 crates, .* 0 minutes are left' err && echo 1)"
rm -f "$CALLED"
in_clone "$room/shut" bound m
tell "the second one does not" "$([ $? = 0 ] && [ ! -s err ] && echo 1)"
sleep 1
touch "$room/clone/crates/high" "$room/clone/crates/low/src/lib.rt"
in_clone "$room/shut" bound m
tell "a newer source of a crate below is seen" "$([ $? = 70 ] && echo 1)"

rm -rf "$room/clone/out" "$room/clone/crates/abt_main/out"
mkdir "$room/broken" && printf '#!/bin/sh\necho refused\nexit 1\n' > "$room/broken/rt" && chmod +x "$room/broken/rt"
in_clone "$room/broken" bound m
tell "a build that fails" "$([ $? = 70 ] && grep -q refused err && grep -q 'the build failed' err && echo 1)"
in_clone "$room/broken" --unproved bound m
tell "a trial run that fails" "$([ $? = 70 ] && grep -q refused err && grep -q 'made no program' err && echo 1)"
mkdir "$room/slow" && printf '#!/bin/sh\npwd > "$CALLED"\nexec sleep 97.31\n' > "$room/slow/rt" && chmod +x "$room/slow/rt"
for words in "bound m" "--unproved bound m"; do
    # shellcheck disable=SC2086
    PATH=$room/slow:/usr/bin:/bin "$clone" $words > out 2> err &
    sleep 1.5
    kill $! && wait $!
    tell "a build that is ended: $words" "$([ $? = 70 ] && ! pgrep -f "^sleep 97.31$" > /dev/null && echo 1)"
done
mkdir "$room/few"
for tool in bash env awk sed grep find xargs sort sha256sum readlink dirname cat; do ln -s "$(command -v $tool)" "$room/few"; done
got=0
env PATH="$room/few" "$(python3 -c 'import sys; print(sys.executable)')" "$room/terminal.py" "$abt" solve m > out 2> err || got=$?
tell "without python3 nothing is added" "$([ $got = 2 ] && [ "$(cat err)" = "abt: bad words" ] && echo 1)"

echo "== installed, and packed"
in_clone "$room/bin" bound m
cp -r "$repository"/{README.md,CHANGELOG.md,CITATION.cff,LICENSE,docs,examples,minizinc,picture} "$room/clone"
prefix="$room/a place/with \"quotes\""
mkdir -p "$prefix"
in_clone "$room/shut" --install "$prefix"
tell "--install" "$([ $? = 0 ] && [ -x "$prefix/bin/abt" ] && echo 1)"
in_clone "$room/shut" --install "$prefix"
tell "--install again" "$([ $? = 0 ] && [ "$(ls -A "$prefix/lib")" = abt ] && echo 1)"
(cd "$prefix/lib/abt" && sha256sum -c --quiet SUMS) && tell "sums of what was installed" 1
(cd "$room/clone" && sha256sum -c --quiet "$prefix/lib/abt/SOURCES") && tell "sums of the sources" 1
rm -rf "$room/clone/out"
"$prefix/bin/abt" solve m l > out 2> err
tell "the installed program" "$([ $? = 0 ] && grep -qx -- ---------- out && [ ! -s err ] && echo 1)"
got=0
at_terminal "$prefix/bin/abt" solve none l > out 2> err || got=$?
judge "the installed program at a terminal" 6 "MODEL none is not there"
"$prefix/bin/abt" --unproved solve m l 2> err
tell "--unproved of an installed program" "$([ $? = 70 ] && echo 1)"
python3 - "$prefix" << 'END'
import json, os, sys
found = json.load(open(sys.argv[1] + "/share/minizinc/solvers/abt.msc"))
sys.exit(not all(os.path.isabs(found[it]) and os.path.exists(found[it]) for it in ("executable", "mznlib")))
END
tell "MiniZinc's configuration has absolute names of files" "$([ $? = 0 ] && echo 1)"
if command -v minizinc > /dev/null; then
    MZN_SOLVER_PATH="$prefix/share/minizinc/solvers" minizinc --solver abt meeting.mzn > out 2> err
    tell "MiniZinc with the installed program" "$(grep -qx -- ---------- out && echo 1)"
fi
if command -v man > /dev/null; then
    man --warnings -E UTF-8 -l "$prefix/share/man/man1/abt.1" > out 2> err
    tell "the manual page" "$([ ! -s err ] && grep -q 'abt solve MODEL LOG' out && grep -qE '^(THE )?COMMANDS' out && echo 1)"
fi
mkdir "$prefix/other" && mkdir -p "$prefix/other/lib/abt"
in_clone "$room/shut" --install "$prefix/other"
tell "a folder of another's is left alone" "$([ $? = 6 ] && [ -z "$(ls -A "$prefix/other/lib/abt")" ] && echo 1)"
in_clone "$room/shut" --install
tell "--install without a folder" "$([ $? = 2 ] && echo 1)"
in_clone "$room/shut" --pack "$room/packed file.tar.gz"
mkdir "$room/elsewhere" && tar xzf "$room/packed file.tar.gz" -C "$room/elsewhere"
unpacked=$(echo "$room"/elsewhere/*)
(cd "$room/elsewhere" && env -i PATH=/usr/bin:/bin "$unpacked/abt" check "$unpacked/examples/m1.fzn" "$unpacked/examples/m1.ngd") > out 2> err
tell "--pack, unpacked elsewhere" "$([ "$(cat out)" = verified ] && [ ! -s err ] && grep -q rattle-kit "$unpacked/SUMS" && echo 1)"
(cd "$unpacked" && sha256sum -c --quiet SUMS) && tell "its sums" 1
"$unpacked/abt" --install "$room/again" > out 2> err
tell "the unpacked program installs" "$([ $? = 0 ] && cmp -s "$room/again/lib/abt/SOURCES" "$prefix/lib/abt/SOURCES" && echo 1)"

# completes SHELL LINE GOOD: the words that complete the last word of the line are these
completes() {
    local found
    case $1 in
        bash) found=$(bash -c '. "$0" && COMP_WORDS=($1) && [ "${1% }" = "$1" ] || COMP_WORDS+=(""); COMP_CWORD=$((${#COMP_WORDS[@]} - 1)); _abt; printf "%s\n" "${COMPREPLY[@]}"' "$prefix/share/bash-completion/completions/abt" "$2") ;;
        fish) found=$(fish -c "source '$prefix/share/fish/vendor_completions.d/abt.fish'; complete -C '$2'" | cut -f 1) ;;
    esac
    tell "$1 completes: $2" "$([ "$(sort <<< "$found" | xargs)" = "$3" ] && echo 1)"
}
for shell in bash fish; do
    command -v $shell > /dev/null || continue
    completes $shell "abt so" solve
    completes $shell "abt gen " "binary colouring meetings pigeons queens sensors sparse"
    completes $shell "abt solve m1.f" m1.fzn
    completes $shell "abt solve m l --" "--choices --each --halves --order --progress --record --seed --trace"
    completes $shell "abt solve m l --record m1.n" m1.ngd
    completes $shell "abt solve m l --seed " ""
done
if command -v zsh > /dev/null; then tell "zsh reads its completions" "$(zsh -n "$prefix/share/zsh/site-functions/_abt" && echo 1)"; fi

echo "$failed failed"
[ "$failed" = 0 ]
