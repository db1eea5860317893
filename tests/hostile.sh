#!/usr/bin/env bash
# Outside the gate: what is left by a program that is killed, by a disk that is full, by names that are no plain
# files, and by each allocation and each call on a file that fails. hostile.sh [PROGRAM]; without one it takes ./abt.
# PROGRAM is the program itself where failing.c is to be preloaded into it.
set -u
repository=$(cd "$(dirname "$0")/.." && pwd)
program=${1:-$repository/abt}
room=$(mktemp -d)
trap 'rm -rf "$room"' EXIT
cd "$room" || exit 1
failed=0

# tell WHAT GOOD: prints a line, and counts it where it is not good.
tell() {
    if [ "$2" = 1 ]; then echo "ok      $1"; else echo "FAILED  $1"; failed=$((failed + 1)); fi
}

# ends WHAT STATUS ERR WORDS..: the program ends with this status and says this on standard error.
ends() {
    local what=$1 status=$2 said=$3 got=0
    shift 3
    "$program" "$@" > out 2> err || got=$?
    tell "$what: status $status" "$([ "$got" = "$status" ] && [ "$(cat err)" = "$said" ] && echo 1)"
}

# is_part PART WHOLE: the one file is the first part of the other.
is_part() { head -c "$(stat -c %s "$1")" "$2" | cmp -s - "$1"; }

"$program" gen queens 5 > small.fzn || exit 1
printf 'var 0..1: x;\nvar 0..1: y;\nconstraint int_ne(x,y);\nconstraint int_eq(x,y);\nsolve satisfy;\n' > pair.fzn
"$program" solve pair.fzn pair.ngd > /dev/null
"$program" solve pair.fzn other.ngd --record pair.sch > /dev/null
printf 'p cnf 1 2\n1 0\n-1 0\n' > no.cnf
sha256sum small.fzn pair.fzn pair.ngd pair.sch no.cnf > given

echo "== killed at random moments"
# Nine variables with eight values, no two alike: a long refutation.
{
    for v in 1 2 3 4 5 6 7 8 9; do echo "var 1..8: p$v;"; done
    for v in 1 2 3 4 5 6 7 8 9; do for w in 1 2 3 4 5 6 7 8 9; do [ $v -lt $w ] && echo "constraint int_ne(p$v,p$w);"; done; done
    echo "solve satisfy;"
} > long.fzn
began=$(date +%s%N)
"$program" solve long.fzn whole.ngd > /dev/null
took=$((($(date +%s%N) - began) / 1000000))
echo "a whole run takes $took ms and writes $(stat -c %s whole.ngd) bytes"
lines=0 kills=0
for _ in $(seq 1 25); do
    rm -f part.ngd
    "$program" solve long.fzn part.ngd > part.out &
    pid=$!
    sleep "$(printf '0.%03d' $((RANDOM % (took > 900 ? 900 : took + 1))))"
    kill -9 $pid 2> /dev/null && kills=$((kills + 1))
    wait $pid 2> /dev/null
    [ -e part.ngd ] || continue
    is_part part.ngd whole.ngd || tell "the log of a killed run is no first part" 0
    [ -s part.ngd ] && [ "$(tail -c 1 part.ngd | od -An -tx1)" != " 0a" ] || lines=$((lines + 1))
    if [ -s part.out ]; then cmp -s part.ngd whole.ngd || tell "an answer was put before its log was whole" 0; fi
done
tell "$kills runs were killed; each log is a first part of the whole one, $lines of them in whole lines" 1

echo "== a disk that is full"
# The launcher and the bridge have the signal of such a limit ignored; the bare program is killed by it.
(
    [ "$program" = "$repository/abt" ] || trap '' XFSZ
    ulimit -f 8
    "$program" solve long.fzn limited.ngd > limited.out 2> limited.err
    echo $? > limited.status
)
tell "a limit on the file's size: status 6" "$([ "$(cat limited.status)" = 6 ] && [ "$(cat limited.err)" = "abt: fault" ] && [ ! -s limited.out ] && is_part limited.ngd whole.ngd && echo 1)"
(
    ulimit -f 8
    ABT_PROGRAM=$program "$repository/minizinc/abt-fzn" --abt-log bridged.ngd long.fzn > bridged.out 2> bridged.err
    echo $? > bridged.status
)
tell "the same through the bridge: status 6" "$([ "$(cat bridged.status)" = 6 ] && [ "$(cat bridged.err)" = "abt: fault" ] && [ ! -s bridged.out ] && is_part bridged.ngd whole.ngd && echo 1)"
mkdir tiny
if mount -t tmpfs -o size=16k none tiny 2> /dev/null; then
    ends "a small file system" 6 "abt: fault" solve long.fzn tiny/l.ngd
    tell "what it holds is a first part" "$(is_part tiny/l.ngd whole.ngd && echo 1)"
    umount tiny
else
    echo "skipped a small file system: nothing can be mounted here"
fi
if [ -e /dev/full ]; then ends "a log named /dev/full" 6 "abt: fault" solve pair.fzn /dev/full; fi
"$program" solve pair.fzn shut.ngd >&- 2> err
tell "standard output is closed: status 6" "$([ $? = 6 ] && [ "$(cat err)" = "abt: fault" ] && echo 1)"

echo "== one file under two names"
cp pair.fzn twice.fzn && ln twice.fzn hard.fzn && ln -s twice.fzn soft.fzn && cp no.cnf twice.cnf && cp pair.ngd twice.ngd
cp pair.sch twice.sch
sha256sum twice.fzn twice.cnf twice.ngd twice.sch > twice
for words in "solve twice.fzn ./twice.fzn" "solve twice.fzn hard.fzn" "solve twice.fzn soft.fzn" \
    "core twice.fzn twice.ngd ./twice.ngd" "export twice.fzn twice.ngd ./twice.ngd one.rup" "export twice.fzn twice.ngd one.cnf ./twice.fzn" "core twice.fzn twice.ngd ./twice.fzn" "upgrade twice.ngd ./twice.ngd" \
    "replay twice.fzn twice.sch ./twice.sch" "replay twice.fzn twice.sch hard.fzn" "cnf twice.cnf ./twice.cnf" \
    "starve twice.fzn 1 2 ./twice.fzn" "lossy twice.fzn ./twice.fzn 5 1" "solve twice.fzn one.ngd --record ./one.ngd"; do
    # shellcheck disable=SC2086
    ends "$words" 6 "abt: fault" $words
done
tell "what was read is as it was" "$(sha256sum -c --quiet twice > /dev/null 2>&1 && echo 1)"
"$program" solve pair.fzn /dev/null --record //dev/null > out 2> err
tell "the null device under two names: status 1" "$([ $? = 1 ] && [ ! -s err ] && echo 1)"

echo "== few numbers for files, and a small stack"
for number in 4 5 6; do
    (ulimit -n $number && exec "$program" check pair.fzn pair.ngd) > out 2> err
    tell "at most $number files: status 0" "$([ $? = 0 ] && [ "$(cat out)" = verified ] && echo 1)"
done
{
    printf 'var 0..1: x :: a'
    for _ in $(seq 1 190); do printf '(a'; done
    for _ in $(seq 1 190); do printf ')'; done
    printf ';\nsolve satisfy;\n'
} > deep.fzn
for words in "check pair.fzn pair.ngd" "solve small.fzn stack.ngd --record stack.sch --trace" "replay pair.fzn pair.sch stack.ngd" \
    "bound deep.fzn" "upgrade pair.ngd stack.up" "core pair.fzn pair.ngd stack.core" "export pair.fzn pair.ngd stack.cnf stack.rup --atoms" "starve pair.fzn 1 2 stack.starve" \
    "lossy pair.fzn stack.lossy 30 7" "measure pair.fzn pair.sch" "survey small.fzn 5" "story pair.fzn pair.sch stack.story" "drill 1" "cnf no.cnf stack.rup" "rup no.cnf pair.ngd" "gen queens 4"; do
    # shellcheck disable=SC2086
    "$program" $words > whole.out 2> whole.err
    status=$?
    # shellcheck disable=SC2086
    (ulimit -s 64 && exec "$program" $words) > out 2> err
    tell "a stack of 64 KiB: $words" "$([ $? = $status ] && cmp -s out whole.out && cmp -s err whole.err && echo 1)"
done

echo "== names that are no plain files"
mkdir folder
for words in "check folder pair.ngd" "check pair.fzn folder" "solve folder l.ngd" "solve pair.fzn folder" \
    "solve pair.fzn l.ngd --record folder" "replay pair.fzn folder l.ngd" "replay pair.fzn pair.sch folder" \
    "measure folder pair.sch" "measure pair.fzn folder" "survey folder 2" "story pair.fzn pair.sch folder" "story pair.fzn folder t.story" "bound folder" "upgrade folder n.ngd" "upgrade pair.ngd folder" "core folder pair.ngd t.ngd" \
    "core pair.fzn folder t.ngd" "core pair.fzn pair.ngd folder" "export pair.fzn pair.ngd folder p.rup" "export pair.fzn pair.ngd p.cnf folder" "starve pair.fzn 1 2 folder" "starve folder 1 2 s.sch" \
    "lossy folder l.ngd 5 1" "lossy pair.fzn folder 5 1" "rup folder pair.ngd" "rup no.cnf folder" \
    "cnf folder p.rup" "cnf no.cnf folder" "bound none.fzn" "check pair.fzn none.ngd"; do
    # shellcheck disable=SC2086
    ends "$words" 6 "abt: fault" $words
done
if [ "$(id -u)" != 0 ]; then
    cp pair.fzn shut.fzn && chmod 000 shut.fzn
    ends "a model without rights" 6 "abt: fault" bound shut.fzn
    cp pair.ngd kept.ngd && chmod 444 kept.ngd
    ends "a log that may not be written" 6 "abt: fault" solve pair.fzn kept.ngd
    tell "it is as it was" "$(cmp -s pair.ngd kept.ngd && echo 1)"
else
    echo "skipped rights: root has all"
fi
tell "what the lines only read is as it was" "$(sha256sum -c --quiet given > /dev/null 2>&1 && echo 1)"

# sweep KIND NUMBER WORDS..: the line, with KIND set to each number up to this one, or to some 20 of them where they are
# more than 2,000. Each run must end as the line does otherwise, with the same streams and files; or, unless reads and
# writes are only short, with status 7 and `abt: memory` or status 6 and `abt: fault`, and first parts of what it writes
# otherwise; or, where calls on files fail, with its refusal's status, and a first part of the refusal's line. It tells
# how many did what.
sweep() {
    local kind=$1 most=$2 step=1 number got right=0 lacks=0 faults=0 unsaid=0 wrong=""
    shift 2
    [ "$most" -le 2000 ] || step=$((most / 20))
    for ((number = 1; number <= most; number += step)); do
        rm -f new.*
        got=0
        env "LD_PRELOAD=$room/failing.so" "$kind=$number" "$program" "$@" > out 2> err || got=$?
        if [ $got = "$status" ] && cmp -s out whole/out && cmp -s err whole/err && same_files; then
            right=$((right + 1))
        elif [ $got = 7 ] && [[ $kind = FAIL_ALLOC* ]] && [ "$(< err)" = "abt: memory" ] && are_parts; then
            lacks=$((lacks + 1))
        elif [ $got = 6 ] && [[ $kind = FAIL_IO* ]] && said_fault "$kind" && are_parts; then
            faults=$((faults + 1))
        elif [ $got = "$status" ] && [[ $status = [234] && $kind = FAIL_IO* ]] && is_part err whole/err && are_parts; then
            unsaid=$((unsaid + 1))
        else
            wrong="$wrong $number:$got"
        fi
    done
    tell "$*, $kind up to $most: $right as otherwise, $lacks memory, $faults fault, $unsaid unsaid$wrong" "$([ -z "$wrong" ] && echo 1)"
}

# said_fault KIND: the fault was told on standard error, which may fail too where all later calls do.
said_fault() { [ "$(< err)" = "abt: fault" ] || { [ "$1" = FAIL_IOS ] && [ ! -s err ]; }; }

# same_files: the files that the line creates are those of the whole run.
same_files() {
    local name
    for name in new.ngd new.sch new.rup; do
        if [ -e "whole/$name" ]; then cmp -s "$name" "whole/$name" || return 1; else [ ! -e "$name" ] || return 1; fi
    done
}

# are_parts: what was put and written is a first part of what the whole run puts and writes. A search writes its log
# anew in each round, so its log is not compared.
are_parts() {
    local name
    is_part out whole/out || return 1
    for name in new.*; do
        [ "$name" != "$rewritten" ] || continue
        [ ! -e "$name" ] || { [ -e "whole/$name" ] && is_part "$name" "whole/$name"; } || return 1
    done
}

if command -v cc > /dev/null && cc -shared -fPIC -O1 -o failing.so "$repository/tests/failing.c" -ldl; then
    echo "== allocations, and calls on files, that fail or are short, one at a time and from one on"
    printf '0\n' > no.rup
    printf 'var 0..2: x :: output_var;\nvar 0..2: y;\nconstraint int_ne(x,y);\nsolve minimize y;\n' > best.fzn
    "$program" solve best.fzn best.ngd > /dev/null
    mkdir whole
    for words in "check pair.fzn pair.ngd" "solve pair.fzn new.ngd --record new.sch --trace" "solve small.fzn new.ngd" \
        "solve best.fzn new.ngd --record new.sch" "check best.fzn best.ngd --better 0" \
        "replay pair.fzn pair.sch new.ngd --trace" "measure pair.fzn pair.sch" "survey pair.fzn 3" "bound pair.fzn" "order pair.fzn links new.order" "gen queens 4" "gen colouring 6 3 1" "gen sparse 6 1" "gen pigeons 4" "gen binary 4 3 3 2 1" "gen meetings 3 2 2 3 1 0" "gen sensors 2 2 3 0" \
        "upgrade pair.ngd new.ngd" "core pair.fzn pair.ngd new.ngd" "export pair.fzn pair.ngd new.cnf new.rup --atoms" "export best.fzn best.ngd new.cnf new.rup --better 0" "starve pair.fzn 1 2 new.sch" \
        "story pair.fzn pair.sch new.story" "lossy pair.fzn new.ngd 30 7 --record new.sch" "drill 1" "rup no.cnf no.rup" "cnf no.cnf new.rup" "bound no.cnf" \
        "check pair.fzn pair.sch" "bound pair.fzn more" "--help" "--version"; do
        rm -f new.* whole/*
        status=0 rewritten=
        [[ $words != "solve best.fzn"* ]] || rewritten=new.ngd
        # shellcheck disable=SC2086
        COUNTS=counts LD_PRELOAD=$room/failing.so "$program" $words > whole/out 2> whole/err || status=$?
        read -r allocations calls moves < counts
        for name in new.*; do [ ! -e "$name" ] || mv "$name" whole/; done
        # shellcheck disable=SC2086
        for kind in FAIL_ALLOC FAIL_ALLOCS; do sweep $kind "$allocations" $words; done
        # shellcheck disable=SC2086
        for kind in FAIL_IO FAIL_IOS; do sweep $kind "$calls" $words; done
        # shellcheck disable=SC2086
        for kind in SHORT_IO SHORT_IOS; do sweep $kind "$moves" $words; done
    done
else
    echo "skipped failing allocations and calls: no C compiler"
fi

echo "$failed failed"
[ "$failed" = 0 ]
