#!/usr/bin/env bash
# Outside the gate: the processor minutes that each crate costs it, from the slowest down. gate_times.sh [NAME..]; with
# no name all crates. A crate that an earlier run on this machine passed is kept, and costs next to nothing: it is
# marked, so begin on a machine that has kept nothing. Takes about twice as long as the gate.
set -u
cd "$(dirname "$0")/.." || exit 1
said=$(mktemp)
rows=$(mktemp)
trap 'rm -f "$said" "$rows"' EXIT

# below NAME: the crates of this repository that it stands on, which its line of crates.txt leads to.
below() {
    awk -F: -v top="$1" '
        function visit(name, names, count, place) {
            if (!(name in lines) || name in seen) return
            seen[name]
            count = split(lines[name], names, " ")
            for (place = 1; place <= count; place++) visit(names[place])
            if (name != top) print name
        }
        { lines[$1] = $2 }
        END { visit(top) }' crates.txt
}

# lowest_first NAME..: a crate stands on more than one below it.
lowest_first() {
    for name in "$@"; do echo "$(below "$name" | wc -l) $name"; done | sort -n | cut -d ' ' -f 2
}

# spent COMMAND..: its processor seconds; what it says is left in $said.
spent() {
    local TIMEFORMAT='%U %S'
    { time "$@" > "$said" 2>&1; } 2>&1 | awk '{ print $1 + $2 }'
}

# made NAME: builds the library, which `rt must-fail` takes where it is there.
made() { (cd "crates/$1" && rt lib) > "$said" 2>&1 || tail -n 3 "$said" >&2; }

for name in $(lowest_first "${@:-$(sed -n 's/^\([a-z0-9_]*\).*:.*/\1/p' crates.txt)}"); do
    [ -d "crates/$name/src" ] || { echo "no crate $name" >&2; exit 1; }
    echo "$name" >&2
    for dep in $(below "$name"); do rt ci "$dep" > "$said" 2>&1 || tail -n 1 "$said" >&2; done
    whole=$(spent rt ci "$name")
    tail -n 1 "$said" | grep -q ', 0 failed' || { echo "$name does not pass:" >&2; tail -n 5 "$said" >&2; }
    kept=$(grep -q "^rt: $name is kept" "$said" && echo kept)
    edits=0
    if [ -d "crates/$name/must-fail" ]; then
        for dep in $(lowest_first $(below "$name")); do made "$dep"; done
        edits=$(spent rt must-fail "$name" --anew)
    fi
    echo "$name $whole $edits $kept" >> "$rows"
done
printf '%8s %8s  %s\n' whole edits crate
sort -k 2,2nr "$rows" | awk '{ printf "%8.1f %8.1f  %s%s\n", $2 / 60, $3 / 60, $1, $4 == "" ? "" : " (kept)" }'
awk '{ whole += $2; edits += $3 } END { printf "%8.1f %8.1f  all\n", whole / 60, edits / 60 }' "$rows"
