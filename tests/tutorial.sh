#!/usr/bin/env bash
# Follows README, docs/TUTORIAL.md and docs/COMMANDS.md to the letter, in this order, in a temporary copy of the repository:
# runs each command that they show, and compares what it prints with what they say. ABT_PROGRAM names a program to run for
# `./abt` and `./abt --unproved`; without it that is `./abt --unproved`.
#     tests/tutorial.sh
# The pages' format, by blocks (lines indented by four blanks) and the paragraphs between them:
#   - a block whose first line begins with a word of COMMANDS is commands, one a line. They are run by one shell for all pages.
#   - a paragraph directly behind commands that begins with `prints`: where a backquoted text comes next, it is a line that
#     they print; else the block behind the paragraph is all that they print on standard output, where the line `..` stands
#     for any lines.
#   - a paragraph behind commands, or behind what they print, with the words `has status N` (or `have`): of the last command.
#   - any other block behind a paragraph that ends with a colon and names a file of the copy in backquotes: its lines stand in
#     the last such file, in this order.
#   - any other block is not looked at.
# Not run: lines that begin with a word of NOT_RUN, since they prove, install, or need a place; and blocks of which a line
# needs `minizinc` or `python3`, where that is missing.
set -u
COMMANDS='./abt minizinc export python3 cat cmp printf gzip grep head'
NOT_RUN='.ci/run|./abt --install|./abt --pack|rt '
PAGES='README.md docs/TUTORIAL.md docs/COMMANDS.md'
top=$(cd "$(dirname "$0")/.." && pwd)
room=$(mktemp -d) || exit 1
trap 'rm -rf "$room"' EXIT
if [ -n "${ABT_PROGRAM-}" ]; then
  # behind the launcher as it stands where it is installed, since a page is the launcher's
  mkdir "$room/installed" && cp -r "$top/abt" "$top/launcher" "$top/picture" "$room/installed" || exit 1
  ln -s "$(realpath "$ABT_PROGRAM")" "$room/installed/program" && ln -s "$room/installed/abt" "$room/program" || exit 1
else
  printf '#!/bin/sh\nexec "%s/copy/abt" --unproved "$@"\n' "$room" >"$room/program" && chmod +x "$room/program"
fi
export ABT_PROGRAM=$room/program ABT_HELP=0
cp -r "$top" "$room/copy" && rm -rf "$room/copy/.git" && cd "$room/copy" || exit 1

failed=0 ran=0 compared=0 skipped=0
wrong() { echo "tutorial: $page: $1" >&2; failed=1; }

# the paragraphs (T) and blocks (B) of a page, each with its letter before it and ended by a byte 30
parts() {
  awk '
    function end() { if (text != "") printf "%s%s\036", kind, text; text = ""; blanks = "" }
    /^    / { if (kind != "B") { end(); kind = "B" } text = text (text == "" ? "" : "\n" blanks) substr($0, 5); blanks = ""; next }
    /^$/ { if (kind == "B") blanks = blanks "\n"; else end(); next }
    { if (kind != "T") { end(); kind = "T" } text = text (text == "" ? "" : "\n") $0 }
    END { end() }' "$1"
}

# whether the block is commands
is_commands() {
  local word
  for word in $COMMANDS; do case $1 in "$word"\ *) return 0 ;; esac; done
  grep -qE "^($NOT_RUN)" <<<"$1"
}

# whether the second text is the first one, in which a line `..` stands for any lines
is_like() {
  awk -v shown="$1" -v printed="$2" '
    function like(i, j,    k) {
      if (i > n) return j > m
      if (want[i] == "..") { for (k = j; k <= m + 1; k++) if (like(i + 1, k)) return 1; return 0 }
      return j <= m && want[i] == got[j] && like(i + 1, j + 1)
    }
    BEGIN { gsub(/\034/, "\\", shown); gsub(/\034/, "\\", printed)
      n = split(shown, want, "\n"); m = split(printed, got, "\n"); exit !like(1, 1) }'
}
plain() { tr '\\' '\034' <<<"$1"; }

# whether these lines stand in a file, in this order
stand_in() {
  awk -v shown="$(plain "$1")" '
    BEGIN { gsub(/\034/, "\\", shown); n = split(shown, want, "\n"); i = 1 }
    i <= n && $0 == want[i] { i++ }
    END { exit i <= n }' "$2"
}

# runs the lines of a block, or says that it is not run
follow() {
  local lines tool
  lines=$(grep -vE "^($NOT_RUN)" <<<"$1")
  for tool in minizinc python3; do
    if grep -qE "^$tool " <<<"$1" && ! command -v "$tool" >/dev/null; then lines=; fi
  done
  if [ -z "$lines" ]; then skipped=$((skipped + 1)); return 1; fi
  ran=$((ran + $(wc -l <<<"$lines")))
  eval "$(sed 's#\./abt\( --unproved\)\{0,1\} #"$ABT_PROGRAM" #g' <<<"$lines")" >"$room/out" 2>"$room/err" </dev/null
  status=$?
  return 0
}

# what a paragraph says of the command before it
says_of() {
  local text
  if [[ $1 =~ (has|have)\ status\ ([0-9]+) ]]; then
    compared=$((compared + 1))
    [ "$status" = "${BASH_REMATCH[2]}" ] || wrong "status $status, not ${BASH_REMATCH[2]}: $last: $(head -c 300 "$room/err")"
  fi
  if [ "$before" = commands ] && [[ $1 =~ ^prints\ \`([^\`]*)\` ]]; then
    text=${BASH_REMATCH[1]} compared=$((compared + 1))
    grep -qxF -- "$text" "$room/out" || wrong "$last prints no line '$text': $(head -c 300 "$room/out" "$room/err")"
  fi
}

for page in $PAGES; do
  before=none file=
  while IFS= read -r -d $'\036' part; do
    text=${part:1}
    if [ "${part:0:1}" = T ]; then
      file=
      if [ "$before" = commands ] || [ "$before" = printed ]; then says_of "$text"; fi
      if [ "$before" = commands ] && [[ $text =~ ^prints ]] && ! [[ $text =~ ^prints\ \` ]]; then before=printing; else before=none; fi
      if [[ $text =~ :$ ]]; then
        while read -r name; do [ ! -f "$name" ] || file=$name; done < <(grep -oE '`[^`]+`' <<<"$text" | tr -d '`')
      fi
    elif is_commands "$text"; then
      last=$(tail -n 1 <<<"$text")
      if follow "$text"; then before=commands; else before=skipped; fi
    elif [ "$before" = printing ]; then
      compared=$((compared + 1)) before=printed
      is_like "$(plain "$text")" "$(plain "$(cat "$room/out")")" || {
        wrong "$last prints otherwise:"
        diff <(echo "$text") "$room/out" >&2
        cat "$room/err" >&2
      }
    elif [ -n "$file" ]; then
      compared=$((compared + 1))
      stand_in "$text" "$file" || wrong "these lines do not stand in $file: $text"
    fi
  done < <(parts "$top/$page")
done
if [ "$ran" -eq 0 ] || [ "$compared" -eq 0 ]; then wrong "nothing was run"; fi
[ "$failed" -eq 0 ] && echo "tutorial: $ran commands ran, $compared outputs, statuses and texts as the pages say, $skipped blocks not run"
exit "$failed"
