#!/usr/bin/env bash
# Compares README's table of commands and docs/COMMANDS.md with what `abt --usage` prints: each row has its form in both,
# and each of its words its line in docs/COMMANDS.md; neither has more. The rows are read from a program where one is
# named, and else from crates/abt_trials/src/plain.rt, where a test compares them with the program's.
#     tests/usage.sh [PROGRAM]
set -u
cd "$(dirname "$0")/.." || exit 1
if [ $# -gt 0 ]; then
  rows=$("$1" --usage) || exit 1
else
  rows=$(sed -n '/^const USAGE/,/^";/{s/^const USAGE: &\[u8\] =//;s/^ *b"//;/^";/d;/^$/d;p}' crates/abt_trials/src/plain.rt)
fi
failed=0
wrong() { echo "usage: $1" >&2; failed=1; }

# what the token of a place says, as docs/COMMANDS.md has it
said_of() {
  local kind shown first second
  IFS=: read -r kind shown first second <<<"$1"
  case $kind in
    file) echo "$first, $second" ;;
    number | signed) echo "number, $first to $second" ;;
    word) echo "one of $first ${second//:/ }" ;;
  esac
}

# the section of docs/COMMANDS.md whose heading is this line
section() { awk -v head="$1" '$0 == head { on = 1; next } /^## / { on = 0 } on' docs/COMMANDS.md; }

forms=0
table=$(sed -n '/^## Commands/,/^## Through/p' README.md)
set -f
while read -r line; do
  form= keyword=yes words=()
  for token in $line; do
    case $token in
      -*) if [ -z "$form" ]; then form=$token; continue; fi ;;
      *:*) ;;
      *) if [ "$keyword" = yes ]; then form="${form:+$form }$token"; continue; fi ;;
    esac
    keyword=no
    case $token in
      --*=*) shown=${token#*=*:}; shown=${shown%%:*}; form+=" [${token%%=*} $shown]"
        words+=("| \`${token%%=*} $shown\` | $(said_of "${token#*=}") |") ;;
      --*) form+=" [$token]"; words+=("| \`$token\` | no value |") ;;
      *) shown=${token#*:}; shown=${shown%%:*}; form+=" $shown"; words+=("| $shown | $(said_of "$token") |") ;;
    esac
  done
  forms=$((forms + 1))
  grep -qF "\`abt $form\`" <<<"$table" || wrong "README's table of commands lacks \`abt $form\`"
  text=$(section "## \`$form\`")
  [ -n "$text" ] || wrong "docs/COMMANDS.md lacks \`$form\`"
  for word in "${words[@]}"; do
    grep -qF "$word" <<<"$text" || wrong "docs/COMMANDS.md lacks of \`$form\`: $word"
  done
  count=$(grep -c '^| ' <<<"$text")
  [ "$count" -eq $((${#words[@]} > 0 ? ${#words[@]} + 1 : 0)) ] || wrong "docs/COMMANDS.md has other words of \`$form\`"
done <<<"$rows"
set +f
[ "$(grep -c '^## `' docs/COMMANDS.md)" -eq "$forms" ] || wrong "docs/COMMANDS.md has other lines"
[ "$(grep -oE '`abt [^`]*`' <<<"$(grep '^| `abt ' <<<"$table" | cut -d'|' -f2)" | wc -l)" -eq "$forms" ] || wrong "README's table of commands has other lines"
[ "$forms" -gt 0 ] || wrong "no rows were read"
[ "$failed" -eq 0 ] && echo "usage: $forms lines, as the pages say"
exit "$failed"
