# The launcher's part that makes a page; ./abt reads it for `picture MODEL SCHEDULE PAGE [--order FILE]`.

# told STATUS FILE WORDS..: ends with the status, where it is one of a refusal, and with what the program said in the file
told() {
  [ "$1" != 0 ] && [ "$1" != 5 ] || return 0
  cat "$2" >&2
  help "$1" "$(cat "$2")" "${@:3}"
  exit "$1"
}

# want_page WORDS..: makes the page that these words ask for, or says that they are no line
want_page() {
  local status=0
  command -v python3 >/dev/null || stop 70 "picture needs python3"
  python help.py is-line "$@" || status=$?
  if [ $status = 3 ]; then
    echo "abt: bad words" >&2
    help 2 "abt: bad words" "$@"
    exit 2
  fi
  page "${@:2}"
}

# page MODEL SCHEDULE PAGE [--order FILE]: makes the page that plays this run, under the order where one is given, of
# the texts that the program writes of it, which go to a folder of their own and leave with it
page() {
  local page=$3 order=("${@:4}") name texts status
  for name in "$1" "$2" "${order[@]:1}"; do
    [ ! "$page" -ef "$name" ] || stop 6 "picture: $page is read, so no page is written there"
  done
  texts=$(mktemp -d) || stop 70 "picture: no room for the texts of the run below ${TMPDIR:-/tmp}"
  trap 'rm -rf "$texts"' EXIT
  trap 'exit 130' INT
  trap 'exit 143' TERM
  set -- "$1" "$2"
  if [ "$1" = /dev/stdin ]; then
    cat >"$texts/model.fzn" || stop 6 fault
    set -- "$texts/model.fzn" "$2"
  fi
  status=0
  "$program" story "$1" "$2" "$texts/story" "${order[@]}" >/dev/null 2>"$texts/said" || status=$?
  told "$status" "$texts/said" story "$1" "$2" "$page" "${order[@]}"
  status=0
  "$program" replay "$1" "$2" "$texts/log" "${order[@]}" >/dev/null 2>"$texts/said" || status=$?
  [ "$status" = 1 ] || told "$status" "$texts/said" replay "$1" "$2" "$page" "${order[@]}"
  status=0
  "$program" measure "$1" "$2" "${order[@]}" >"$texts/measures" 2>"$texts/said" || status=$?
  told "$status" "$texts/said" measure "$1" "$2" "${order[@]}"
  status=0
  python3 -B "$here/picture/make.py" "$page" --model "$1" --story "$texts/story" --log "$texts/log" --measures "$texts/measures" \
    "${order[@]}" 2>"$texts/said" || status=$?
  [ "$status" = 0 ] || sed 's/^/abt: /' "$texts/said" >&2
  exit "$status"
}
