# The launcher's part that makes the program; ./abt reads it where the program has to be made.
# The first build of everything took 1,045 seconds on four processors.
first_build=1045

# ends where the toolchain is not there
want_toolchain() {
  command -v rt >/dev/null ||
    stop 70 "the program has to be built, and the toolchain's rt is not on the path: README.md says whence it comes"
}

# makes the folder $room, which goes when the launcher ends, and takes the running commands $making and $copying along
make_room() {
  room=$(mktemp -d) || stop 70 "no room for a build below ${TMPDIR:-/tmp}"
  making= copying=
  trap 'rm -rf "$room"' EXIT
  trap 'kill $making $copying 2>/dev/null; wait $making; exit 70' INT TERM
}

# lets go of what make_room made
leave_room() {
  trap - INT TERM EXIT
  rm -rf "$room"
}

# ---- the proved program

# copies the program's crates alone to the folder $room, without their must-fail edits
copy_crates() {
  local name part
  for name in $(crates); do
    mkdir -p "$room/crates/$name"
    for part in "$here/crates/$name"/*; do
      case ${part##*/} in out | must-fail) ;; *) cp -r "$part" "$room/crates/$name" ;; esac
    done
    grep -E "^${name}[ :]" "$here/crates.txt" >>"$room/crates.txt"
  done
  cp "$here/HANDLES" "$room"
}

# weigh NAME..: the bytes of these crates, which their proofs' costs follow; what is made of a crate, in out/, has such files too
weigh() { (cd "$room/crates" && cat /dev/null $(find "$@" -name out -prune -o -type f -name '*.rt' -print -o -type f -name '*.antt' -print) | wc -c); }

# crates_with WORDS: of which crates the toolchain's words, a pattern, stand in the log
crates_with() { sed -nE "s/^rt: ([a-z0-9_]+) ($1).*/\1/p" "$room/log" | sort -u; }

# tells how far the build is, and what is left at the pace until now, or at the first build's before a tenth is done
tell_progress() {
  local all=$1 proved=0 done=0 left
  local names=$(crates_with 'proved$')
  [ -z "$names" ] || proved=$(weigh $names)
  names=$(crates_with 'proved$|is kept:')
  [ -z "$names" ] || done=$(weigh $names)
  left=$(((all - done) * first_build / all))
  [ $((proved * 10)) -lt "$all" ] || left=$(((all - done) * SECONDS / proved))
  echo "abt: $(wc -w <<<"$names") of $count crates, $SECONDS seconds, some $(((left + 59) / 60)) minutes are left" >&2
}

# Proves and builds the program. `rt ci` works on as many crates at once as there are processors and memory, and keeps
# what it proved.
build() {
  want_toolchain
  echo "abt: proving and building the program, once: some twenty minutes on four processors" >&2
  echo "abt: --unproved before the words answers within two minutes, without a proof" >&2
  make_room
  copy_crates
  local names=$(crates) count all seen=-1 now next=0
  count=$(wc -w <<<"$names")
  all=$(weigh $names)
  (cd "$room" && exec rt ci) </dev/null >"$room/log" 2>&1 &
  making=$!
  SECONDS=0
  while kill -0 "$making" 2>/dev/null; do
    now=$(crates_with 'proved$|is kept:' | wc -l)
    if [ "$now" -ne "$seen" ] || [ "$SECONDS" -ge "$next" ]; then
      tell_progress "$all"
      seen=$now next=$((SECONDS + 30))
    fi
    sleep 1
  done
  if ! wait "$making"; then
    tail -n 20 "$room/log" >&2
    stop 70 "the build failed"
  fi
  # another call may run the old program meanwhile
  mkdir -p "${program%/*}" && cp "$room/crates/abt_main/out/abt_main" "$program.new" && mv "$program.new" "$program"
  leave_room
}

# ---- the program without a proof

# where the program of these sources is kept: its name has their sum
unproved_program() {
  local folders=() name sum
  for name in $(crates); do folders+=("crates/$name/src"); done
  sum=$(cd "$here" && find crates.txt "${folders[@]}" -type f -print0 | LC_ALL=C sort -z | xargs -0 sha256sum | sha256sum)
  echo "$here/out/unproved-${sum:0:16}"
}

# Keeps the program that the toolchain's trial run makes of the sources, under the name $1. The trial is of a line that
# reads a pipe, and so waits; meanwhile the program is the one executable file below its folder for temporary files.
keep_unproved() {
  want_toolchain
  echo "abt: making the program of the sources, once, without a proof: half a minute, or two on a busy machine" >&2
  make_room
  mkfifo "$room/model"
  (cd "$here/crates/abt_main" && TMPDIR=$room exec rt try --seconds 60 -- bound "$room/model") \
    </dev/null >"$room/log" 2>&1 &
  making=$!
  (exec 3>"$room/model" && find "$room" -type f -perm -u+x -exec cp {} "$room/kept" \;) &
  copying=$!
  wait "$making"
  # a trial that ended before it read leaves the pipe to be opened here
  wait "$copying" 4<>"$room/model"
  if [ ! -x "$room/kept" ]; then
    tail -n 20 "$room/log" >&2
    stop 70 "the trial run of the sources made no program"
  fi
  mkdir -p "${1%/*}" && rm -f "${1%/*}"/unproved-* && chmod 755 "$room/kept" && mv "$room/kept" "$1" ||
    stop 70 "no program could be kept in ${1%/*}"
  leave_room
}
