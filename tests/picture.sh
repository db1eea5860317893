#!/bin/sh
# Outside the gate: the pages of picture/. Tests the maker of pages; compares the stories and the measures that the program
# writes of the examples with those that lie beside the tests, and makes their pages by `./abt picture`; then opens pages
# of the examples, of small, hostile and long runs in a headless Chromium (Debian's package `chromium`), and drives them.
# picture.sh [FOLDER]; into FOLDER go pictures of the pages of the examples.
set -u
tests=$(cd "$(dirname "$0")/../picture/tests" && pwd)
failed=0

if ! command -v python3 >/dev/null; then
  echo "skipped: no python3"
  exit 0
fi
python3 -B "$tests/test_make.py" -q || failed=1
bash "$tests/by_program.sh" || failed=1
for name in chromium chromium-browser google-chrome; do
  if command -v "$name" >/dev/null; then
    python3 -B "$tests/check.py" "$@" || failed=1
    exit "$failed"
  fi
done
echo "skipped: no Chromium, so the pages were not opened (apt-get install chromium)"
exit "$failed"
