#!/usr/bin/env python3
"""What the launcher tells a reader beside the program's own line.

  help.py is-line WORDS..            status 3 where the words are no line of the program, 0 where they are
  help.py help STATUS SAID WORDS..   lines on standard error, each after `abt: `, on a program that was given the words,
                                     said SAID on standard error, and ended with STATUS as a shell sees it

The lines of words are those of usage.txt, which is what the program's `--usage` prints, and of own.txt, which the
launcher itself answers; refusals.txt says what refusals mean.
"""
import os
import sys

import causes
import lines
import texts

HERE = os.path.dirname(os.path.realpath(__file__))


def main(words):
    """Does what the words ask for, and returns the status."""
    rows = lines.all_rows(HERE)
    if words[:1] == ["is-line"]:
        return 0 if lines.find_line(rows, words[1:]) else 3
    if words[:1] == ["help"] and len(words) >= 3:
        for told in causes.help_after(rows, int(words[1]), words[2], words[3:]):
            sys.stderr.write(f"abt: {texts.printable(told)}\n")
    return 0


if __name__ == "__main__":
    try:
        sys.exit(main(sys.argv[1:]))
    except (Exception, KeyboardInterrupt):
        # the program's own line stands, and a reader has no use for this script's trouble
        sys.exit(1)
