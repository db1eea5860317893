"""Texts and their places: files that are read again, lines of them, and how both are shown."""
import os
import re
import shlex
import stat

# How much of a line is shown on each side of a place.
WIDTH = 60
# How much of a file is read at once.
PIECE = 1 << 20
# The greatest model or formula that the program reads.
MOST = 16_777_216
# Where a solve item begins.
SOLVE = re.compile(rb"(?:\A|;)\s*solve\b")
# What stands in models in MiniZinc, and not in FlatZinc: some words before brackets or texts, operators, and constraints
# that begin with a term and an operator.
MINIZINC = re.compile(
    rb"\b(?:include|forall|exists|sum|output|enum)\b\s*[\"(\[]|/\\|\\/|->"
    rb"|\bconstraint\s+[A-Za-z_0-9\[\],. ]{1,200}\s*(?:!=|<|>|=|\+|-|\*)"
)


# ---- how words and bytes are shown


def printable(text):
    """Returns the text with a mark in the place of each character that a terminal would obey."""
    return "".join(it if it.isprintable() or 0xD800 <= ord(it) < 0xE000 else "?" for it in text)


def shown(word):
    """Returns a word as it is, or with escapes where it has characters that cannot be seen."""
    return word if word.isprintable() else "".join(it if it.isprintable() else escape(it) for it in word)


def quoted(word):
    """Returns a word as it is typed in a shell."""
    return shlex.quote(word) if word.isprintable() else f"$'{''.join(map(escape, word))}'"


def escape(sign):
    """Returns a character as it stands between `$'` and `'`."""
    if sign in "\\'":
        return "\\" + sign
    if sign.isprintable():
        return sign
    return "".join(f"\\x{it:02x}" for it in sign.encode("utf-8", "surrogateescape")) if sign != "\n" else "\\n"


# ---- files that are read again


def read_again(name, most=MOST + 1):
    """Returns the first bytes of a file, or None where it cannot be read again, as a pipe cannot."""
    try:
        if not stat.S_ISREG(os.stat(name).st_mode):
            return None
        with open(name, "rb") as it:
            return it.read(most)
    except (OSError, ValueError):
        return None


def line_of_file(name, number):
    """Returns line `number` of a file, without its end and no longer than a piece; whether it has an end; and how many
    lines end before it.

    The line is None where the file has no such line; the last is None where the file cannot be read again.
    """
    try:
        if not stat.S_ISREG(os.stat(name).st_mode):
            return None, False, None
        with open(name, "rb") as it:
            before = skip_lines(it, number - 1)
            line = it.readline(PIECE) if before == number - 1 else b""
    except (OSError, ValueError):
        return None, False, None
    return line.rstrip(b"\n") if line else None, line.endswith(b"\n") or len(line) == PIECE, before


def skip_lines(file, count):
    """Skips so many lines, and returns how many there were."""
    skipped = 0
    while skipped < count:
        start = file.tell()
        piece = file.read(PIECE)
        if not piece:
            return skipped
        ends = piece.count(b"\n")
        if skipped + ends >= count:
            file.seek(start)
            for _ in range(count - skipped):
                skip_line(file)
            return count
        skipped += ends
    return skipped


def skip_line(file):
    """Skips one line, however long it is."""
    while not file.readline(PIECE).endswith(b"\n"):
        pass


def last_bytes(name, most=PIECE):
    """Returns the last bytes of a file, or None where it cannot be read again."""
    try:
        if not stat.S_ISREG(os.stat(name).st_mode):
            return None
        with open(name, "rb") as it:
            it.seek(max(0, os.fstat(it.fileno()).st_size - most))
            return it.read(most)
    except (OSError, ValueError):
        return None


# ---- places


def line_and_column(data, place):
    """Returns the line and the column of a byte, both from 1; a column counts characters."""
    start = data.rfind(b"\n", 0, place) + 1
    return data.count(b"\n", 0, place) + 1, len(data[start:place].decode("utf-8", "replace")) + 1


def marked(data, place):
    """Returns the line that holds a byte, as much of it as is shown, and a mark below the byte."""
    start = data.rfind(b"\n", 0, place) + 1
    end = data.find(b"\n", place)
    line = data[start : end if end >= 0 else len(data)]
    first = max(0, place - start - WIDTH)
    before, after = decoded(line[first : place - start]), decoded(line[place - start : place - start + WIDTH])
    before = ("..." if first else "") + before
    after += "..." if place - start + WIDTH < len(line) else ""
    return [f"  {before}{after}", f"  {' ' * len(before)}^"]


def decoded(data):
    """Returns bytes as a text of one line, in which each character takes one place."""
    return "".join(it if it.isprintable() else " " if it == "\t" else "?" for it in data.decode("utf-8", "replace"))


def cut(data):
    """Returns a line as a text, no longer than is shown."""
    return decoded(data[: 2 * WIDTH]) + ("..." if len(data) > 2 * WIDTH else "")


# ---- what a text is


def kind(data):
    """Returns which of the program's formats a text begins as, or None."""
    data = data[: 1 << 16]
    if re.match(rb"ngd\b", data):
        return "log"
    if re.match(rb"schedule\b", data):
        return "schedule"
    if re.match(rb"(?:c[^\n]*\n)*\s*p\s+cnf\b", data):
        return "formula"
    if re.match(rb"(?:\s|%[^\n]*\n)*(?:predicate|var|array|bool|int|set|constraint|solve)\b", data):
        return "model"
    return None


def is_minizinc(data):
    """Whether a text has words or signs that models in MiniZinc have, and FlatZinc has not."""
    return bool(re.search(MINIZINC, re.sub(rb"%[^\n]*", b"", data[:PIECE])))


def variables(data):
    """Returns the names of a model's variables in the order of their declarations; arrays take none."""
    bare = re.sub(rb"%[^\n]*", b"", data)
    return [it.decode("utf-8", "replace") for it in re.findall(rb"(?:^|;)\s*var\s[^:;]*:\s*(\w+)", bare)]


def aim(data):
    """Returns `least` or `greatest` and what the model asks it of, or None where it asks for any solution."""
    bare = re.sub(rb"%[^\n]*", b"", data[-PIECE:])
    found = [it.start() for it in re.finditer(SOLVE, bare)]
    wanted = re.match(rb"[^;]*?\b(minimize|maximize)\s+(\w+)\s*;", bare[found[-1] + 1 :]) if found else None
    if not wanted:
        return None
    return "least" if wanted[1] == b"minimize" else "greatest", wanted[2].decode("utf-8", "replace")


def has_solve_item(data):
    """Whether a solve item ends in a text."""
    return bool(re.search(SOLVE.pattern + rb"[^;]*;", re.sub(rb"%[^\n]*", b"", data)))


def declared(data):
    """Returns names that stand behind a colon, as declared ones do, and not too many of them."""
    return list(dict.fromkeys(it.decode("utf-8", "replace") for it in re.findall(rb":\s*([A-Za-z_]\w*)", data)))[:5000]
