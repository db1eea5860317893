"""What is told after the program ended, by its status."""
import difflib
import errno
import os
import re
import resource
import select
import signal
import stat

import lines
import texts
from texts import quoted

# The content that a refusal speaks of, by the word that it begins with.
CONTENTS = {"model": "model", "cnf": "formula", "log": "log", "schedule": "schedule", "order": "order", "proof": "proof"}
# The line of words that reads such a content.
READERS = {
    "model": "abt solve MODEL LOG",
    "formula": "abt cnf CNF PROOF",
    "log": "abt check MODEL LOG",
    "schedule": "abt replay MODEL SCHEDULE LOG",
}


def help_after(rows, status, said, words):
    """Returns the lines that are told, which are none where there is nothing to say."""
    line = lines.find_line(rows, words)
    if status == 2:
        return lines.help_words(rows, words)
    if not line:
        return []
    if status in (3, 4):
        return help_refused(line, words, said)
    if status == 6:
        return help_fault(line)
    if status == 128 + signal.SIGINT:
        return help_interrupted(line)
    by_keyword = {(0, "starve"): help_starved, (1, "check"): help_rejected, (5, "replay"): help_used_up}
    tells = by_keyword.get((status, line.row.keyword[0]), help_unfinished if status == 5 else None)
    return tells(line) if tells else []


def files(line, content=None, access=None):
    """Returns the names of a line's files, with their places, of this content and access where they are given."""
    return [
        (place, name)
        for place, name in line.given
        if place.sort == "file" and content in (None, place.rest[0]) and access in (None, place.rest[1])
    ]


# ---- refused files


def read_table():
    """Returns for each refusal, with N for its numbers, what it is and what helps."""
    with open(os.path.join(os.path.dirname(os.path.realpath(__file__)), "refusals.txt"), encoding="utf-8") as it:
        rows = [text.rstrip("\n").split(" | ") for text in it if not text.startswith("#")]
    return {refusal: (what, helps) for refusal, what, helps in rows}


def help_refused(line, words, said):
    """Returns what is told of a model, formula, log, schedule or proof that was refused."""
    refusal = said.partition("\n")[0][len("abt: ") :]
    what, helps = read_table().get(re.sub("[0-9]+", "N", refusal), (None, None))
    found = files(line, CONTENTS.get(refusal.partition(":")[0]), "read")
    if not what:
        return []
    if not found:
        return [what, helps]
    name = found[0][1]
    number = re.search(r"[0-9]+$", refusal)
    if " line " in refusal:
        return help_line(line, words, found[0], int(number[0]), what, helps)
    data = texts.read_again(name)
    other = other_kind(line, words, found[0], data) or minizinc(name, data, refusal)
    if data is None or not number:
        told = [f"{quoted(name)}: {what}"]
        return [*told, *(other or [helps]), *(unreadable(name) if data is None else [])]
    place = int(number[0])
    at = ":".join(map(str, texts.line_and_column(data, place)))
    return [f"{texts.shown(name)}:{at}: {what}", *texts.marked(data, place), *(other or nearer(refusal, data, place) or [helps])]


def unreadable(name):
    """Returns that a file's text cannot be shown."""
    return [f"{quoted(name)} is no plain file, so its text cannot be read again to show the place: keep it in a file"]


def nearer(refusal, data, place):
    """Returns which name may have been meant by one that is not declared, or that text follows the last item, or None."""
    if "syntax" in refusal and texts.has_solve_item(data[:place]):
        return ["the solve item is the last one: leave out what follows it"]
    word = re.match(rb"\w+", data[place : place + 80])
    if not word or "undeclared" not in refusal:
        return None
    near = difflib.get_close_matches(word[0].decode(), texts.declared(data[:place]), 1)
    return [f"did you mean {near[0]}?"] if near else None


def other_kind(line, words, given, data):
    """Returns what is told of a file that holds something else than its place wants, or None."""
    place, name = given
    content = place.rest[0]
    if data is None:
        return None
    if data[:2] in (b"\xff\xfe", b"\xfe\xff") or data[:3] == b"\xef\xbb\xbf":
        return [f"{quoted(name)} begins with a byte order mark: save it as UTF-8 without one"]
    if data[:2] == b"\x1f\x8b":
        return [f"{quoted(name)} is compressed: gunzip it first"]
    if not data:
        return [f"{quoted(name)} is empty"]
    kind = texts.kind(data)
    if kind in (None, content):
        return None
    told = f"{quoted(name)} is a {kind}, and {place.shown} is to be a {content}"
    swapped = [other for other, at in files_of_kind(line, content) if other != name and at.rest[0] == kind]
    if swapped:
        return [told, f"the names are swapped: abt {' '.join(quoted(exchanged(it, name, swapped[0])) for it in words)}"]
    return [told, *([f"it is read by: {READERS[kind]}"] if kind in READERS else [])]


def minizinc(name, data, refusal):
    """Returns what is told of a model in MiniZinc, by its name or by what FlatZinc has no words for, or None."""
    unread = refusal.startswith(("model: bad byte", "model: syntax"))
    if name.endswith((".mzn", ".dzn")) or (data and unread and texts.is_minizinc(data)):
        return [f"{quoted(name)} is a model in MiniZinc, and FlatZinc is read here. This writes it:", *flatten(name)]
    return None


def flatten(name):
    """Returns how a model in MiniZinc becomes one in FlatZinc, or is solved as it is."""
    flat = os.path.splitext(name)[0] + ".fzn"
    model = name if not name.endswith(".dzn") else os.path.splitext(name)[0] + ".mzn"
    data = f" {quoted(name)}" if name.endswith(".dzn") else " [DATA.dzn]" if re.search("data", name) else ""
    return [
        f"  minizinc -c -G std {quoted(model)}{data}    (to {quoted(flat)})",
        "or MiniZinc calls this solver itself: README.md, \"Through MiniZinc\"",
    ]


def files_of_kind(line, content):
    """Returns the line's files that can be read again and begin as such a content, with their places."""
    return [(name, place) for place, name in files(line) if texts.kind(texts.read_again(name, 4096) or b"") == content]


def exchanged(word, one, other):
    """Returns the word, or the other one of these two where it is one of them."""
    return other if word == one else one if word == other else word


def help_line(line, words, given, number, what, helps):
    """Returns what is told of a log, schedule or proof with a bad line."""
    place, name = given
    text, is_ended, before = texts.line_of_file(name, number)
    at = f"{texts.shown(name)}:{number}"
    if before is None:
        return [f"{at}: {what}", helps, *unreadable(name)]
    other = other_kind(line, words, given, texts.read_again(name, 4096))
    if other:
        return [f"{at}: {what}", *other]
    if text is None:
        last = "" if place.rest[0] == "proof" else ", and none of them is `end`"
        return [f"{at}: this line is missing", f"the file has {number - 1} lines{last}: it is cut off, or still being written"]
    told = [f"{at}: {what}", f"  {texts.cut(text)}"]
    return [*told, bad_line(line, given, text, is_ended, number) or helps]


def bad_line(line, given, text, is_ended, number):
    """Returns why a line is bad, where that can be seen, or None."""
    place, name = given
    if text.endswith(b"\r"):
        return f"its lines end with a carriage return and a line feed; this leaves the line feed: sed -i 's/\\r$//' {quoted(name)}"
    if not is_ended:
        return "it has no line feed at its end: the file is cut off there, or an editor left it out"
    if line.row.keyword == ["upgrade"] and number == 1 and text == b"ngd 2":
        return "the log is of version 2 already"
    if number == 1 and place.rest[0] in ("log", "schedule"):
        return f"the first line of a {place.rest[0]} is `{'ngd 1' if place.rest[0] == 'log' else 'schedule 1'}`"
    return None


# ---- faults


def help_fault(line):
    """Returns which of the line's files failed, and why, as far as that can be seen afterwards."""
    told = [it for place, name in files(line) for it in [fault_of(place, name)] if it] + fault_of_output()
    return told or ["no file of the line is missing or closed now: a disk may have been full, or a device or a network failed"]


def fault_of(place, name):
    """Returns what is wrong with a file, or None."""
    tells = f"{place.shown} {quoted(name)}"
    is_read = place.rest[1] == "read"
    try:
        mode = os.stat(name).st_mode
    except FileNotFoundError:
        return missing(tells, name) if is_read or not os.path.isdir(os.path.dirname(name) or ".") else unwritable(tells, name)
    except OSError as error:
        return f"{tells}: {error.strerror.lower()}"
    if stat.S_ISDIR(mode):
        return f"{tells} is a folder, and a file is wanted"
    if is_read:
        return None if os.access(name, os.R_OK) else f"{tells} may not be read: chmod u+r {quoted(name)}, if it is yours"
    return unwritable(tells, name)


def missing(tells, name):
    """Returns that there is no such file or folder, and which there is."""
    folder, base = os.path.split(name)
    if folder and not os.path.isdir(folder):
        return f"{tells}: there is no folder {quoted(folder)}; this makes it: mkdir -p {quoted(folder)}"
    try:
        near = difflib.get_close_matches(base, os.listdir(folder or "."), 1, 0.8)
    except OSError:
        near = []
    also = f"; did you mean {quoted(os.path.join(folder, near[0]))}?" if near else ""
    return f"{tells} is not there{also}"


def unwritable(tells, name):
    """Returns why the file cannot be written, or None."""
    folder = os.path.dirname(name) or "."
    is_there = os.path.exists(name)
    if not os.access(name if is_there else folder, os.W_OK):
        return f"{tells} may not be written: {'it is' if is_there else 'its folder is'} protected"
    if is_there and is_full_device(os.stat(name)):
        return f"{tells} is a device that takes nothing"
    room = os.statvfs(name if is_there else folder)
    if room.f_bavail == 0:
        return f"{tells}: the disk is full: free some room, or write it elsewhere; what was written is a first part"
    limit = resource.getrlimit(resource.RLIMIT_FSIZE)[0]
    if is_there and limit != resource.RLIM_INFINITY and os.path.getsize(name) >= limit // 2:
        part = "what was written is a first part"
        return f"{tells}: the limit on the size of files is {limit} bytes: ulimit -f unlimited; {part}"
    return None


def is_full_device(found):
    """Whether this is the device that is always full."""
    return stat.S_ISCHR(found.st_mode) and (os.major(found.st_rdev), os.minor(found.st_rdev)) == (1, 7)


def fault_of_output():
    """Returns what is wrong with standard output, in a list of at most one."""
    try:
        found = os.fstat(1)
    except OSError as error:
        return ["standard output is closed: leave out >&-, or write >/dev/null"] if error.errno == errno.EBADF else []
    if is_full_device(found):
        return ["standard output is a device that takes nothing"]
    if stat.S_ISFIFO(found.st_mode) or stat.S_ISSOCK(found.st_mode):
        poll = select.poll()
        poll.register(1, select.POLLERR)
        if any(event & select.POLLERR for _, event in poll.poll(0)):
            return ["standard output is closed: the command that read it has ended"]
    if stat.S_ISREG(found.st_mode) and os.fstatvfs(1).f_bavail == 0:
        return ["the disk that standard output goes to is full"]
    return []


# ---- answers that are no, or none


def help_rejected(line):
    """Returns what is told of a log that was rejected."""
    (model_place, model), (_, log) = files(line)[:2]
    bound = [word for place, word in line.given if place.sort == "signed"]
    aim = texts.aim(texts.read_again(model) or b"")
    if aim and not bound:
        return [
            f"{quoted(model)} asks for the {aim[0]} {aim[1]}, and the log of solve then refutes better values alone:",
            f"  abt check {quoted(model)} {quoted(log)} --better N    (N is the value of {aim[1]} that solve printed)",
        ]
    told = [f"the log does not show that {quoted(model)} has no {'better value than ' + bound[0] if bound else 'solution'}"]
    last = re.findall(rb"^[0-9]+ (?:v[0-9]+|-) \[([^\]\n]*)\]", texts.last_bytes(log) or b"", re.MULTILINE)
    if last and last[-1]:
        return [*told, "its last step is no empty nogood: it is the log of a run that found a solution, or was stopped"]
    if bound and aim:
        return [*told, f"N is the value of {aim[1]} that solve printed before `==========`, and the log is that run's"]
    told.append("a log speaks of one model: it is checked with the very file that was solved")
    return [*told, "step K stands on the line of the log that begins with K"]


def help_used_up(line):
    """Returns how far a replay came, and how to go on."""
    model, schedule = files(line, "model", "read")[0][1], files(line, "schedule", "read")[0][1]
    data = texts.read_again(schedule, 1 << 27)
    count = "" if data is None else f" {max(0, data.count(bytes([10])) - 2)}"
    return [
        f"the{count} choices of {quoted(schedule)} were used up while a message was in transit",
        "to go on, put more numbers before its `end`: each picks the list that delivers next, as 0 picks the first",
        f"or let a seed choose: abt solve {quoted(model)} LOG --record FILE",
    ]


def help_unfinished(line):
    """Returns how to go on after a run that was stopped at its limit."""
    words = ["the run was stopped at its limit, and a message was in transit; the numbers above tell how far it came"]
    more = "abt bound MODEL tells how many deliveries a run takes at most"
    return [*words, "another seed gives another run; a smaller model, or tighter ranges, a shorter one", more]


def help_starved(line):
    """Returns which of the numbers of variables of a starved run are none, where some are."""
    model = files(line, "model", "read")[0][1]
    data = texts.read_again(model)
    count = len(texts.variables(data)) if data is not None else None
    none = [word for place, word in line.given if place.sort == "number" and count is not None and int(word) > count]
    if not none:
        return []
    return [f"{quoted(model)} has {count} variables, and there is no number {' or '.join(none)}: so nothing was starved"]


def help_interrupted(line):
    """Returns what an interrupt left."""
    written = [quoted(name) for _, name in files(line, access="written") if os.path.exists(name)]
    if not written:
        return ["interrupted before an answer"]
    return [f"interrupted before an answer: {' and '.join(written)} may hold a first part only; the same line writes it anew"]
