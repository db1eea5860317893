"""The lines of words that the program takes, and what is wrong with words that are none of them."""
import difflib
import os
import re
from collections import namedtuple

import texts
import together

# What one word may be: `sort` is file, number, signed or word; `rest` is content and access, the bounds, or the words.
Place = namedtuple("Place", "sort shown rest")
# A line: the words that it begins with, its places, and its options, each with a place for its value or None.
Row = namedtuple("Row", "keyword places options")
# Words that are a line: its row, and each place that has a word, with that word.
Line = namedtuple("Line", "row given")
# A file's name for each content.
EXAMPLES = {"model": "model.fzn", "log": "out.ngd", "schedule": "out.sch", "order": "model.order", "formula": "formula.cnf", "proof": "out.rup",
            "story": "out.story", "page": "out.html"}


def read_rows(name):
    """Returns the rows of the file, each as `--usage` prints it."""
    with open(name, encoding="utf-8") as it:
        return [row_of(text.split()) for text in it]


def all_rows(folder):
    """Returns the rows of the program, and those that the launcher itself answers."""
    return [row for name in ("usage.txt", "own.txt") for row in read_rows(f"{folder}/{name}")]


def row_of(tokens):
    """Returns the row that a line of tokens tells."""
    count = 1
    if len(tokens) > 1 and ":" not in tokens[1] and not tokens[1].startswith("-"):
        count = 2
    places = [place_of(it) for it in tokens[count:] if not it.startswith("--")]
    options = {}
    for token in tokens[count:]:
        if token.startswith("--"):
            name, takes, value = token.partition("=")
            options[name] = place_of(value) if takes else None
    return Row(tokens[:count], places, options)


def place_of(token):
    """Returns the place that `sort:SHOWN:..` tells."""
    sort, shown, *rest = token.split(":")
    return Place(sort, shown, rest)


def usage(row):
    """Returns a row as it is typed."""
    options = [f"[{name}{' ' + place.shown if place else ''}]" for name, place in row.options.items()]
    return " ".join(["abt", *row.keyword, *(it.shown for it in row.places), *options])


def meaning(place):
    """Returns what a place stands for, in words."""
    if place.sort == "file":
        content, access = place.rest
        one = f"an {content}" if content[0] in "aeiou" else f"a {content}"
        return f"{place.shown} is the file that {one} is {'written to' if access == 'written' else 'read from'}"
    if place.sort == "word":
        return f"{place.shown} is {' or '.join(place.rest)}"
    return f"{place.shown} is a number from {bound(place.rest[0])} to {bound(place.rest[1])}"


def bound(digits):
    """Returns a bound as it is read most easily."""
    near = {2**64 - 1: "2^64 - 1", 2**63 - 1: "2^63 - 1", -(2**63): "-2^63"}
    return near.get(int(digits), f"{int(digits):,}")


def example(place):
    """Returns a word that can stand in a place."""
    if place.sort != "file":
        return place.rest[0]
    return EXAMPLES.get(place.rest[0], "out")


def places_of(row):
    """Returns each place of a row, those of options too."""
    return [*row.places, *(it for it in row.options.values() if it)]


# ---- words against a row


def rows_meant(rows, words):
    """Returns the rows whose keyword the words begin with; or those whose first word they begin with."""
    whole = [it for it in rows if it.keyword == words[: len(it.keyword)]]
    return whole or [it for it in rows if words and it.keyword[0] == words[0]]


def find_line(rows, words):
    """Returns the line that the words are, or None."""
    for row in rows:
        if row.keyword == words[: len(row.keyword)] and not wrong_with(row, words):
            names, chosen = split_words(row, words[len(row.keyword) :])
            behind = [(row.options[it], value) for it, value in chosen if value is not None]
            return Line(row, [*zip(row.places, names), *behind])
    return None


def split_words(row, words):
    """Returns the words that stand for places, and the options, each with its value or None.

    An option is a word that begins with `-` and is no number; one that takes a value has the next word, where there is one.
    """
    names, chosen, left = [], [], list(words)
    while left:
        word = left.pop(0)
        if not is_option(word):
            names.append(word)
        elif row.options.get(word) and left:
            chosen.append((word, left.pop(0)))
        else:
            chosen.append((word, None))
    return names, chosen


def is_option(word):
    """Whether the word looks like an option."""
    return word.startswith("-") and word != "-" and not re.fullmatch(r"-[0-9]+", word)


def wrong_with(row, words):
    """Returns what is wrong with words that begin with the row's keyword, or None where they are the row's line."""
    words = words[len(row.keyword) :]
    names, chosen = split_words(row, words)
    given = [*zip(row.places, names), *((row.options.get(it), value) for it, value in chosen)]
    return (
        wrong_options(row, chosen)
        or wrong_count(row, names)
        or wrong_order(row, words, names, chosen)
        or next((it for it in (wrong_word(place, word) for place, word in given if place) if it), None)
        or wrong_names([(place, word) for place, word in given if place and place.sort == "file"])
        or together.wrong_together(row.keyword, {place.shown: int(word) for place, word in given if place and place.sort == "number"})
    )


def wrong_options(row, chosen):
    """Returns which option is none of the row's, lacks its value or was given before, or None."""
    seen = set()
    for name, value in chosen:
        bare, joined, rest = name.partition("=")
        if joined and row.options.get(bare):
            return f"{name} is written with a blank: {bare} {texts.quoted(rest)}"
        if name not in row.options:
            return no_option(row, name)
        if row.options[name] and value is None:
            return f"{name} wants a word after it: {meaning(row.options[name])}"
        if name in seen:
            return f"{name} is given twice"
        seen.add(name)
    return None


def no_option(row, name):
    """Returns that the row has no such option, and which it has."""
    line = " ".join(row.keyword)
    near = difflib.get_close_matches(name, row.options, 1)
    has = f"did you mean {near[0]}?" if near else f"it has {', '.join(row.options)}" if row.options else "it has none"
    file = f"; a file with such a name is written ./{texts.shown(name)}" if os.path.exists(name) else ""
    return f"{line} has no option {texts.quoted(name)}: {has}{file}"


def wrong_count(row, names):
    """Returns which place has no word, or which word has no place, or None."""
    if len(names) < len(row.places):
        typed = [*row.keyword, *map(texts.quoted, names), *map(example, row.places[len(names) :])]
        return f"{row.places[len(names)].shown} is missing, as in: abt {' '.join(typed)}"
    if len(names) > len(row.places):
        extra = texts.quoted(names[len(row.places)])
        return f"{extra} is one word too many; a name with blanks in it is typed between quotes"
    return None


def wrong_order(row, words, names, chosen):
    """Returns how the words are typed where an option stands before a name, or None."""
    if list(words[: len(names)]) == names:
        return None
    behind = [it for pair in chosen for it in pair if it is not None]
    typed = " ".join(texts.quoted(it) for it in [*row.keyword, *names, *behind])
    return f"options follow the names: abt {typed}"


def wrong_word(place, word):
    """Returns why the word cannot stand in the place, or None."""
    if not is_text(word):
        return f"{texts.quoted(word)} is not written in UTF-8"
    if place.sort == "file":
        return wrong_name(place, word)
    if place.sort == "word":
        return None if word in place.rest else f"{meaning(place)}; {texts.quoted(word)} is neither"
    sign = "-?" if place.sort == "signed" else ""
    if not re.fullmatch(sign + "[0-9]+", word, re.ASCII):
        return f"{meaning(place)}, in digits; {texts.quoted(word)} is none"
    if word != str(int(word)):
        return f"{meaning(place)}, without leading zeros or -0; {word} is not so written"
    if not int(place.rest[0]) <= int(word) <= int(place.rest[1]):
        return f"{meaning(place)}; {word} is out of range"
    return None


def is_text(word):
    """Whether the word came as UTF-8."""
    return not any(0xD800 <= ord(it) < 0xE000 for it in word)


def wrong_name(place, word):
    """Returns why the word is no file name, or None."""
    if not word:
        return f"{place.shown} is empty: {meaning(place)}"
    if word == "-":
        return f"- is standard input in the place of a model or formula alone; for {place.shown} write /dev/stdin or /dev/stdout"
    if word.startswith("-"):
        return f"{place.shown} begins with -, as options do; a file with such a name is written ./{texts.shown(word)}"
    return None


def wrong_names(files):
    """Returns which two names are equal, or None."""
    for at, (place, name) in enumerate(files):
        for earlier, other in files[:at]:
            if name == other:
                both = f"{earlier.shown} and {place.shown} are both {texts.quoted(name)}"
                return f"{both}: each file of a line has a name of its own"
    return None


# ---- words that are no line


def help_words(rows, words):
    """Returns what is told of words that are no line of the program."""
    if not words or words[0] in ("-h", "help", "-help", "-?"):
        asked = rows_meant(rows, words[1:])
        return [told for row in asked for told in explained(row)] or overview(rows)
    meant = rows_meant(rows, words)
    if meant and any(it in ("-h", "--help") for it in words[1:]):
        return [told for row in meant for told in explained(row)]
    if not meant:
        return unknown(rows, words)
    if len(meant) > 1:
        second = " or ".join(it.keyword[1] for it in meant)
        return [f"the word after {words[0]} is {second}", *(f"usage: {usage(it)}" for it in meant)]
    wrong = wrong_with(meant[0], words)
    told = [*([wrong] if wrong else []), *named_variables(meant[0], words), f"usage: {usage(meant[0])}"]
    return [*told, f"abt {' '.join(meant[0].keyword)} --help tells what its words are"] if meant[0].places else told


def explained(row):
    """Returns how a row is typed, and what its places are."""
    return [f"usage: {usage(row)}", *(f"  {meaning(it)}" for it in places_of(row))]


def overview(rows):
    """Returns all lines, and where to begin."""
    return [
        "usage:",
        *(f"  {usage(it)}" for it in rows),
        "abt --help tells what each line does; abt LINE --help tells what its words are",
        "the launcher's own: picture, --unproved before a line, --install PREFIX, --pack FILE; README.md tells of them",
        "a first answer, at the top of a clone: ./abt --unproved solve examples/meeting.fzn out.ngd --trace",
    ]


def unknown(rows, words):
    """Returns what may have been meant by words whose first one begins no line."""
    told = f"no line begins with {texts.quoted(words[0])}"
    near = nearest(rows, words[0])
    if near:
        again = [near, *words[1:]]
        meant = f"abt {' '.join(map(texts.quoted, again))}" if find_line(rows, again) else f"{near}?"
        return [f"{told}: did you mean {meant}", *(f"usage: {usage(it)}" for it in rows if it.keyword[0] == near)]
    if os.path.isfile(words[0]) or words[0] == "-":
        told = f"a line begins with what is to be done, as in: abt solve {texts.quoted(words[0])} out.ngd"
    return [told, *overview(rows)]


def nearest(rows, word):
    """Returns the word that begins a line and is most like this one, or None."""
    keywords = sorted({it.keyword[0] for it in rows})
    same = [it for it in keywords if it.strip("-") == word.strip("-").lower()]
    near = ["--version"] if word in ("-v", "-V") else same or difflib.get_close_matches(word, keywords, 1)
    return near[0] if near else None


def named_variables(row, words):
    """Returns the numbers of variables that are given by their names, where a model that can be read declares them."""
    names, _ = split_words(row, words[len(row.keyword) :])
    numbered = [it.shown for it in row.places if it.shown in ("FROM", "TO")]
    if not numbered or not names:
        return []
    declared = texts.variables(texts.read_again(names[0]) or b"")
    told = [f"{it} is variable {declared.index(it) + 1} of {texts.quoted(names[0])}" for it in names[1:3] if it in declared]
    return ["variables are numbered from 1, in the order of their declarations", *told]
