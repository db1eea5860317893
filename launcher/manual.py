"""The manual page: the text of `--help`, the lines of usage.txt and own.txt, and what the documents say of commands and statuses."""
import os
import re

import lines


def page(rows, here, version):
    """Returns the page, in the language of man."""
    with open(f"{here}/help.txt", encoding="utf-8") as it:
        title, _, description = it.read().partition("\n")
    parts = [
        f".TH ABT 1 \"\" \"{' '.join(version[0].split()[:2])}\" \"\"",
        ".nh",
        ".SH NAME",
        escaped(title).replace(":", r" \-", 1),
        ".SH SYNOPSIS",
        *verbatim(map(lines.usage, rows)),
        ".SH DESCRIPTION",
        *verbatim(description.strip("\n").split("\n")),
        *roff(commands(os.path.dirname(here))),
        ".SH ENVIRONMENT",
        ".TP",
        r"\fBABT_HELP\fR",
        "Where it is 1 the launcher explains refusals in lines of its own on standard error, as it does at a terminal;",
        "where it is 0 it never does.",
        ".SH SEE ALSO",
        "The documents beside the program, in lib/abt.",
    ]
    return "\n".join(parts) + "\n"


def commands(top):
    """Returns what the documents say of commands, in Markdown: docs/COMMANDS.md, or README's section."""
    if os.path.exists(f"{top}/docs/COMMANDS.md"):
        with open(f"{top}/docs/COMMANDS.md", encoding="utf-8") as it:
            return it.read()
    with open(f"{top}/README.md", encoding="utf-8") as it:
        found = re.search(r"^## Commands\n.*?(?=^## )", it.read(), re.MULTILINE | re.DOTALL)
    return found[0] if found else ""


def roff(markdown):
    """Returns the lines of a page for a text with headings, paragraphs, lists, tables and indented examples."""
    told, top = [], 0
    for block in re.split(r"\n\s*\n", markdown.strip("\n")):
        rows = block.split("\n")
        heading = re.fullmatch(r"(#+) (.*)", rows[0])
        if heading:
            top = top or len(heading[1])
            told.append(f".SH {escaped(heading[2]).upper()}" if len(heading[1]) == top else f".SS {styled(heading[2])}")
            rows = rows[1:]
        told += block_of(rows)
    return told


def block_of(rows):
    """Returns the lines for a table, a list, an example or a paragraph."""
    if not rows:
        return []
    if rows[0].startswith("|"):
        return table(rows)
    if rows[0].startswith("- "):
        return [line for it in rows for line in (r".IP \(bu 2", styled(it[2:]))] + [".PP"]
    return verbatim(it[4:] for it in rows) if rows[0].startswith("    ") else [".PP", *map(styled, rows)]


def table(rows):
    """Returns an item for each row of a table but its head: what its first cell says, and then the others."""
    told = []
    _, _, *heads = cells(rows[0])
    for row in rows[2:]:
        first, second, *others = cells(row)
        told += [".TP", styled(first) or r"\&", *([styled(second)] if second else [])]
        for head, it in zip(heads, others):
            told += [".IP", styled(f"{head}: {it}")] if it and head else [".br", styled(it)] if it else []
    return [*told, ".PP"]


def cells(row):
    """Returns the cells of a table's row."""
    return [it.strip() for it in re.split(r"(?<!\\)\|", row.strip("|"))]


def verbatim(rows):
    """Returns lines that are shown as they are."""
    return [".nf", *(escaped(it) for it in rows), ".fi"]


def styled(text):
    """Returns a text with its code and its stress in bold."""
    return re.sub(r"`([^`]*)`|\*\*(.*?)\*\*", lambda it: rf"\fB{it[1] or it[2] or ''}\fR", escaped(text))


def escaped(text):
    """Returns a text in which no sign is man's own."""
    text = text.replace("\\", r"\e").replace("-", r"\-").replace("'", r"\(aq").replace("`", "`")
    return r"\&" + text if text.startswith(".") else text
