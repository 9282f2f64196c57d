"""What a refusal says, for people: its rule in a sentence, the line of the input, and an example from the docs."""
import functools
import os
import pathlib
import re
import typing

import lines

DOCS = lines.ROOT / "docs"
REFUSAL = re.compile(rb"refused (.+?)(?::([0-9]+))?(?::([0-9]+))? ([A-Z][0-9]{2})\n", re.DOTALL)
CELLS = re.compile(r"(?<!\\)\|")
CODE = re.compile(r"`([^`]*)`")


class Refusal(typing.NamedTuple):
    """A refusal: the whole line, the file, its line and column where they are told, and the rule."""
    line: str
    file: str
    row: typing.Optional[int]
    column: typing.Optional[int]
    rule: str


def read(out):
    """The refusal that the program printed."""
    found = REFUSAL.fullmatch(out)
    if not found:
        raise ValueError(f"no refusal: {out[:200]!r}")
    name, row, column, rule = (it and os.fsdecode(it) for it in found.groups())
    return Refusal(os.fsdecode(out[:-1]), name, row and int(row), column and int(column), rule)


# ---- the line of the input

def line_of(path, row):
    """A line of a file as its bytes, or None where there is none."""
    try:
        rows = pathlib.Path(path).read_bytes().split(b"\n")
    except OSError:
        return None
    return rows[row - 1].rstrip(b"\r") if row <= len(rows) else None


def mark_under(line, column):
    """What stands under a line of bytes: a mark at the column, or below all of the line where none is told."""
    if column is None:
        text = lines.text_of(line)
        blanks = len(text) - len(text.lstrip())
        return text[:blanks] + "~" * len(text.strip())
    before = lines.text_of(line[:column - 1])
    # A tab stays one, so that the mark stands below its place however wide tabs are.
    return re.sub(r"[^\t]", " ", before) + "^"


def source_text(told):
    """The line in which a rule is broken with a mark under it; nothing where the rule belongs to a file as a whole."""
    line = line_of(told.file, told.row) if told.row else None
    if line is None:
        return ""
    number = str(told.row)
    return (f"{number} | {lines.text_of(line)}\n"
            f"{' ' * len(number)} | {mark_under(line, told.column)}\n")


# ---- the rule and its example

@functools.cache
def rows_of(name):
    """The rows of all tables of a page of the docs, each a list of its cells."""
    text = (DOCS / name).read_text(encoding="utf-8")
    rows = [line for line in text.split("\n") if line.startswith("|")]
    return [[cell.strip() for cell in CELLS.split(row)[1:-1]] for row in rows]


def plain(cell):
    """A cell as plain text, its code between quotation marks."""
    return CODE.sub(lambda it: f"'{it[1]}'", cell).replace("\\|", "|")


def sentence_of(rule):
    """When the rule is broken, as docs/rules.md says it, or docs/scenario.md of the lines of a scenario."""
    rows = [row for name in ("rules.md", "scenario.md") for row in rows_of(name) if row[0] == rule]
    return plain(rows[0][1]).removesuffix(": see below") if rows else ""


def places_of(rule):
    """Where the rule stands, in as many lines as docs/rules.md has for it besides its sentence; mostly none."""
    text = (DOCS / "rules.md").read_text(encoding="utf-8")
    found = re.search(rf"\b{rule} stands at(?::\n\n(?P<list>(?:[- ] .*\n)+)|(?P<line>[^:]*?\.)(?= E\d|\n))", text)
    if not found:
        return ""
    return plain(f"It stands at:\n{found['list']}" if found["list"] else f"It stands at{found['line']}\n")


def example_of(rule):
    """An input that breaks the rule, as the docs have it."""
    for row in rows_of("rules.md"):
        if row[-1].startswith("`refused ") and row[-1].endswith(f" {rule}`"):
            return row[0]
    return next((row[2] for row in rows_of("scenario.md") if row[0] == rule and len(row) > 2), "")


def example_text(rule):
    """The example of a rule as plain text: the source alone where it is one."""
    cell = example_of(rule)
    return (CODE.fullmatch(cell)[1] if CODE.fullmatch(cell) else plain(cell)).replace("\\|", "|")
