"""Reads the items of a scenario that the program takes, as docs/scenario.md has them."""
import pathlib
import re
import typing

MILLISECOND = 1000
SECOND = 1000 * MILLISECOND
# What a window calls the log that is replayed, which counts as a node behind all others.
REPLAY = "replay"

# An entry of a log, as docs/formats.md has it: its seconds and its interface.
ENTRY = re.compile(r"[ \t]*\((\d{1,15})\.\d{6}\)[ \t]+([!-~]{1,15})[ \t]+(?:[0-7][0-9A-Fa-f]{2}|[01][0-9A-Fa-f]{7})#"
                   r"(?:R[0-8]?|(?:[0-9A-Fa-f]{2}\.?){0,8})(?<!\.)(?:[ \t]+[RT])?[ \t]*\r?")


class Scenario(typing.NamedTuple):
    """What a scenario says of its run: moments and durations are in microseconds.

    A log that is replayed is the last of the nodes.
    """
    nodes: list
    database: typing.Optional[str]
    bit: int
    until: int
    epoch: int
    interface: str
    keys: list


def items_of(text):
    """The fields of each item; empty lines and comments are none."""
    lines = (line.removesuffix("\r") for line in text.split("\n"))
    return [line.split() for line in lines if line.strip(" \t") and not line.startswith("#")]


def beside(path, name):
    """The name under which the program seeks a file of the scenario at a path."""
    return name if name.startswith("/") else path[:path.rfind("/") + 1] + name


def said(items, word, default):
    """The first field behind a word that stands in one item at most."""
    return next((fields[1] for fields in items if fields[0] == word), default)


def first_second(log, interface):
    """The second before the first entry of an interface in a log that is replayed; 0 without an entry."""
    lines = log.removesuffix("\n").split("\n")
    entries = (found for found in map(ENTRY.fullmatch, lines) if found and found[2] == interface)
    return next((min(max(int(found[1]) - 1, 0), 2**32 - 1) for found in entries), 0)


def epoch_of(path, items):
    """The second at which the run of a scenario begins."""
    epoch, replay = said(items, "epoch", "0"), said(items, "replay", None)
    if epoch != "first":
        return int(epoch)
    if replay is None:
        return 0
    log = pathlib.Path(beside(path, replay)).read_bytes().decode("latin-1")
    return first_second(log, said(items, "interface", "can0"))


def read(path):
    """The scenario at a path, which the program has to have taken."""
    items = items_of(pathlib.Path(path).read_bytes().decode("latin-1"))
    database = said(items, "database", None)
    keys = [(int(fields[1]) * MILLISECOND, fields[2]) for fields in items if fields[0] == "key"]
    nodes = [fields[1] for fields in items if fields[0] == "node"]
    return Scenario(nodes=nodes if said(items, "replay", None) is None else [*nodes, REPLAY],
                    database=database and beside(path, database),
                    bit=SECOND // int(said(items, "bitrate", "500000")),
                    until=int(said(items, "until", "10000")) * MILLISECOND,
                    epoch=epoch_of(path, items) * SECOND,
                    interface=said(items, "interface", "can0"),
                    keys=sorted(keys, key=lambda it: it[0]))
