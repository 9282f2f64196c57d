"""Runs the program on a scenario, and reads the lines that `run` prints (docs/run.md, docs/formats.md)."""
import pathlib
import re
import subprocess
import sys
import typing

import scenario

ROOT = pathlib.Path(__file__).resolve().parent.parent
CAPL = ROOT / "capl"
REFUSED = 1
KILLED = 128

FRAME = re.compile(rb"\(([0-9]{10,})\.([0-9]{6})\) ([!-~]+) ([0-9A-F]{3}|[0-9A-F]{8})#(R[0-8]?|(?:[0-9A-F]{2}){0,8})")
LINE = re.compile(rb"w ([0-9]+)\.([0-9]{6}) ([A-Za-z0-9_]+) (.*)", re.DOTALL)
HALTS = ("trap zero divisor", "trap index", "turn limit")


class Frame(typing.NamedTuple):
    """A frame that ended at a moment of the run; length is its data length code."""
    end: int
    identifier: int
    extended: bool
    remote: bool
    length: int
    data: bytes


class Line(typing.NamedTuple):
    """A line of a node at a moment of the run; a halt is that of a trap or of the limit of turns."""
    moment: int
    node: str
    text: str
    halt: bool


def text_of(data):
    """The text of bytes that may be UTF-8, or else are taken to be ISO 8859-1."""
    try:
        return data.decode("utf-8")
    except UnicodeDecodeError:
        return data.decode("latin-1")


def frame_of(found, epoch):
    """The frame of a line of the log."""
    seconds, micros, _, identifier, payload = found.groups()
    end = int(seconds) * scenario.SECOND + int(micros) - epoch
    remote = payload.startswith(b"R")
    data = b"" if remote else bytes.fromhex(payload.decode("ascii"))
    length = int(payload[1:] or b"0") if remote else len(data)
    return Frame(end, int(identifier, 16), len(identifier) == 8, remote, length, data)


def entry_of(line, epoch):
    """The frame or the line of a node that one line of a run has."""
    if found := LINE.fullmatch(line):
        moment = int(found[1]) * scenario.SECOND + int(found[2])
        return Line(moment, found[3].decode("ascii"), text_of(found[4]), False)
    if found := FRAME.fullmatch(line):
        return frame_of(found, epoch)
    raise ValueError(f"no line of a run: {line[:200]!r}")


def with_halts(entries):
    """The same entries, with the lines that tell of a halt marked.

    A halt is told by its words alone, and a node may write them too. A halted node writes nothing further, so
    only its last line is taken for one.
    """
    over = set()
    for i in range(len(entries) - 1, -1, -1):
        it = entries[i]
        if isinstance(it, Line) and it.node not in over:
            over.add(it.node)
            entries[i] = it._replace(halt=it.text in HALTS)
    return entries


def entries_of(out, epoch):
    """The frames and lines of what a run printed, in its order."""
    return with_halts([entry_of(line, epoch) for line in out.removesuffix(b"\n").split(b"\n") if line])


def answer(program, command, path):
    """The status and the output of a command; any status but those of accepted and refused inputs ends the script."""
    done = subprocess.run([program, command, path], stdin=subprocess.DEVNULL, stdout=subprocess.PIPE)
    if done.returncode not in (0, REFUSED):
        print(f"{program} {command} {path} ended with status {done.returncode}", file=sys.stderr)
        # A program that a signal ended has a number below 0.
        sys.exit(done.returncode if done.returncode > 0 else KILLED - done.returncode)
    return done.returncode, done.stdout
