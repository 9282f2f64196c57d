#!/usr/bin/env python3
"""Writes a run as a value change dump (IEEE 1364), which GTKWave and other viewers of waves open.

    vcd.py SCENARIO [--program PROGRAM] > run.vcd

A time unit is a microsecond of the run. The scope `bus` has

    busy         1 from the start of a frame to its end, else 0
    identifier   of the frame on the bus, and with high impedance (z) where there is none
    extended, remote, length, byte0 to byte7    the same; bytes that the frame lacks are z

The scope `signals` has each signal that came, by its message: its raw numbers as integers, from the end of the frame
that brought them, and unknown (x) before the first. The scope `lines` has the last line of each node as a string,
which is an addition of GTKWave's to the standard, and `halted` whether a trap or the limit of turns halted it.

The status is that of the run: 1 where the scenario is refused, which one line on standard error says.
"""
import argparse
import os
import sys
import typing

import lines
import record

BYTES = 8
BACKSLASH = 92
IDENTIFIER_BITS = 29
# An integer has at least so many bits, so that one without a sign is not read as a negative one.
INTEGER_BITS = 32


class Variable(typing.NamedTuple):
    """A variable of the dump: its scope, its kind and width as they are declared, and its name."""
    scope: str
    kind: str
    width: int
    name: str


BUSY = Variable("bus", "wire", 1, "busy")
IDENTIFIER = Variable("bus", "wire", IDENTIFIER_BITS, "identifier")
EXTENDED = Variable("bus", "wire", 1, "extended")
REMOTE = Variable("bus", "wire", 1, "remote")
LENGTH = Variable("bus", "wire", 4, "length")
PAYLOAD = [Variable("bus", "wire", 8, f"byte{i}") for i in range(BYTES)]
BUS = [BUSY, IDENTIFIER, EXTENDED, REMOTE, LENGTH, *PAYLOAD]


def line_of(node):
    """The variable of a node's last line."""
    return Variable("lines", "string", 1, node)


def halt_of(node):
    """The variable that tells whether a node is halted."""
    return Variable("halted", "wire", 1, node)


def integer_of(message, signal):
    """The variable of a signal."""
    width = max(INTEGER_BITS, signal.bits + (not signal.signed))
    return Variable(f"signals.{message.name}", "integer", width, signal.name)


# ---- what changes when

def bus_changes(sent):
    """The changes of the bus by a frame: (moment, variable, value)."""
    frame = sent.frame
    values = {BUSY: 1, IDENTIFIER: frame.identifier, EXTENDED: int(frame.extended), REMOTE: int(frame.remote),
              LENGTH: frame.length, **dict(zip(PAYLOAD, frame.data))}
    yield from ((sent.start, variable, value) for variable, value in values.items())
    yield from ((sent.end, variable, 0 if variable == BUSY else None) for variable in values)


def line_changes(line):
    """The changes by a line of a node."""
    yield line.moment, line_of(line.node), line.text
    if line.halt:
        yield line.moment, halt_of(line.node), 1


def signals_of(seen):
    """The variables of the signals that came, with their changes: {variable: [(moment, value)]}."""
    known = {(message.name, it.name): integer_of(message, it)
             for message in seen.database.messages.values() for it in message.signals}
    return {known[key]: [(seen.frames[it.number].end, it.value) for it in several]
            for key, several in record.changes(seen).items()}


def all_changes(seen, signals):
    """All changes of a run by moment; those of one moment in the order in which they happen."""
    found = [change for it in seen.frames for change in bus_changes(it)]
    found += [change for it in seen.lines for change in line_changes(it)]
    found += [(moment, variable, value) for variable, several in signals.items() for moment, value in several]
    return sorted(found, key=lambda it: it[0])


# ---- how it is written

def code_of(number):
    """The short name of a variable, of the printable characters."""
    text = ""
    while True:
        text += chr(33 + number % 94)
        number = number // 94 - 1
        if number < 0:
            return text


def escaped(text):
    """A text as a value of a string: blanks, backslashes and what is not printable ASCII as a backslash and digits."""
    return "".join(chr(byte) if 33 <= byte <= 126 and byte != BACKSLASH else f"\\{byte:03o}"
                   for byte in text.encode("utf-8"))


def value_text(variable, value, code):
    """A change as the dump has it; None is high impedance."""
    if variable.kind == "string":
        return f"s{escaped(value)} {code}"
    if variable.width == 1:
        return f"{'z' if value is None else value}{code}"
    digits = "z" if value is None else format(value % (1 << variable.width), "b")
    return f"b{digits} {code}"


def first_value(variable, code):
    """What a variable has before its first change."""
    if variable.kind == "string":
        return f"s {code}"
    if variable.kind == "integer":
        return f"bx {code}"
    return value_text(variable, 0 if variable == BUSY or variable.scope == "halted" else None, code)


def declared(codes):
    """The declarations of variables, scope by scope; a scope within another is written with dots."""
    within = []
    for scope in dict.fromkeys(it.scope for it in codes):
        parts = scope.split(".")
        shared = len(os.path.commonprefix([within, parts]))
        yield from ("$upscope $end" for _ in within[shared:])
        yield from (f"$scope module {part} $end" for part in parts[shared:])
        yield from (f"$var {it.kind} {it.width} {code} {it.name} $end"
                    for it, code in codes.items() if it.scope == scope)
        within = parts
    yield from ("$upscope $end" for _ in within)


def note(seen):
    """What a reader of the dump should know of it."""
    known = seen.database
    reader = f", database read by {known.reader}" if known.reader else ""
    left_out = f"; left out of it: {'; '.join(known.left_out)}" if known.left_out else ""
    # No `$`, with which words of the format begin, and only ASCII.
    return f"{seen.path}{reader}{left_out}".replace("$", "_").encode("ascii", "backslashreplace").decode("ascii")


def dump(seen):
    """The lines of the dump of a run."""
    signals = signals_of(seen)
    variables = [*BUS, *signals, *(it(node) for it in (line_of, halt_of) for node in seen.scenario.nodes)]
    codes = {variable: code_of(number) for number, variable in enumerate(variables)}
    yield f"$comment {note(seen)} $end"
    yield "$timescale 1 us $end"
    yield from declared(codes)
    yield "$enddefinitions $end"
    yield "#0"
    yield "$dumpvars"
    yield from (first_value(variable, code) for variable, code in codes.items())
    yield "$end"
    now = 0
    for moment, variable, value in all_changes(seen, signals):
        if moment != now:
            yield f"#{moment}"
            now = moment
        yield value_text(variable, value, codes[variable])
    if seen.last != now:
        yield f"#{seen.last}"


def main():
    words = argparse.ArgumentParser(description="Writes a run as a value change dump.")
    words.add_argument("scenario")
    words.add_argument("--program", default=str(lines.CAPL))
    told = words.parse_args()
    status, out = lines.answer(told.program, "run", told.scenario)
    if status == lines.REFUSED:
        sys.stderr.write(out.decode("utf-8", "replace"))
        return status
    sys.stdout.writelines(f"{line}\n" for line in dump(record.joined(told.scenario, out)))
    return 0


if __name__ == "__main__":
    sys.exit(main())
