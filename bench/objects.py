#!/usr/bin/env python3
"""Times how texts of code are loaded and stored.

    objects.py [--only WORD] [--size MIB ..] [--rounds N] [--core N] [--folder FOLDER] [--loop PROGRAM]
    objects.py --write FOLDER [--only WORD] [--size MIB ..]

Builds the program of object_program.txt over the crates of this repository. Then it makes each kind of text in the
sizes given, 1, 8 and 64 MiB if not, and has the program read the file, load its code, and store that again, each so
many rounds (5 if not given) in a process of its own, pinned to one core. What is stored has to be the text. A row tells
what was answered; how long the call of `load` took, by the program's own clock, the median of the rounds, and that in
loops; the median of the processor seconds of the call of `store`; and the most memory that `load` takes beside the
text. A loop is what the program at --loop, ./capl if
not given, takes to count to 3,200,000 in CAPL.

The build takes place in a temporary folder, or in FOLDER, which is kept, as that of run.py. With --write the texts are
kept in a folder, and nothing is built or run.
"""
import argparse
import os
import pathlib
import random
import statistics
import struct
import subprocess
import tempfile

from run import ROOT, build_program, processor, stop

HERE = pathlib.Path(__file__).resolve().parent
PROGRAM = "object_bench"
STANDS_ON = ["object_file", "bytecode"]
MIB = 1 << 20
SEED = 31

# At most so many bytes of a text are none of its kind.
OTHERS = 200
LOOPS = """\
on start
{
  long i, j, s;
  for (j = 0; j < 3200; j++)
    for (i = 0; i < 999; i++)
      s = s + i;
}
"""

# ---- records

KINDS = "byte word dword qword int long int64 char".split()
EVENT_CELLS = "dword byte byte word byte dword byte byte byte byte byte byte byte byte char".split()
OPERATORS = "|| && | ^ & == != < <= > >= << >> + - * / %".split()
START, MESSAGE = 1, 3

# Of each instruction its number, what stands behind it, and the numbers that it takes and gives. An L is a place, of
# which the text has the number of the place in its function.
INSTRUCTIONS = {
    "Push": (0, "n", 0, 1), "Load": (1, "I", 0, 1), "Store": (2, "I", 1, 1), "Elem": (4, "II", 1, 1),
    "SetElem": (5, "II", 2, 1), "Bytes": (6, "BI", 1, 1), "SetBytes": (7, "BI", 2, 1), "Sig": (8, "HHBBI", 0, 1),
    "SetSig": (9, "HHBBI", 1, 1), "SetField": (10, "BI", 1, 1), "Bin": (11, "BB", 2, 1), "Neg": (12, "B", 1, 1),
    "Conv": (14, "B", 1, 1), "Not": (15, "", 1, 1), "Dup": (16, "", 1, 2), "Drop": (17, "", 1, 0),
    "Jump": (18, "L", 0, 0), "Zero": (19, "L", 1, 0), "Case": (20, "nL", 1, 1), "Back": (21, "L", 1, 0),
    "Ret": (24, "", 0, 0), "Write": (25, "I", 1, 0), "Send": (26, "I", 0, 0), "Set": (29, "IB", 1, 0),
    "Active": (31, "I", 0, 1), "Now": (32, "", 0, 1),
}

# A procedure as the compiler makes them, over cells 15 (a long), 16 (a long), 17 to 24 (longs) and a message at 25:
# a test of the event's first byte, a count, a line, a loop over an array, a signal, a switch, a frame and a timer. A
# word with a colon names the place behind it.
PROCEDURE = """
    Push 0; Bytes byte 0; Push 3; Bin > long; Zero quiet
    Load 15; Push 1; Bin + long; Store 15; Drop; Load 15; Write 0; quiet:
    Push 0; Store 16; Drop; turn:
    Load 16; Push 8; Bin < long; Zero full
    Load 16; Load 15; SetElem 17 8; Drop
    Load 16; Push 1; Bin + long; Store 16; Drop; Push 1; Back turn; full:
    Sig 3 12 0 0 25; Push 2; Bin * long; Conv int; SetSig 3 12 0 0 25; Drop
    Load 15; Case 1 short; Case 2 long; Drop; Jump end; short:
    Push 4; SetField 1 25; Drop; Jump end; long:
    Push 8; SetField 1 25; Drop; end:
    Send 25; Push 100; Set 0 1; Ret
"""


def bytes_of(n):
    """A number of 128 bits in two's complement."""
    return n.to_bytes(16, "little", signed=True)


def dword(n):
    """A number of four bytes."""
    return struct.pack("<I", n)


def listing(records, count):
    """A list: the number of its records, and the records."""
    return dword(count) + records


def text_of(own):
    """A text."""
    return listing(own, len(own))


def kinds(names):
    """Kinds."""
    return bytes(KINDS.index(name) for name in names)


def function(start, end):
    """A function that gives nothing."""
    return struct.pack("<IIB", start, end, 0)


def procedure(number, event=bytes([START])):
    """An event procedure."""
    return event + struct.pack("<III", number, 0, 1 + number % 60_000)


def instruction(name, words):
    """The bytes of an instruction; the number of a place stands at their end."""
    number, layout, _, _ = INSTRUCTIONS[name]
    found = bytes([number])
    for letter, word in zip(layout, words):
        value = KINDS.index(word) if word in KINDS else OPERATORS.index(word) if word in OPERATORS else int(word)
        found += bytes_of(value) if letter == "n" else struct.pack("<" + letter.replace("L", "I"), value)
    return found


def placed(listed):
    """The rows of a list of instructions, with the numbers of places for their names."""
    rows, places = [], {}
    for row in listed.replace("\n", ";").split(";"):
        if row.strip().endswith(":"):
            places[row.strip()[:-1]] = len(rows)
        elif row.strip():
            rows.append(row.split())
    return [[name, *words[:-1], str(places.get(words[-1], words[-1]))] if "L" in INSTRUCTIONS[name][1] else
            [name, *words] for name, *words in rows]


def depths_of(rows):
    """The depths of instructions."""
    depths = [0] * len(rows)
    for place, (name, *words) in enumerate(rows):
        _, layout, taken, given = INSTRUCTIONS[name]
        if "L" in layout:
            depths[int(words[-1])] = depths[place] - taken
        if name not in ("Jump", "Ret"):
            depths[place + 1] = depths[place] - taken + given
    return b"".join(map(dword, depths))


def assembled(listed):
    """The bytes of a list of instructions, how many they are, where in the bytes the number of a place stands and
    where that of a format, and their depths."""
    rows = placed(listed)
    code, aims, formats = b"", [], []
    for name, *words in rows:
        code += instruction(name, words)
        if "L" in INSTRUCTIONS[name][1]:
            aims.append(len(code) - 4)
        if name == "Write":
            formats.append(len(code) - 4)
    return code, len(rows), aims, formats, depths_of(rows)


# ---- texts


def code_text(cells=b"", starts=(b"", 0), timers=b"", formats=(b"", 0), functions=(function(0, 1), 1),
              procedures=(b"", 0), code=(bytes([24]), 1, dword(0))):
    """The text of code with these lists behind the event's cells, which are those of one function that does nothing
    where they are not given."""
    every = kinds(EVENT_CELLS) + cells
    instrs, count, depths = code
    return b"".join([
        b"CAPLOBJ1", listing(every, len(every)), listing(*starts), listing(timers, len(timers) // 8),
        listing(*formats), listing(*functions), listing(*procedures), listing(instrs, count), listing(depths, count),
        dword(0),
    ])


def procedures(size):
    """Procedures as the compiler makes them, each with a format of its own."""
    code, length, aims, formats, depths = assembled(PROCEDURE)
    form = text_of(b"node %d of this bus") + listing(bytes([0, KINDS.index("long")]), 1)
    count = size // (len(code) + len(depths) + len(form) + len(procedure(0)) + len(function(0, 1)))
    parts = []
    for number in range(count):
        own = bytearray(code)
        for place in aims:
            struct.pack_into("<I", own, place, number * length + struct.unpack_from("<I", own, place)[0])
        for place in formats:
            struct.pack_into("<I", own, place, number)
        parts.append(bytes(own))
    spans = b"".join(function(it * length, (it + 1) * length) for it in range(count))
    return code_text(kinds(["long"] * 10 + EVENT_CELLS[:14]), timers=struct.pack("<Q", 1000),
                     formats=(form * count, count), functions=(spans, count),
                     procedures=(b"".join(map(procedure, range(count))), count),
                     code=(b"".join(parts), length * count, depths * count))


def short_instructions(size):
    """One procedure of instructions of one byte: with its depth each takes five."""
    count = size // 5
    code = instruction("Push", ["0"]) + bytes([15]) * (count - 3) + bytes([17, 24])
    return code_text(functions=(function(0, count), 1), procedures=(procedure(0), 1),
                     code=(code, count, dword(0) + dword(1) * (count - 2) + dword(0)))


def short_formats(size):
    """Formats of some words and two numbers."""
    one = text_of(b"node %d sent %I64d frames") + listing(bytes([0, KINDS.index("long"), 0, KINDS.index("int64")]), 2)
    count = size // len(one)
    return code_text(formats=(one * count, count))


def long_format(size):
    """One format of letters."""
    return code_text(formats=(text_of(b"x" * size) + listing(b"", 0), 1))


def texts_of_formats(size):
    """One format with texts of a letter as its arguments."""
    one = bytes([2]) + text_of(b"x")
    count = size // (2 + len(one))
    return code_text(formats=(text_of(b"%s" * count) + listing(one * count, count), 1))


def arrays_of_formats(size):
    """Cells of characters in half the text, and in the other half a format with all of them as each argument."""
    cells = size // 2
    one = bytes([1]) + dword(15) + dword(cells)
    count = size // 2 // (2 + len(one))
    return code_text(kinds(["char"]) * cells, formats=(text_of(b"%s" * count) + listing(one * count, count), 1))


def cells(size):
    """Cells."""
    return code_text(kinds(["long"]) * size)


def initial_values(size):
    """Initial values of one cell."""
    one = dword(15) + bytes_of(-2)
    return code_text(kinds(["long"]), starts=(one * (size // len(one)), size // len(one)))


def functions(size):
    """Functions of one instruction."""
    count = size // (len(function(0, 1)) + 5)
    return code_text(functions=(b"".join(function(it, it + 1) for it in range(count)), count),
                     code=(bytes([24]) * count, count, dword(0) * count))


def selectors(size):
    """Selectors of one procedure, in any order."""
    count = size // 9
    keys = random.Random(SEED).sample(range(1 << 29), count)
    event = bytes([MESSAGE]) + listing(b"".join(struct.pack("<BII", 0, it, it) for it in keys), count)
    return code_text(procedures=(procedure(0, event), 1))


def timers(size):
    """Timers, each with a procedure, in any order."""
    count = size // (8 + 17)
    numbers = list(range(count))
    random.Random(SEED).shuffle(numbers)
    handlers = b"".join(procedure(0, bytes([4]) + dword(it)) for it in numbers)
    return code_text(timers=struct.pack("<Q", 1000) * count, procedures=(handlers, count))


def too_great_count(size):
    """Instructions of one byte, of which the count says 2^32 - 1."""
    return code_text()[:-17] + listing(bytes([15]) * size, (1 << 32) - 1)


def count_of_all_bytes(size):
    """Instructions of one byte, of which the count says as many as there are bytes, and nothing behind them."""
    return code_text()[:-17] + listing(bytes([15]) * size, size)


TEXTS = {
    "procedures": procedures, "instructions of a byte": short_instructions, "formats": short_formats,
    "one format of letters": long_format, "texts of a format": texts_of_formats,
    "arrays of a format": arrays_of_formats, "cells": cells, "initial values": initial_values,
    "functions of a place": functions, "selectors": selectors, "timers": timers,
    "a count of 2^32 - 1": too_great_count, "a count of all bytes": count_of_all_bytes,
}


# ---- the figures


def build(folder):
    """Builds the program."""
    main = (HERE / "object_program.txt").read_text(encoding="utf-8")
    return build_program(folder, PROGRAM, STANDS_ON, {"main.rt": main})


def timed(command, core, folder):
    """The words that a command writes, its processor seconds and its most memory in megabytes."""
    pin = lambda: os.sched_setaffinity(0, {core})
    run = subprocess.Popen(command, cwd=folder, stdout=subprocess.PIPE, preexec_fn=pin, text=True)
    said = run.stdout.read()
    _, status, usage = os.wait4(run.pid, 0)
    run.returncode = os.waitstatus_to_exitcode(status)
    if run.returncode:
        stop(f"{' '.join(map(str, command))} ended with status {run.returncode}")
    return said.split(), usage.ru_utime + usage.ru_stime, usage.ru_maxrss / 1000


def median_of(runs):
    """The median of the runs' seconds, and the most of their memory."""
    return statistics.median(it[1] for it in runs), max(it[2] for it in runs)


def loop_seconds(words, folder):
    """The seconds of a loop."""
    (folder / "s.scn").write_text("scenario 1\nnode N n.can\nturns 4000000\nuntil 1\n", encoding="utf-8")
    (folder / "n.can").write_text(LOOPS, encoding="utf-8")
    return median_of([timed([words.loop, "window", "s.scn"], words.core, folder) for _ in range(words.rounds)])[0]


def report(words, program, folder, name, size, loop):
    """Prints the row of a text of a size."""
    file = folder / "text"
    write(file, name, size)
    runs = {work: [timed([program, work, file], words.core, folder) for _ in range(words.rounds)]
            for work in ("read", "load", "store")}
    answer = runs["load"][0][0][0]
    stored = answer.isdigit()
    if stored and any(said != ["true"] for said, _, _ in runs["store"]):
        stop(f"what is stored of {name} is another text")
    found = {work: median_of(each) for work, each in runs.items()}
    loading = statistics.median(int(said[-1]) for said, _, _ in runs["load"]) / 1_000_000
    storing = f'{found["store"][0] - found["load"][0]:8.3f}' if stored else f"{'-':>8}"
    memory = found["load"][1] - found["read"][1]
    print(f"{name:24} {size:4} {answer:>10} {loading:8.3f} {loading / loop:6.1f} {storing} {memory:8.0f}", flush=True)


def write(file, name, size):
    """Writes a text of a size in MiB, in a process of its own: the most memory of a process counts as that of what it
    starts."""
    one = os.fork()
    if one:
        if os.waitpid(one, 0)[1]:
            stop(f"{file} could not be written")
        return
    try:
        file.write_bytes(TEXTS[name](size * MIB - OTHERS))
        os._exit(0)
    finally:
        os._exit(1)


def main():
    parser = argparse.ArgumentParser(description=__doc__, formatter_class=argparse.RawDescriptionHelpFormatter)
    parser.add_argument("--only", default="")
    parser.add_argument("--size", type=int, nargs="+", default=[1, 8, 64], metavar="MIB")
    parser.add_argument("--rounds", type=int, default=5)
    parser.add_argument("--core", type=int, default=max(os.sched_getaffinity(0)))
    parser.add_argument("--folder", type=pathlib.Path)
    parser.add_argument("--loop", type=lambda it: pathlib.Path(it).resolve(), default=ROOT / "capl", metavar="PROGRAM")
    parser.add_argument("--write", type=pathlib.Path, metavar="FOLDER")
    words = parser.parse_args()
    names = [it for it in TEXTS if words.only in it]
    if words.write:
        words.write.mkdir(parents=True, exist_ok=True)
        for name in names:
            for size in words.size:
                write(words.write / f"{name.replace(' ', '-')}-{size}", name, size)
        return
    with tempfile.TemporaryDirectory(prefix="object-bench-") as temporary:
        folder = words.folder.resolve() if words.folder else pathlib.Path(temporary)
        folder.mkdir(parents=True, exist_ok=True)
        program = build(folder)
        loop = loop_seconds(words, folder)
        print(processor())
        print(f"{words.rounds} rounds; a loop takes {loop:.3f} seconds")
        print(f"{'text':24} {'MiB':>4} {'answer':>10} {'load s':>8} {'loops':>6} {'store s':>8} {'load MB':>8}")
        for name in names:
            for size in words.size:
                report(words, program, folder, name, size, loop)


if __name__ == "__main__":
    main()
