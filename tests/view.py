#!/usr/bin/env python3
"""Tests what view/ shows of runs, on a built program.

    view.py PROGRAM [--pictures]

Of examples, and of scenarios made for it, each with the program's own lines beside:

- the data of a page has each frame and line once, in the order of the run, and the numbers of signals are those that
  a source reads;
- the bits of a frame, counted anew, are those that the program's frames take one behind the other;
- the wave file has the same frames, lines and numbers, as a second small reader reads it (tests/waves.py);
- the two readers of a database agree; a load is that of counting microseconds; each example of docs/rules.md is
  refused as it says, and each rule has its sentence; the colour-blind can tell the colours.

Where Chromium is installed the pages are opened in it, zoomed, searched and looked at; where GTKWave and Xvfb are,
the wave files are opened in it. Where they are not, or canmatrix is not, a line says so, and nothing is counted.

With --pictures those of docs/pictures/ are taken anew. The last line is 'N passed, M failed'.
"""
import argparse
import html
import itertools
import os
import pathlib
import random
import re
import subprocess
import sys
import tempfile

import colours
import opened
import waves
from shown import (BODY, EXAMPLES, ROOT, SECONDS, SEED, VIEW, data_of, dump_of, faults_found, made, page,
                   random_signals, said, signal_files, stamp, written)

import bits
import database
import lines
import load
import record
import refusal
import scenario


# ---- pages hold the run

def lines_again(data):
    """The lines of a run, made again of the data of its page."""
    frames, lines_ = data["frames"], data["lines"]
    frame, line = itertools.count(), itertools.count()
    for kind in data["order"]:
        i = next(frame if kind == "f" else line)
        if kind == "f":
            identifier = data["kinds"][frames["kind"][i]]["id"]
            end = stamp(frames["end"][i] + data["epoch"], 10)
            yield f"({end}) {data['interface']} {identifier}#{frames['data'][i]}"
        else:
            yield f"w {stamp(lines_['at'][i], 1)} {data['nodes'][lines_['node'][i]]} {lines_['text'][i]}"


def faults_of_page(program, path):
    """Where the page of a run has not each of its lines once and in order."""
    data = data_of(page(program, path))
    printed = [lines.text_of(it) for it in said(program, "run", path).split(b"\n")[:-1]]
    again = list(lines_again(data))
    if len(data["frames"]["end"]) + len(data["lines"]["at"]) != len(printed):
        yield f"{len(printed)} lines are printed, and the page has {len(data['order'])}"
    if again != printed:
        where = next(i for i, pair in enumerate(itertools.zip_longest(again, printed)) if pair[0] != pair[1])
        yield f"line {where + 1} is {printed[where:where + 1]}, and in the page {again[where:where + 1]}"


def faults_of_overlap(program, path):
    """Frames of a page that begin before the bus is free of those before them."""
    data = data_of(page(program, path))
    free = 0
    for end, count in zip(data["frames"]["end"], data["frames"]["bits"]):
        if end - count * data["bit"] < free:
            yield f"the frame that ends at {end} begins before {free}"
        free = end + bits.INTERMISSION * data["bit"]


# ---- bits

def random_frames(chance, count):
    """Frames of all forms: (identifier, extended, remote, length, data), some of few different bits."""
    for i in range(count):
        extended, remote, length = chance.random() < 0.5, chance.random() < 0.2, chance.randrange(9)
        dull = chance.choice([0x00, 0xFF, 0x0F, 0xF8])
        data = bytes(dull if chance.random() < 0.5 else chance.randrange(256) for _ in range(0 if remote else length))
        yield chance.choice([0, chance.randrange(1 << (29 if extended else 11))]), extended, remote, length, data


def requests(frames):
    """The statements that request frames, each with all its fields."""
    for identifier, extended, remote, length, data in frames:
        fields = [f"m.id = 0x{identifier:X}{'x' if extended else ''};", f"m.dlc = {length};", f"m.rtr = {int(remote)};"]
        yield " ".join([*fields, *(f"m.byte({i}) = {byte};" for i, byte in enumerate(data)), "output(m);"])


def faults_of_bits(program, rate):
    """Where frames that wait for each other are not as long on the bus as their bits are counted."""
    bit = 10**6 // rate
    statements = "\n".join(requests(random_frames(random.Random(SEED), 300)))
    with tempfile.TemporaryDirectory() as keep:
        path = made(pathlib.Path(keep), {"s.scn": f"scenario 1\nnode N n.can\nbitrate {rate}\nuntil 10000\n",
                                         "n.can": f"variables {{ message * m; }}\non start {{\n{statements}\n}}\n"})
        found = lines.entries_of(said(program, "run", path), 0)
        data = data_of(page(program, path))
    if len(found) != 300 or len(data["frames"]["bits"]) != 300:
        yield f"{len(found)} frames are printed of 300, and the page has {len(data['frames']['bits'])}"
    before = -bits.INTERMISSION * bit
    for it, count in zip(found, data["frames"]["bits"]):
        taken = it.end - before - bits.INTERMISSION * bit
        if taken != count * bit:
            yield f"{record.identifier_text(it)}#{record.payload_text(it)} takes {taken / bit} bits, counted as {count}"
        before = it.end


# ---- signals

def numbers_written(out):
    """The numbers that the reader wrote: {signal: [(moment, number)]}."""
    found = {}
    for moment, name, number in re.findall(rb"^w (\S+) Reader (S\d+) (-?\d+)$", out, re.MULTILINE):
        found.setdefault(name.decode(), []).append((round(float(moment) * 1e6), int(number)))
    return found


def held(row, count):
    """The numbers of a signal of a page in each of so many frames."""
    numbers, at = [], dict(zip(row["frame"], row["value"]))
    for frame in range(count):
        numbers.append(int(at[frame]) if frame in at else numbers[-1])
    return numbers


def faults_of_signals(program):
    """Where numbers of signals in the page or in the wave file are not those that a source reads."""
    chance = random.Random(SEED)
    signals = list(random_signals(chance, 40))
    payloads = [bytes(8), bytes([255] * 8), *(chance.randbytes(8) for _ in range(20))]
    with tempfile.TemporaryDirectory() as keep:
        path = made(pathlib.Path(keep), signal_files(signals, payloads))
        told = numbers_written(said(program, "run", path))
        rows = {it["name"]: it for it in data_of(page(program, path))["signals"]}
        dump = dump_of(program, path)
    if len(told) != len(signals) or any(len(it) != len(payloads) for it in told.values()):
        yield f"{len(told)} signals are written of {len(signals)}"
    for name, several in told.items():
        numbers = [number for _, number in several]
        if held(rows[name], len(payloads)) != numbers:
            yield f"{name} is {numbers} in the source, and in the page {held(rows[name], len(payloads))}"
        waved = [waves.value_at(dump[f"signals.Mixed.{name}"], moment) for moment, _ in several]
        if waved != numbers:
            yield f"{name} is {numbers} in the source, and in the wave file {waved}"
        if waves.value_at(dump[f"signals.Mixed.{name}"], several[0][0] - 1) != "x":
            yield f"{name} has a number in the wave file before its first frame"


DATABASE = '''VERSION "1 BO_ 9 Nine: 8 X"
BU_: A B
BO_ 100 First: 8 A
 SG_ Switch M : 0|2@1+ (1,0) [0|3] "" B
 SG_ Zero m0 : 8|8@1- (0.5,-40) [-40|80] "C \\" d" B
 SG_ One m1 : 15 | 16 @ 0 + (1,0) [0|0] "" B,A
 SG_ Both m1M : 24|8@1+ (1,0) [0|0] "" B
 SG_ Real : 32|32@1- (1,0) [0|0] "" B
BO_ 2147483748 Second : 3 Vector__XXX SG_ Near : 7|8@0+ (1,0) [0|0] "%" B
 SG_ Far : 60|8@1+ (1,0) [0|0] "" B
CM_ SG_ 100 Zero "a comment
BO_ 1 Not: 8 A
 SG_ Neither : 0|8@1+ (1,0) [0|0] ";
SIG_VALTYPE_ 100 Real : 1;
VAL_ 100 Switch 0 "off" 1 "on" ;
'''


def faults_of_database():
    """Where the small reader takes of a database what does not stand in it, or does not say what it left out."""
    DATABASE_MESSAGES = {
        (100, False): ("First", "A", [("Switch", 0, 2, True, False, "", "M"), ("Zero", 8, 8, True, True, 'C \\" d', 0),
                                      ("One", 15, 16, False, False, "", 1)]),
        (100, True): ("Second", "Vector__XXX", [("Near", 7, 8, False, False, "%", None)]),
    }
    left_out = []
    messages = [database.usable(it, left_out) for it in database.small_reader(DATABASE)[0]]
    found = {(it.identifier, it.extended): (it.name, it.sender, [tuple(one) for one in it.signals]) for it in messages}
    if found != DATABASE_MESSAGES:
        yield f"read as {found}"
    told = " ".join(database.small_reader(DATABASE)[1] + left_out)
    for word in ("Both", "Real", "Far", "CM_ (1)", "VAL_ (1)"):
        if word not in told:
            yield f"{word} is left out, and only this is said: {told}"
    first = messages[0]
    for data, want in ((b"\x00\xfe\x00", {"Switch": 0, "Zero": -2}), (b"\x01\x12\x34", {"Switch": 1, "One": 0x1234}),
                       (b"\x02\x01", {"Switch": 2}), (b"", {})):
        if database.numbers_of(first, data) != want:
            yield f"{data.hex()} has {database.numbers_of(first, data)}, not {want}"


def faults_of_canmatrix():
    """Where canmatrix reads a database of the examples, or one made here, otherwise than the small reader."""
    with tempfile.TemporaryDirectory() as keep:
        made(pathlib.Path(keep), signal_files(list(random_signals(random.Random(SEED), 40)), []))
        # It takes no signal that is a multiplexor and multiplexed, no blanks in a layout, no two statements in a line.
        several = "".join(line for line in DATABASE.splitlines(True) if " Both " not in line)
        plain = several.replace("15 | 16 @ 0 +", "15|16@0+").replace("Vector__XXX SG_", "Vector__XXX\n SG_")
        made(pathlib.Path(keep), {"several.dbc": several, "plain.dbc": plain})
        for path in (*ROOT.glob("examples/*/*.dbc"), pathlib.Path(keep) / "d.dbc", pathlib.Path(keep) / "plain.dbc"):
            through, _ = database.through_canmatrix(path)
            small, _ = database.small_reader(database.text_of(path.read_bytes()))
            if through != [it._replace(sender=it.sender.replace("Vector__XXX", "")) for it in small]:
                yield f"{path.name}: {through} by canmatrix, and {small}"
        told = database.read(pathlib.Path(keep) / "several.dbc").left_out
    for name in ("One", "Near"):
        if f"{name}, which canmatrix does not read" not in told:
            yield f"{name} is left out, and only this is said: {told}"


# ---- loads

def faults_of_load():
    """Where the mean or the greatest load is not that of counting microseconds."""
    chance = random.Random(SEED)
    for trial in range(100):
        busy, starts, ends, at = [], [], [], 0
        for _ in range(12):
            gap, length = chance.choice([6, chance.randrange(300)]), chance.randrange(80, 260)
            starts.append(at + gap)
            ends.append(at + gap + length)
            busy += [0] * gap + [1] * length
            at += gap + length
        sums, window = [0, *itertools.accumulate(busy)], chance.randrange(100, 900)
        want = max(sums[end] - sums[end - window] for end in range(window, at + 1)) / window
        it = load.Load(starts, ends)
        part, moment = it.greatest(window, at)
        if part != want or (sums[moment] - sums[moment - window]) / window != want:
            yield f"trial {trial}: greatest {part} at {moment}, counted {want}"
        if it.mean(at) != sum(busy) / at:
            yield f"trial {trial}: mean {it.mean(at)}, counted {sum(busy) / at}"
    if load.Load([0], [100]).greatest(1000, 100) is not None:
        yield "a window that is longer than the run has a load"


# ---- wave files

def faults_of_waves(program, path):
    """Where the wave file has other frames, bytes or lines than the run."""
    dump, said_of = dump_of(program, path), scenario.read(path)
    entries = lines.entries_of(said(program, "run", path), said_of.epoch)
    frames = [it for it in entries if isinstance(it, lines.Frame)]
    busy = dump["bus.busy"]
    ons = [(moment, moment_off) for (moment, on), (moment_off, _) in zip(busy, busy[1:]) if on == 1]
    lengths = [bits.length_of(it.identifier, it.extended, it.remote, it.length, it.data) * said_of.bit for it in frames]
    if ons != [(it.end - length, it.end) for it, length in zip(frames, lengths)]:
        yield f"the bus is busy in {ons[:3]}.., not where frames are"
    names = ["identifier", "extended", "remote", "length", *(f"byte{i}" for i in range(8))]
    for it, (start, end) in zip(frames, ons):
        want = [it.identifier, it.extended, it.remote, it.length, *it.data, *["z"] * (8 - len(it.data))]
        for moment in (start, end - 1):
            have = [waves.value_at(dump[f"bus.{name}"], moment) for name in names]
            if have != want:
                yield f"at {moment} the bus has {have}, not {want}"
        if waves.value_at(dump["bus.identifier"], end) != "z":
            yield f"at {end} a frame is still on the bus"
    written = [it for it in entries if isinstance(it, lines.Line)]
    for node in said_of.nodes:
        want = [(0, ""), *((it.moment, it.text) for it in written if it.node == node)]
        if want != dump[f"lines.{node}"]:
            yield f"the lines of {node} are {dump[f'lines.{node}']}, not {want}"
        halted = [it.moment for it in written if it.node == node and it.halt]
        if [moment for moment, on in dump[f"halted.{node}"] if on == 1] != halted:
            yield f"{node} is halted at {dump[f'halted.{node}']}, not {halted}"


ODD = {
    "s.scn": "scenario 1\nnode One a.can\nnode Two b.can\nnode Three c.can\nuntil 20\nepoch 4294967295\nkey 5 k\n",
    "a.can": b'variables { message 0x7FF m = {dlc = 0}; message 0x1FFFFFFFx r = {dlc = 8, rtr = 1}; }\n'
             b'on start { write("</script><b>&amp; \\\\101 \\" $end"); write(""); write(" a  b ");\n'
             b'write("caf\xc3\xa9"); output(m); output(r); }\n',
    "b.can": b'variables { byte a[2]; }\non start { write("trap index"); write("\xe9 \\r\\n"); }\n'
             b'on key \'k\' { write("before"); write("%d", a[this]); }\non message * { write("%d", this.dlc); }\n',
    "c.can": 'on start { while (1) ; }\n',
}


def faults_of_odd(program):
    """Where texts that mean something in a page or a wave file, halts and odd frames are not shown as they are."""
    with tempfile.TemporaryDirectory() as keep:
        path = made(pathlib.Path(keep), ODD)
        yield from faults_of_page(program, path)
        yield from faults_of_waves(program, path)
        data = data_of(page(program, path))
    halts = [(data["nodes"][data["lines"]["node"][i]], data["lines"]["text"][i]) for i in data["lines"]["halts"]]
    if sorted(halts) != [("Three", "turn limit"), ("Two", "trap index")]:
        yield f"halts are {halts}"
    # The bytes of one are UTF-8, those of the other ISO 8859-1.
    if not {"café", "é \\r\\n"} <= set(data["lines"]["text"]):
        yield f"texts are {data['lines']['text']}"
    if data["keys"] != [[5000, "k"]]:
        yield f"keys are {data['keys']}"


def faults_of_senders(program):
    """Where a frame of the body bus has another sender than its database names."""
    names = {"110": "Gateway", "1B0": "Gateway", "300": "DoorLeft", "301": "DoorRight", "3A0": "Lights",
             "18FF20F5": "Watchdog"}
    data = data_of(page(program, BODY))
    found = {it["id"]: data["nodes"][it["sender"]] for it in data["kinds"] if it["sender"] >= 0}
    if found != names:
        yield f"senders are {found}"


# ---- refusals

def example_files(cell):
    """The files of an example of docs/rules.md; None where it is none of sources or databases alone."""
    files = {"s.scn": "scenario 1\nnode N n.can\n", "n.can": "on start { }\n"}
    if found := re.fullmatch(r"`([^`]*)`( with the database `([^`]*)`)?", cell):
        files["n.can"] = found[1]
        if found[3]:
            files["d.dbc"] = found[3]
    elif found := re.fullmatch(r"the database `([^`]*)`", cell):
        files["d.dbc"] = found[1]
    elif found := re.fullmatch(r"`([^`]*)` and (\d+) times `(.)`", cell):
        files["n.can"] = found[1] + int(found[2]) * found[3]
    else:
        return None
    if "d.dbc" in files:
        files["s.scn"] = "scenario 1\ndatabase d.dbc\nnode N n.can\n"
    return files


def faults_of_rules(program):
    """Where an example of docs/rules.md is not refused as it says, or a rule has no sentence or no example."""
    tried = set()
    for cell, line in (row for row in refusal.rows_of("rules.md") if row[-1].startswith("`refused ")):
        files = example_files(cell)
        if files is None:
            continue
        with tempfile.TemporaryDirectory() as keep:
            made(pathlib.Path(keep), files)
            done = subprocess.run([program, "check", "s.scn"], cwd=keep, stdout=subprocess.PIPE, timeout=SECONDS)
        if done.stdout.decode() != line.strip("`") + "\n":
            yield f"{cell} gives {done.stdout.decode().strip()}, not {line}"
        tried.add(line.strip("`").split()[-1])
    # E04 and F02 are about sizes of which no short example is, and E07 about a file that is not there.
    want = {f"E{i:02d}" for i in range(1, 30)} - {"E04", "E07"} | {"D01", "D02"}
    if tried != want:
        yield f"{sorted(tried ^ want)} has an example that is not asked for, or none"
    rules = [*(f"E{i:02d}" for i in range(1, 30)), *(f"S{i:02d}" for i in range(1, 13))]
    for rule in [*rules, "D01", "D02", "F01", "F02", "L01"]:
        if len(refusal.sentence_of(rule)) < 20:
            yield f"{rule} has no sentence"
    for rule, word in (("E05", "'phys' behind a '.'."), ("E06", "- a name behind 'on key': 'on key F1'.")):
        if not refusal.places_of(rule).endswith(f"{word}\n"):
            yield f"{rule} stands at {refusal.places_of(rule)!r}"


def faults_of_why(program):
    """Where why.py or the page of a refusal lacks the line, the mark or the example."""
    with tempfile.TemporaryDirectory() as keep:
        source = "on start {\n\tnoThing = 1 < 2;\n}\n"
        path = made(pathlib.Path(keep), {"s.scn": "scenario 1\nnode N n.can\n", "n.can": source})
        asked = {"why.py": written("why.py", program, path), "page.py": written("page.py", program, path),
                 "vcd.py": written("vcd.py", program, path)}
        line = f"refused {keep}/n.can:2:2 E09"
        accepted = written("why.py", program, BODY)
    marked = "2 | \tnoThing = 1 < 2;\n  | \t^"
    for script, (status, out, errors) in asked.items():
        if status != 1:
            yield f"{script} ended with status {status}"
        if script != "why.py" and errors != line + "\n":
            yield f"{script} says {errors!r}, not {line!r}"
        parts = () if script == "vcd.py" else (marked, "a name is no variable", "on start { output(m); }")
        as_written = html.escape if script == "page.py" else str
        yield from (f"{script} has no {part!r}: {out[-600:]}" for part in parts if as_written(part) not in out)
    if asked["vcd.py"][1]:
        yield "vcd.py writes a file of a refused scenario"
    if accepted != (0, f"{BODY}: accepted\n", ""):
        yield f"of an accepted scenario: {accepted}"


def faults_of_status(program):
    """Where a script does not end with the status of a run that fails, or with 2 where no signal has a name."""
    with tempfile.TemporaryDirectory() as keep:
        for script in ("page.py", "vcd.py", "why.py"):
            status, out, errors = written(script, program, keep)
            if (status, out) != (3, "") or not errors.endswith("ended with status 3\n"):
                yield f"{script} of a folder ends with {status}, and writes {out[:200]!r} and {errors!r}"
    status, out, errors = written("page.py", program, BODY, "--signals", "Clamp,Nothing")
    if (status, out) != (2, "") or "Nothing" not in errors:
        yield f"page.py with the signal Nothing ends with {status}, and writes {out[:200]!r} and {errors!r}"


def faults_of_shown_refusal(program):
    """Where docs/look.md shows a refusal otherwise than why.py does."""
    case = "tests/cases/E13-message-as-an-index/s.scn"
    _, out, _ = written("why.py", program, case)
    block = "".join(f"    {line}\n" if line else "\n" for line in out.removesuffix("\n").split("\n"))
    if f"    $ python3 view/why.py {case}\n{block}" not in (ROOT / "docs" / "look.md").read_text(encoding="utf-8"):
        yield f"why.py writes\n{out}"


def faults_of_marks():
    """Where a mark does not stand under the place that a refusal tells."""
    for line, column, want in ((b"on start", 4, "   ^"), (b"\ta\t= b", 4, "\t \t^"), ("é = ü".encode(), 4, "  ^"),
                               (b"  a = 1;  ", None, "  ~~~~~~"), (b"\xe9\xe9 x", 4, "   ^")):
        if refusal.mark_under(line, column) != want:
            yield f"under {line} stands {refusal.mark_under(line, column)!r}, not {want!r}"
    for out, want in ((b"refused n.can:3:7 E17\n", ("n.can", 3, 7, "E17")),
                      (b"refused d e.scn:3 S07\n", ("d e.scn", 3, None, "S07")),
                      (b"refused s.scn F01\n", ("s.scn", None, None, "F01"))):
        if refusal.read(out)[1:] != want:
            yield f"{out} is read as {refusal.read(out)}"


# ---- colours

# The least distance of two colours of bars.
APART = 12


def faults_of_colours():
    """Two colours of bars that some do not tell apart."""
    found = re.findall(r"--paint\d: (#[0-9a-f]{6});", (VIEW / "web" / "page.css").read_text())
    palettes = [found[i:i + 7] for i in range(0, len(found), 7)]
    if len(palettes) != 3 or palettes[1] != palettes[2]:
        yield f"{len(palettes)} lists of colours, or the two of dark pages differ"
    for palette in palettes[:2]:
        for sight, matrix in colours.SIGHTS.items():
            for one, other in itertools.combinations(palette, 2):
                apart = colours.distance(one, other, matrix)
                if apart < APART:
                    yield f"{one} and {other} are {apart:.1f} apart {sight}"


# ---- all of it

def trials_of(program):
    """The trials that need nothing but the program: their names, with what each finds."""
    for path in EXAMPLES:
        yield f"the page of {path}", faults_found(faults_of_page, program, path)
        yield f"frames of {path} do not meet", faults_found(faults_of_overlap, program, path)
        yield f"the wave file of {path}", faults_found(faults_of_waves, program, path)
    for rate in (10_000, 125_000, 500_000):
        yield f"bits at {rate} bits a second", faults_found(faults_of_bits, program, rate)
    yield "numbers of signals", faults_found(faults_of_signals, program)
    yield "odd texts, frames and halts", faults_found(faults_of_odd, program)
    yield "senders", faults_found(faults_of_senders, program)
    yield "the small reader of databases", faults_found(faults_of_database)
    yield "loads", faults_found(faults_of_load)
    yield "examples and sentences of rules", faults_found(faults_of_rules, program)
    yield "what is said of a refusal", faults_found(faults_of_why, program)
    yield "statuses", faults_found(faults_of_status, program)
    yield "the refusal that docs/look.md shows", faults_found(faults_of_shown_refusal, program)
    yield "marks under a place", faults_found(faults_of_marks)
    yield "colours", faults_found(faults_of_colours)
    if database.HAS_CANMATRIX:
        yield "canmatrix and the small reader", faults_found(faults_of_canmatrix)
    else:
        print("no canmatrix here: the two readers of a database are not compared")


def main():
    words = argparse.ArgumentParser(description="Tests what view/ shows of runs.")
    words.add_argument("program")
    words.add_argument("--pictures", action="store_true", help="take those of docs/pictures/ anew")
    told = words.parse_args()
    program = str(pathlib.Path(told.program).resolve())
    os.chdir(ROOT)
    trials = [*trials_of(program), *opened.browsed(program, told.pictures), *opened.waved(program, told.pictures)]
    for name, faults in trials:
        if faults:
            print("\n    ".join([f"FAIL {name}", *faults[:20]]))
    failed = sum(1 for _, faults in trials if faults)
    print(f"{len(trials) - failed} passed, {failed} failed")
    return 0 if failed == 0 and trials else 1


if __name__ == "__main__":
    sys.exit(main())
