#!/usr/bin/env python3
"""Asks tools of the field whether they read what the program writes, and a database as it does.

    tools.py PROGRAM

Two logs are read: that of examples/body-bus, and one of frames of each form, standard and extended, data and remote,
of all lengths. Each frame has to be in a tool's reading of the log as it stands in the program's own line: at the
same moment, with the same identifier, of the same kind, with the same bytes. Asked are, where they are installed,

- `log2asc` of can-utils, which writes the log as an ASC file; moments are counted there from the first frame;
- python-can's reader of such logs, in this Python or in the system's;
- `tshark` of Wireshark.

Each is asked about changed logs too, one for each of these four, and has to read them as other frames. What python-can
writes of the first log, and what `asc2log` makes of its ASC file, is replayed to a node without procedures: the same
log comes out again, by `asc2log` but for the moment of its first frame, which it takes from the clock.

Of the databases of examples canmatrix has to read identifiers, lengths and signals so that a source that writes
these, for random bytes, writes canmatrix's numbers.

Where a tool is not there, a line says so, and nothing is counted. The last line is 'N passed, M failed'.
"""
import functools
import json
import os
import pathlib
import random
import re
import shutil
import subprocess
import sys
import tempfile

from shown import BODY, ROOT, SECONDS, SEED, code_of, faults_found, made, said

import database
import lines

# Behind 1970, since log2asc takes a first frame in second 0 for no first frame.
EPOCH = 1_436_509_053
MICROS = 10**6

# ---- logs


def body_log(program, folder):
    """The log of the body bus, with an epoch; its interface is can1."""
    shutil.copytree((ROOT / BODY).parent, folder / "body")
    path = folder / "body" / pathlib.Path(BODY).name
    path.write_text(path.read_text(encoding="utf-8") + f"epoch {EPOCH}\n", encoding="utf-8")
    return said(program, "log", str(path))


def every_form():
    """Statements that request frames of each form."""
    for identifier in ("0", "0x7FF", "0x0x", "0x1FFFFFFFx"):
        for length in range(9):
            for remote in (0, 1):
                yield f"m.id = {identifier}; m.dlc = {length}; m.rtr = {remote}; output(m);"


def forms_log(program, folder):
    """A log of frames of each form."""
    statements = "\n".join(every_form())
    path = made(folder, {"s.scn": f"scenario 1\nnode N n.can\nepoch {EPOCH}\ninterface can1\n",
                         "n.can": "variables { message * m; }\non start {\nm.qword(0) = 0xFEDCBA9876543210;\n"
                                  f"{statements}\n}}\n"})
    return said(program, "log", path)


def frames_of(log):
    """The frames of a log as its lines have them, with stamps in microseconds."""
    return lines.entries_of(log, 0)


def changed_logs(log):
    """The log with one frame changed in its moment, its identifier, its kind, and its bytes."""
    rows = log.splitlines(True)
    at = next(i for i in range(len(rows) // 2, len(rows)) if re.search(rb" [0-7][0-9A-F]{2}#[0-9A-F]{2}", rows[i]))
    row = rows[at]
    place = row.index(b"#")
    others = (row[:17] + (b"1" if row[17:18] == b"0" else b"0") + row[18:],
              row[:place - 1] + (b"1" if row[place - 1:place] == b"0" else b"0") + row[place:],
              row[:place - 3] + b"00000" + row[place - 3:],
              row[:place + 1] + (b"1" if row[place + 1:place + 2] == b"0" else b"0") + row[place + 2:])
    for other in others:
        yield b"".join([*rows[:at], other, *rows[at + 1:]])


# ---- tools


def output_of(*words):
    """What a tool writes on standard output."""
    done = subprocess.run(words, stdin=subprocess.DEVNULL, capture_output=True, text=True, timeout=SECONDS)
    if done.returncode:
        raise RuntimeError(f"{words[0]} ended with status {done.returncode}: {done.stderr[-300:]}")
    return done.stdout


@functools.cache
def python_with(module):
    """A Python that has a module: this one, or the system's; None where neither has."""
    for python in (sys.executable, "/usr/bin/python3"):
        if os.access(python, os.X_OK) and not subprocess.run([python, "-c", f"import {module}"],
                                                             capture_output=True).returncode:
            return python
    return None


ASC_FRAME = re.compile(r" *(\d+)\.(\d{6}) 1  ([0-9A-F]+)(x?) +Rx   ([dr]) (\d)((?: [0-9A-F]{2})*)")


def through_log2asc(path):
    """The frames of a log as log2asc writes them, with moments from the first frame on."""
    head, *rows = output_of("log2asc", "-I", str(path), "can1").split("no internal events logged\n")
    if not head.startswith("date ") or len(rows) != 1:
        raise ValueError(f"no one head of an ASC file: {head[:200]!r}")
    for row in rows[0].splitlines():
        found = ASC_FRAME.fullmatch(row)
        if not found:
            raise ValueError(f"no frame of an ASC file: {row!r}")
        seconds, micros, identifier, extended, kind, length, data = found.groups()
        yield lines.Frame(int(seconds) * MICROS + int(micros), int(identifier, 16), extended == "x", kind == "r",
                          int(length), bytes.fromhex(data))


READ = """
import can, json, sys
with can.LogReader(sys.argv[1]) as log:
    print(json.dumps([[round(it.timestamp * 10**6), it.arbitration_id, it.is_extended_id, it.is_remote_frame, it.dlc,
                       bytes(it.data or b"").hex(), it.is_fd or it.is_error_frame] for it in log]))
"""


def through_python_can(path):
    """The frames of a log as python-can reads them."""
    for *fields, data, other in json.loads(output_of(python_with("can"), "-c", READ, str(path))):
        if other:
            raise ValueError("a frame of CAN FD, or an error frame")
        yield lines.Frame(*fields, bytes.fromhex(data))


FIELDS = ("frame.time_epoch", "can.id", "can.flags.xtd", "can.flags.rtr", "can.flags.err", "can.len", "data.data")


def through_tshark(path):
    """The frames of a log as tshark reads them; a remote frame has as many bytes 0 there as its length code says."""
    words = [word for field in FIELDS for word in ("-e", field)]
    # These would take the bytes of some identifiers, and show none of them as data.
    without = [word for protocol in ("canopen", "autosar-nm") for word in ("--disable-protocol", protocol)]
    rows = output_of("tshark", *without, "-r", str(path), "-T", "fields", *words)
    for row in rows.splitlines():
        stamp, identifier, extended, remote, error, length, data = row.split("\t")
        seconds, nanos = stamp.split(".")
        if int(nanos) % 1000 or error not in ("0", "False"):
            raise ValueError(f"no frame of the log: {row!r}")
        is_remote, payload = remote in ("1", "True"), bytes.fromhex(data)
        if is_remote and payload == bytes(int(length)):
            payload = b""
        yield lines.Frame(int(seconds) * MICROS + int(nanos) // 1000, int(identifier, 0), extended in ("1", "True"),
                          is_remote, int(length), payload)


def from_first(frames):
    """The same frames, with moments from the first one on."""
    return [it._replace(end=it.end - frames[0].end) for it in frames]


# ---- trials


def faults_of_reading(through, as_they_are, log):
    """Where a tool reads a log otherwise than its lines have it."""
    with tempfile.TemporaryDirectory() as keep:
        path = pathlib.Path(keep) / "run.log"
        path.write_bytes(log)
        found = list(through(path))
    want = as_they_are(frames_of(log))
    if not want or len(found) != len(want):
        yield f"{len(found)} frames are read of {len(want)}"
    yield from (f"{read} is read, not {asked}" for read, asked in zip(found, want) if read != asked)


def faults_of_changes(through, as_they_are, log):
    """Where a tool reads a changed log as if it were the log that it was."""
    want = as_they_are(frames_of(log))
    with tempfile.TemporaryDirectory() as keep:
        path = pathlib.Path(keep) / "run.log"
        for number, changed in enumerate(changed_logs(log)):
            path.write_bytes(changed)
            if list(through(path)) == want:
                yield f"the log with change {number} is read as that without"


def replayed(program, log, more):
    """What a run with a node without procedures logs that replays a log on the bus of the body bus."""
    with tempfile.TemporaryDirectory() as keep:
        text = f"scenario 1\nnode Silent n.can\nbitrate 125000\ninterface can1\nreplay r.log\n{more}"
        return said(program, "log", made(pathlib.Path(keep), {"s.scn": text, "n.can": "", "r.log": log}))


WRITE = """
import can, sys
with can.LogReader(sys.argv[1]) as log, can.Logger(sys.argv[2]) as copy:
    for it in log:
        copy(it)
"""


def faults_of_python_can_back(program, log):
    """Where the log that python-can writes of a log is replayed as another one."""
    with tempfile.TemporaryDirectory() as keep:
        path, copy = pathlib.Path(keep) / "run.log", pathlib.Path(keep) / "copy.log"
        path.write_bytes(log)
        output_of(python_with("can"), "-c", WRITE, str(path), str(copy))
        written = copy.read_bytes()
    if written == log:
        yield "python-can writes no directions, so nothing is tried"
    if replayed(program, written, f"epoch {EPOCH}\n") != log:
        yield f"replayed as {replayed(program, written, f'epoch {EPOCH}')[:200]!r}"


def faults_of_asc2log_back(program, log):
    """Where the log that asc2log makes of log2asc's file has other frames when it is replayed, or other gaps."""
    with tempfile.TemporaryDirectory() as keep:
        path, asc = pathlib.Path(keep) / "run.log", pathlib.Path(keep) / "run.asc"
        path.write_bytes(log)
        output_of("log2asc", "-I", str(path), "-O", str(asc), "can1")
        written = output_of("asc2log", "-I", str(asc)).replace(" can0 ", " can1 ").encode()
    again = replayed(program, written, "epoch first\n")
    if not again or from_first(frames_of(again)) != from_first(frames_of(log)):
        yield f"replayed as {again[:200]!r}"


# ---- databases

DECODE = """
import canmatrix.formats, json, sys
frames = []
for it in canmatrix.formats.loadp_flat(sys.argv[1]).frames:
    payloads = [bytes.fromhex(text)[:it.size] for text in sys.argv[2:]]
    numbers = [{name: value.raw_value for name, value in it.decode(data).items()} for data in payloads]
    signals = [[s.name, s.start_bit, s.size, s.is_little_endian, s.is_signed, "", None] for s in it.signals]
    frames.append([it.name, it.arbitration_id.id, it.arbitration_id.extended, it.size, signals, numbers])
print("\\n" + json.dumps(frames))
"""


def source_of(frames, payloads):
    """A source that writes of each message its identifier and length, and the numbers of its signals for payloads."""
    declared = "".join(f"  message {name} m{name};\n" for name, *_ in frames)
    texts = []
    for name, _, _, _, signals, _ in frames:
        texts.append(f'write("{name} %u %d", m{name}.id, m{name}.dlc);')
        for payload in payloads:
            texts += [f"m{name}.byte({i}) = {byte};" for i, byte in enumerate(payload)]
            texts += [f'write("{it[0]} {code_of(database.Signal(*it))}", m{name}.{it[0]});' for it in signals]
    return f"variables {{\n{declared}}}\non start {{\n" + "\n".join(texts) + "\n}\n"


def faults_of_database(program, path):
    """Where canmatrix reads a database otherwise than a source that uses it."""
    chance = random.Random(SEED)
    payloads = [bytes(8), bytes([255] * 8), *(chance.randbytes(8) for _ in range(10))]
    frames = json.loads(output_of(python_with("canmatrix"), "-c", DECODE, str(path),
                                  *(it.hex() for it in payloads)).splitlines()[-1])
    want = []
    for name, identifier, extended, size, signals, numbers in frames:
        want.append(f"{name} {identifier | database.EXTENDED if extended else identifier} {size}")
        want += [f"{it[0]} {several[it[0]]}" for several in numbers for it in signals]
    with tempfile.TemporaryDirectory() as keep:
        scenario = made(pathlib.Path(keep), {"s.scn": "scenario 1\ndatabase d.dbc\nnode N n.can\n",
                                             "d.dbc": path.read_bytes(), "n.can": source_of(frames, payloads)})
        out = said(program, "window", scenario).decode()
    found = [line.split(" ", 3)[3] for line in out.splitlines() if line.startswith("w ")]
    if not want or len(found) != len(want):
        yield f"{len(found)} lines are written, not {len(want)}: {out[:200]!r}"
    yield from (f"the source has {one}, and canmatrix {other}" for one, other in zip(found, want) if one != other)


# ---- all of it


def readers():
    """The tools that are here and read logs: their names, how they read one, and how moments are counted there."""
    for name, here, through, counted in (
            ("log2asc of can-utils", shutil.which("log2asc"), through_log2asc, from_first),
            ("python-can", python_with("can"), through_python_can, list),
            ("tshark", shutil.which("tshark"), through_tshark, list)):
        if here:
            yield name, through, counted
        else:
            print(f"no {name} here: it is not asked to read logs")


def trials_of(program):
    """The trials: their names, with what each finds."""
    with tempfile.TemporaryDirectory() as keep:
        logs = {"the body bus": body_log(program, pathlib.Path(keep)), "each form": forms_log(program, pathlib.Path(keep))}
    body = logs["the body bus"]
    for name, through, counted in readers():
        for which, log in logs.items():
            yield f"{name} reads the log of {which}", faults_found(faults_of_reading, through, counted, log)
        yield f"{name} reads changed logs", faults_found(faults_of_changes, through, counted, body)
    if python_with("can"):
        yield "a log of python-can is replayed", faults_found(faults_of_python_can_back, program, body)
    if shutil.which("log2asc") and shutil.which("asc2log"):
        yield "a log of asc2log is replayed", faults_found(faults_of_asc2log_back, program, body)
    if not python_with("canmatrix"):
        print("no canmatrix here: it is not asked to read databases")
        return
    for path in sorted(ROOT.glob("examples/*/*.dbc")):
        yield f"canmatrix reads {path.relative_to(ROOT)}", faults_found(faults_of_database, program, path)


def main():
    if len(sys.argv) != 2:
        sys.exit("usage: tools.py PROGRAM")
    program = str(pathlib.Path(sys.argv[1]).resolve())
    trials = list(trials_of(program))
    for name, faults in trials:
        if faults:
            print("\n    ".join([f"FAIL {name}", *faults[:20]]))
    failed = sum(1 for _, faults in trials if faults)
    print(f"{len(trials) - failed} passed, {failed} failed")
    return 0 if failed == 0 else 1


if __name__ == "__main__":
    sys.exit(main())
