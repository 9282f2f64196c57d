#!/usr/bin/env python3
"""Replays logs that chance makes, and compares with a second reckoning from the documents.

    replays.py PROGRAM [--cases N] [--seed N]

Each case is a log of up to 24 lines, most of them entries in a form that docs/formats.md has, some of other interfaces,
some passed over, some refused, often with a last line without a line feed; a bit rate, an epoch and an end moment. It is
replayed to a node without procedures, and `run` has to write what is reckoned here: by patterns for lines, by the bits
that view/bits.py counts, and by a bus with a list of frames that wait.

Then the same cases are reckoned by rules that are wrong in one place each: each of them has to differ in some case, so
that a program which does so would be found. The last line is 'N passed, M failed'.
"""
import argparse
import functools
import pathlib
import random
import re
import subprocess
import sys
import tempfile

ROOT = pathlib.Path(__file__).resolve().parent.parent
sys.path.insert(0, str(ROOT / "view"))

import bits  # noqa: E402

SECONDS = 60
MICROS = 10**6
LAST_EPOCH = 2**32 - 1
RATES = (10000, 12500, 15625, 20000, 25000, 31250, 40000, 50000, 62500, 100000, 125000, 200000, 250000, 500000, 1000000)

# ---- lines

HEAD = rb"[ \t]*\((\d{1,15})\.(\d{6})\)[ \t]+([!-~]{1,15})[ \t]+"
IDENTIFIER = rb"([0-7][0-9A-Fa-f]{2}|[01][0-9A-Fa-f]{7})"
PAYLOAD = rb"(R[0-8]?|(?:[0-9A-Fa-f]{2}(?:\.?[0-9A-Fa-f]{2}){0,7})?)"
END = rb"[ \t]*\r?"
DIRECTION = rb"(?:[ \t]+[RT])?"
ENTRY = re.compile(HEAD + IDENTIFIER + b"#" + PAYLOAD + DIRECTION + END)
OTHERS = (re.compile(HEAD + rb"(?:[0-9A-Fa-f]{3}|[0-9A-Fa-f]{8})##.*", re.DOTALL),
          re.compile(HEAD + rb"[2-9A-Fa-f][0-9A-Fa-f]{7}#.*", re.DOTALL),
          re.compile(HEAD + IDENTIFIER + b"#" + PAYLOAD + b"_[0-9A-Fa-f]" + DIRECTION + END))
EMPTY, OTHER, NONE = "empty", "other", "none"


def reading(line):
    """What a line is: EMPTY, OTHER, NONE, or its stamp, interface and frame."""
    if re.fullmatch(END, line):
        return EMPTY
    found = ENTRY.fullmatch(line)
    if not found:
        return OTHER if any(it.fullmatch(line) for it in OTHERS) else NONE
    seconds, micros, interface, identifier, payload = found.groups()
    remote = payload.startswith(b"R")
    data = b"" if remote else bytes.fromhex(payload.replace(b".", b"").decode())
    length = int(payload[1:] or b"0") if remote else len(data)
    return int(seconds) * MICROS + int(micros), interface, (int(identifier, 16), len(identifier) == 8, remote, length, data)


def written(epoch, end, frame):
    """The line of a frame that ended."""
    identifier, extended, remote, length, data = frame
    stamp = end + epoch * MICROS
    payload = f"R{length or ''}" if remote else data.hex().upper()
    return f"({stamp // MICROS:010d}.{stamp % MICROS:06d}) can0 {identifier:0{8 if extended else 3}X}#{payload}\n"


# ---- rules, each of which a wrong one may take the place of


def end_is_passed_over(line, is_last):
    """Whether a line without a reading is passed over: only where no line feed ends it."""
    return is_last


def asks_at(before, stamp, epoch, length):
    """When an entry asks, behind the one before."""
    return max(before, stamp - epoch - length)


def first_epoch(stamp):
    """The epoch `first` by the stamp of the first entry."""
    return min(max(stamp // MICROS - 1, 0), LAST_EPOCH)


RULES = {"reading": reading, "end": end_is_passed_over, "asks": asks_at, "first": first_epoch, "mine": b"can0".__eq__,
         "order": list, "counts": lambda kind: kind in (OTHER, NONE), "gap": bits.INTERMISSION}


def read_unless(pattern):
    """A reading in which a line with a pattern is none."""
    return lambda line: NONE if re.search(pattern, line) else reading(line)


def as_read(pattern, other):
    """A reading of lines in which a pattern is replaced."""
    return lambda line: reading(re.sub(pattern, other, line))


WRONG = {
    "asks at the stamp": {"asks": lambda before, stamp, epoch, length: max(before, stamp - epoch)},
    "takes the epoch away twice": {"asks": lambda before, stamp, epoch, length: max(before, stamp - 2 * epoch - length)},
    "lets an entry ask before the one before": {"asks": lambda before, stamp, epoch, length: max(0, stamp - epoch - length)},
    "wraps a stamp below the epoch": {"asks": lambda before, stamp, epoch, length: max(before, (stamp - epoch) % 2**64 - length)},
    "asks in the order of stamps": {"order": functools.partial(sorted, key=lambda entry: entry[0])},
    "lets other interfaces ask": {"mine": lambda interface: True},
    "counts no frames of other kinds": {"counts": NONE.__eq__},
    "refuses an unread end": {"end": lambda line, is_last: False},
    "passes over what has no reading": {"end": lambda line, is_last: True},
    "refuses lower-case digits": {"reading": read_unless(rb"[#.0-9A-F][a-f]|[a-f][0-9A-F#.]")},
    "takes #R9": {"reading": as_read(rb"#R9", b"#R8")},
    "refuses frames of CAN FD": {"reading": read_unless(b"##")},
    "refuses directions": {"reading": read_unless(rb"[ \t][RT][ \t]*\r?$")},
    "refuses a carriage return": {"reading": read_unless(rb"\r$")},
    "begins a replay at its first second": {"first": lambda stamp: min(stamp // MICROS, LAST_EPOCH)},
    "has no greatest epoch": {"first": lambda stamp: max(stamp // MICROS - 1, 0)},
    "has no intermission": {"gap": 0},
}


# ---- the log and the bus


def requests(log, bit, epoch, rules):
    """The number of the line that is refused, or None; the epoch; how many are passed over; the requests."""
    rows = log.split(b"\n")
    skipped, entries = 0, []
    for number, row in enumerate(rows, 1):
        it, is_last = rules["reading"](row), number == len(rows)
        if it == NONE and not rules["end"](row, is_last):
            return number, 0, 0, []
        if isinstance(it, tuple) and rules["mine"](it[1]):
            entries.append(it)
        elif isinstance(it, tuple) or rules["counts"](it):
            skipped += 1
    if epoch == "first":
        epoch = rules["first"](entries[0][0]) if entries else 0
    before, found = 0, []
    for stamp, _, frame in rules["order"](entries):
        before = rules["asks"](before, stamp, epoch * MICROS, bits.length_of(*frame) * bit)
        found.append((before, frame))
    return None, epoch, skipped, found


def arbitration(frame):
    """The bits by which frames that wait are compared."""
    identifier, extended, remote, _, _ = frame
    if extended:
        return f"{identifier >> 18:011b}11{identifier & 0x3FFFF:018b}{int(remote)}"
    return f"{identifier:011b}{int(remote)}0"


def logged(asked, bit, until, gap):
    """The ends and frames that the bus has of requests: by moment, and those of one moment in their order."""
    waiting, found, free, now = [], [], 0, 0
    asked = sorted(asked, key=lambda it: it[0])
    while waiting or asked:
        if not waiting:
            now = max(now, asked[0][0])
        while asked and asked[0][0] <= max(now, free):
            waiting.append(asked.pop(0)[1])
        now = max(now, free)
        first = min(range(len(waiting)), key=lambda i: (arbitration(waiting[i]), i))
        frame = waiting.pop(first)
        now += bits.length_of(*frame) * bit
        if now > until:
            break
        found.append((now, frame))
        free = now + gap * bit
    return found


def answer(case, rules):
    """What `run` writes of a case."""
    log, rate, epoch, until = case
    bit = MICROS // rate
    line, epoch, skipped, asked = requests(log, bit, epoch, rules)
    if line:
        return f"refused r.log:{line} L01\n"
    frames = logged(asked, bit, until * 1000, rules["gap"])
    return (f"w 0.000000 replay skipped {skipped}\n" if skipped else "") + "".join(written(epoch, *it) for it in frames)


# ---- cases


def frame_text(chance):
    """The text of a frame, mostly of one that a log may have."""
    extended, length = chance.random() < 0.4, chance.randrange(9)
    identifier = chance.choice([0, 0x48C0000, 0x1FFFFFFF, chance.randrange(1 << 29)] if extended else
                               [0, 1, 0x123, 0x7FF, chance.randrange(1 << 11)])
    name = f"{identifier:0{8 if extended else 3}{chance.choice('xXX')}}"
    data = chance.randbytes(length) if chance.random() < 0.6 else bytes([chance.choice([0, 255])] * length)
    payload = data.hex().upper() if chance.random() < 0.8 else ".".join(f"{byte:02x}" for byte in data)
    if chance.random() < 0.15:
        payload = "R" + chance.choice(["", "0", "1", "5", "8"])
    kind = chance.random()
    if kind < 0.03:
        return f"{name}##1{payload}"
    if kind < 0.05:
        return f"{chance.choice([0x20000000, 0xFFFFFFFF]):08X}#{payload}"
    if kind < 0.07:
        return f"{name}#{payload}_{chance.choice('9aF')}"
    if kind < 0.075:
        return chance.choice([f"{name}#0", f"{name}#R9", f"{name}#r", "800#", "2#00", f"{name}#_", f"{name}#{'00' * 9}", name])
    return f"{name}#{payload}"


def line_text(chance, base, spread):
    """A line of a log, with a stamp behind a moment."""
    if chance.random() < 0.04:
        return chance.choice(["", " ", "\r", "\t\r"])
    stamp = base + chance.randrange(spread)
    return "".join([chance.choice(["", "", "", " ", "\t "]), f"({stamp // MICROS}.{stamp % MICROS:06d})",
                    chance.choice([" ", " ", "  ", "\t"]), chance.choice(["can0"] * 8 + ["can1", "can00", "c"]), " ",
                    frame_text(chance), chance.choice(["", "", " R", " T"]), chance.choice(["", "", "", " ", "\r"])])


def case_of(seed, number):
    """A case: its log, bit rate, epoch and end moment."""
    chance = random.Random(f"{seed} {number}")
    base = chance.choice([0, 0, chance.randrange(5) * MICROS, 1_436_509_053_850_870, (LAST_EPOCH + 2) * MICROS])
    rows = [line_text(chance, base, chance.choice([1, 1000, 20_000, MICROS, 3 * MICROS])) for _ in range(chance.randrange(25))]
    if chance.random() < 0.5:
        rows.sort(key=str.strip)
    log = "\n".join(rows) + ("" if chance.random() < 0.3 else "\n")
    if chance.random() < 0.2:
        log = log[:chance.randrange(len(log) + 1)]
    second = base // MICROS
    epoch = chance.choice(["first", "first", 0, *(min(max(it, 0), LAST_EPOCH) for it in (second - 1, second, second + 1))])
    return log.encode(), chance.choice(RATES), epoch, chance.choice([0, 1, 50, 1000, 2500, 10_000])


def said(program, folder, case):
    """What the program writes of a case."""
    log, rate, epoch, until = case
    (folder / "n.can").write_text("")
    (folder / "r.log").write_bytes(log)
    (folder / "s.scn").write_text(f"scenario 1\nnode N n.can\nbitrate {rate}\nuntil {until}\nepoch {epoch}\nreplay r.log\n")
    done = subprocess.run([program, "run", "s.scn"], cwd=folder, stdin=subprocess.DEVNULL, stdout=subprocess.PIPE,
                          timeout=SECONDS)
    return done.returncode, done.stdout.decode()


def faults_of_cases(program, cases):
    """Where the program writes of a case something else than is reckoned, or ends with another status."""
    with tempfile.TemporaryDirectory() as keep:
        for number, case in cases.items():
            want = answer(case, RULES)
            found = said(program, pathlib.Path(keep), case)
            if found != (int(want.startswith("refused")), want):
                yield f"case {number}, {case}: {found}, not {want!r}"


def main():
    parser = argparse.ArgumentParser(description=__doc__, formatter_class=argparse.RawDescriptionHelpFormatter)
    parser.add_argument("program", type=lambda it: str(pathlib.Path(it).resolve()))
    parser.add_argument("--cases", type=int, default=1000)
    parser.add_argument("--seed", type=int, default=26)
    words = parser.parse_args()
    cases = {number: case_of(words.seed, number) for number in range(words.cases)}
    faults = list(faults_of_cases(words.program, cases))
    print(*(f"FAIL {it}" for it in faults[:5]), sep="\n", end="\n" if faults else "")
    right = {number: answer(case, RULES) for number, case in cases.items()}
    missed = [name for name, wrong in WRONG.items()
              if all(answer(case, {**RULES, **wrong}) == right[number] for number, case in cases.items())]
    print(*(f"FAIL no case tells a program that {it}" for it in missed), sep="\n", end="\n" if missed else "")
    failed = len(faults) + len(missed)
    print(f"{len(cases) + len(WRONG) - failed} passed, {failed} failed")
    return 0 if failed == 0 else 1


if __name__ == "__main__":
    sys.exit(main())
