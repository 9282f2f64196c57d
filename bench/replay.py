#!/usr/bin/env python3
"""Times replays of long logs, beside a plain walker in Rust, and generated scenarios.

    replay.py PROGRAM [--mib N ..] [--rounds N] [--core N] [--to FOLDER]
    replay.py PROGRAM --gen [N ..] [--rounds N] [--core N]
    replay.py --write FOLDER [--mib N]

A log of so many MiB, 1, 2, 4 and so on up to 32 and 60 if not given, is replayed to a node without procedures. It
has frames of eight data bytes at 500,000 bits a second, standard and extended ones, each three bits behind the one
before or a little later, and so the longest log that a run of its length can have. 4,096 payloads come in turn.

The program runs `log` and `check`, and walker.rs, built by rustc -O, does the same by hand: it reads the file,
counts each frame's bits one by one, and writes each line by a call of its own. Both run in turn so many rounds, 5 if
not given, pinned to one core. A row tells the frames, and of `log` and of `check` the least of the program's
processor seconds, and the median, the least and the greatest of their ratios to the walker's in the same round; then
the least milliseconds of `log` for a MiB, and the most memory that one more run of `log` was seen to have, in MB and
in times the file. What is written goes to /dev/null, or, with --to, to a file in a folder. Before that it looks
whether both write the log that they read, and stops where they do not.

With --gen `gen N` is timed, for 1, 2, 4 and so on up to 64 nodes or the numbers given: the least, the median and the
greatest of its seconds. With --write a scenario and its log are kept in a folder, and nothing is run.
"""
import argparse
import os
import pathlib
import random
import statistics
import subprocess
import sys
import tempfile
import time

from run import processor

HERE = pathlib.Path(__file__).resolve().parent
sys.path.insert(0, str(HERE.parent / "view"))

import bits  # noqa: E402

MIB = 1 << 20
SIZES = [1, 2, 4, 8, 16, 32, 60]
COUNTS = [1, 2, 4, 8, 16, 32, 64]
BIT = 2
PAYLOADS = 4096
SEED = 60


def stop(why):
    """Ends the script with a line that says why."""
    sys.exit(f"replay.py: {why}")


# ---- the log


def frames():
    """Frames without end: of each the text behind the interface, and its microseconds on the bus."""
    chance = random.Random(SEED)
    several = []
    for _ in range(PAYLOADS):
        extended, data = chance.random() < 0.5, chance.randbytes(8)
        identifier = chance.randrange(1 << (29 if extended else 11))
        length = bits.length_of(identifier, extended, False, 8, data)
        several.append((f"{identifier:0{8 if extended else 3}X}#{data.hex().upper()}", BIT * length))
    while True:
        yield from several


def log_of(size):
    """The text of a log of at most so many bytes, how many frames it has, and the moment of the last one's end."""
    chance = random.Random(SEED)
    rows, bytes_, now = [], 0, 0
    for text, length in frames():
        end = now + length + chance.choice([0, 0, 0, chance.randrange(100)])
        row = f"({end // 10**6:010d}.{end % 10**6:06d}) can0 {text}\n"
        if bytes_ + len(row) > size:
            return "".join(rows), len(rows), now
        rows.append(row)
        bytes_ += len(row)
        now = end + bits.INTERMISSION * BIT


def write(folder, mib):
    """Writes a scenario that replays a log of so many MiB, and gives its name and the number of frames."""
    folder.mkdir(parents=True, exist_ok=True)
    text, count, last = log_of(mib * MIB)
    (folder / "r.log").write_text(text, encoding="ascii")
    (folder / "silent.can").write_text("/* A node without procedures. */\n", encoding="ascii")
    name = folder / f"replay{mib}.scn"
    name.write_text(f"scenario 1\nnode Silent silent.can\nuntil {last // 1000 + 1}\nreplay r.log\n", encoding="ascii")
    return name, count


# ---- the figures


def started(words, core, to):
    """A process of a command, pinned to a core."""
    pin = lambda: os.sched_setaffinity(0, {core})
    with open(to, "wb") as out:
        return subprocess.Popen(words, stdin=subprocess.DEVNULL, stdout=out, preexec_fn=pin)


def timed(words, core, to):
    """The processor seconds that a command takes."""
    run = started(words, core, to)
    _, status, usage = os.wait4(run.pid, 0)
    run.returncode = os.waitstatus_to_exitcode(status)
    if run.returncode:
        stop(f"{' '.join(map(str, words))} ended with status {run.returncode}")
    return usage.ru_utime + usage.ru_stime


def memory(words, core, to):
    """The most bytes of memory that a command is seen to have; what wait4 tells has those of this script in it."""
    run, most = started(words, core, to), 0
    while run.poll() is None:
        try:
            if os.readlink(f"/proc/{run.pid}/exe") == str(words[0]):
                status = pathlib.Path(f"/proc/{run.pid}/status").read_text()
                most = max([most, *(1024 * int(row.split()[1]) for row in status.splitlines() if "VmHWM" in row)])
        except OSError:
            pass  # it has just ended
        time.sleep(0.001)
    return most


def spread(numbers, places):
    """The median, the least and the greatest."""
    return " ".join([f"{statistics.median(numbers):.{places}f}",
                     f"({min(numbers):.{places}f} to {max(numbers):.{places}f})"])


def walks(walker, command, folder):
    """The words of the walker for a command on the log of a folder."""
    return [walker, command, folder / "r.log", "can0", str(BIT)]


def compare(words, walker, folder, name):
    """Stops where the program or the walker writes another log than it reads."""
    log = (folder / "r.log").read_bytes()
    for each in ([words.program, "log", name], walks(walker, "log", folder)):
        if subprocess.run(each, stdin=subprocess.DEVNULL, stdout=subprocess.PIPE).stdout != log:
            stop(f"{each[0]} writes another log than it reads")


def report(words, walker, folder, mib):
    """Prints the row of a log."""
    name, count = write(folder, mib)
    size = (folder / "r.log").stat().st_size
    compare(words, walker, folder, name)
    to = words.to / "out.log" if words.to else os.devnull
    cells = [f"{mib:4} {count:10,}"]
    least = {}
    for command in ("log", "check"):
        rounds = [(timed([words.program, command, name], words.core, to),
                   timed(walks(walker, command, folder), words.core, to)) for _ in range(words.rounds)]
        least[command] = min(it[0] for it in rounds)
        cells.append(f"{least[command]:7.3f} {spread([own / walked for own, walked in rounds], 2):21}")
    most = memory([words.program, "log", name], words.core, to)
    print(*cells, f"{1000 * least['log'] / mib:7.1f} {most / 1e6:6.1f} {most / size:6.2f}", flush=True)


def report_generated(words, count):
    """Prints the row of a generated scenario."""
    seconds = [timed([words.program, "gen", str(count)], words.core, os.devnull) for _ in range(words.rounds)]
    print(f"{count:5} {min(seconds):8.3f} {spread(seconds, 3):24} {1000 * min(seconds) / count:8.2f}", flush=True)


def main():
    parser = argparse.ArgumentParser(description=__doc__, formatter_class=argparse.RawDescriptionHelpFormatter)
    parser.add_argument("program", nargs="?", type=lambda it: pathlib.Path(it).resolve())
    parser.add_argument("--mib", type=int, nargs="+", choices=range(1, 65), metavar="N")
    parser.add_argument("--gen", type=int, nargs="*", choices=range(1, 65), metavar="N")
    parser.add_argument("--rounds", type=int, default=5)
    parser.add_argument("--core", type=int, default=max(os.sched_getaffinity(0)))
    parser.add_argument("--to", type=pathlib.Path, metavar="FOLDER")
    parser.add_argument("--write", type=pathlib.Path, metavar="FOLDER")
    words = parser.parse_args()
    if words.write:
        for mib in words.mib or SIZES[-1:]:
            print(*write(words.write, mib))
        return
    if not words.program:
        parser.error("a program is needed")
    print(processor())
    if words.gen is not None:
        print("nodes    least seconds                  ms/node")
        for count in words.gen or COUNTS:
            report_generated(words, count)
        return
    print(" MiB     frames     log times the walker        check times the walker       ms/MiB     MB  times")
    with tempfile.TemporaryDirectory(prefix="replay-bench-") as temporary:
        walker = pathlib.Path(temporary) / "walker"
        subprocess.run(["rustc", "-O", "-o", walker, HERE / "walker.rs"], check=True)
        for mib in words.mib or SIZES:
            report(words, walker, pathlib.Path(temporary) / str(mib), mib)


if __name__ == "__main__":
    main()
