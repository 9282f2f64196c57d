#!/usr/bin/env python3
"""Times what it costs to hand lines over one by one.

    lines.py PROGRAM [--lines N] [--rounds N] [--to FOLDER]

A node sends a frame each millisecond and writes a line when it ends, so that `run` writes two lines each millisecond, in
the order in which they happen, each by a call of the system of its own. It writes so many lines, 1,000,000 if not given,
to /dev/null, to a file of a folder, that for temporary files if not given, and to a pipe from which `cat` reads; and
`profile` makes the same run and writes nothing of it as it happens. Each of these runs so many rounds, 5 if not given, in
turn.

A row tells the least, the median and the greatest of the program's processor seconds, and of the least one how much of it
the system took. Before that it looks whether the file has all lines, and stops where it has not.
"""
import argparse
import os
import pathlib
import statistics
import subprocess
import sys
import tempfile

from run import processor

SOURCE = """\
variables { msTimer t; message 0x100 m = {dlc = 8}; }
on start { setTimerCyclic(t, 1); }
on timer t { output(m); }
on message * { write("frame"); }
"""


def timed(words, folder, out):
    """The processor seconds that a command takes by itself and by the system, where it writes to a file or a pipe."""
    run = subprocess.Popen(words, cwd=folder, stdin=subprocess.DEVNULL, stdout=out)
    out.close()
    _, status, usage = os.wait4(run.pid, 0)
    run.returncode = os.waitstatus_to_exitcode(status)
    if run.returncode:
        sys.exit(f"lines.py: {' '.join(map(str, words))} ended with status {run.returncode}")
    return usage.ru_utime, usage.ru_stime


def into_pipe(words, folder):
    """The same where the command writes to a pipe that is read."""
    with subprocess.Popen(["cat"], stdin=subprocess.PIPE, stdout=subprocess.DEVNULL) as reader:
        return timed(words, folder, reader.stdin)


def main():
    parser = argparse.ArgumentParser(description=__doc__, formatter_class=argparse.RawDescriptionHelpFormatter)
    parser.add_argument("program", type=lambda it: pathlib.Path(it).resolve())
    parser.add_argument("--lines", type=int, default=1_000_000)
    parser.add_argument("--rounds", type=int, default=5)
    parser.add_argument("--to", type=pathlib.Path, metavar="FOLDER")
    given = parser.parse_args()
    print(processor())
    with tempfile.TemporaryDirectory(prefix="lines-", dir=given.to) as keep:
        folder = pathlib.Path(keep)
        # The last frame begins at the end moment and has not ended by then.
        (folder / "s.scn").write_text(f"scenario 1\nnode N n.can\nuntil {given.lines // 2 + 1}\n", encoding="ascii")
        (folder / "n.can").write_text(SOURCE, encoding="ascii")
        run, profile, file = [given.program, "run", "s.scn"], [given.program, "profile", "s.scn"], folder / "out"
        timed(run, folder, open(file, "wb"))
        if file.read_bytes().count(b"\n") != given.lines // 2 * 2:
            sys.exit("lines.py: the file has other lines than it must have")
        kinds = {
            "no line": lambda: timed(profile, folder, open(os.devnull, "wb")),
            "/dev/null": lambda: timed(run, folder, open(os.devnull, "wb")),
            "file": lambda: timed(run, folder, open(file, "wb")),
            "pipe": lambda: into_pipe(run, folder),
        }
        rounds = {kind: [] for kind in kinds}
        for _ in range(given.rounds):
            for kind, once in kinds.items():
                rounds[kind].append(once())
        print(f"{given.lines:,} lines to    least  median  greatest   of the least the system")
        for kind, times in rounds.items():
            least, sums = min(times, key=sum), [sum(it) for it in times]
            print(f"{kind:18} {sum(least):8.2f} {statistics.median(sums):7.2f} {max(sums):9.2f} {least[1]:12.2f}")


if __name__ == "__main__":
    main()
