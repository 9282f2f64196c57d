#!/usr/bin/env python3
"""Times runs of many nodes on one bus.

    many.py PROGRAM [--nodes N ..] [--until MS] [--active N] [--timers N] [--command NAME] [--picks N] [--rounds N]
            [--core N]
    many.py --write FOLDER [--nodes N] [--until MS] [--active N] [--timers N] [--picks N]

What it measures is what nodes cost beside the instructions of their procedures: the rounds, in which each
node is asked for its next task, the choice by picks, the timers of all nodes, the choice of a message
procedure for each frame in each node, and a bus on which all of them wait. So the procedures are short.

Each node sends a frame of 8 bytes by a cyclic timer, of 20 to 100 milliseconds by its number, and has one
more, of 10 milliseconds, that goes over an array. It has message procedures for one other node's
identifier, for those of the half in which it is not, and for all others, its own among them, so a frame is
a task of every node. With 64 nodes that is some 115,000 tasks in a simulated second, and two fifths of the bus.

With --active so many nodes alone have procedures, and the others have none; with --timers each of these has so
many more timers of 10 milliseconds, all due at one moment, so that it has as many tasks in one round. So
`--nodes 64 --active 1 --timers 40` tells what a task costs beside 63 nodes that have none.

For 1, 2, 4 and so on up to 64 nodes, or the numbers given, the program runs the command (`profile`, which
writes least) so many rounds, 5 if not given, pinned to one core. A row tells the frames, tasks and turns of
the run, the median, the least and the greatest of its processor seconds, by the median the microseconds of
a task and how many times faster than the bus it went, and the most memory: of the program, or of this script
before the program took its place, whichever is more. With --picks so many random picks, the same in each run,
say which node comes next, as long as they last.

Before that it looks whether the frames of the log, each seen by all nodes, are the runs of the message
procedures in the profile, and stops where they are not. With --write the scenario is kept in a folder, and
nothing is run.
"""
import argparse
import os
import pathlib
import random
import statistics
import subprocess
import sys
import tempfile

from run import processor

MOST = 64
NODES = [1, 2, 4, 8, 16, 32, MOST]
UNTIL = 10_000
PERIODS = [20, 20, 40, 40, 50, 50, 100, 100]
FIRST = 0x100
SEED = 64

SOURCE = """\
/* Node {number} of {count}: a frame each {period} milliseconds, and procedures for those of all others. */
variables
{{
  message 0x{own:X} mOut = {{dlc = 8}};
  msTimer tSend;
  msTimer tLook;
  long gPast[8];
  long gOwn, gNear, gFar, gLost, gMost;
  dword gLast, gSum;
}}

on start
{{
  setTimerCyclic(tSend, {period});
  setTimerCyclic(tLook, 10);
}}

on timer tSend
{{
  int i;

  mOut.dword(0) = mOut.dword(0) + 1;
  for (i = 4; i < 8; i++)
    mOut.byte(i) = 5 * mOut.byte(i) + i + {number};
  output(mOut);
}}

on timer tLook
{{
  int i;

  for (i = elCount(gPast) - 1; i > 0; i--)
    gPast[i] = gPast[i - 1];
  gPast[0] = gNear;
  if (gPast[0] - gPast[7] > gMost)
    gMost = gPast[0] - gPast[7];
}}

on message 0x{next:X}
{{
  if (this.dword(0) != gLast + 1)
    gLost++;
  gLast = this.dword(0);
}}

on message 0x{low:X}-0x{high:X}
{{
  gNear++;
  gSum += this.dword(4);
}}

on message *
{{
  if (this.dir == TX)
    gOwn++;
  else
    gFar++;
}}

on stopMeasurement
{{
  write("%ld own, %ld near, %ld far, %ld lost, most %ld, sum %08lX", gOwn, gNear, gFar, gLost, gMost, gSum);
}}
"""


def stop(why):
    """Ends the script with a line that says why."""
    sys.exit(f"many.py: {why}")


# ---- the scenario


MORE_TIMER = """\
variables {{ msTimer tMore{timer}; }}
on start {{ setTimerCyclic(tMore{timer}, 10); }}
on timer tMore{timer} {{ gMost++; }}
"""


def source(number, count, timers):
    """The source of a node, of so many, with so many more timers."""
    half = (count + 1) // 2
    low, high = (half, max(half, count - 1)) if number < half else (0, half - 1)
    own = SOURCE.format(number=number, count=count, period=PERIODS[number % len(PERIODS)],
                        own=FIRST + number, next=FIRST + (number + 1) % count, low=FIRST + low, high=FIRST + high)
    return own + "".join(MORE_TIMER.format(timer=timer) for timer in range(timers))


def scenario(count, until, picks):
    """The scenario of so many nodes."""
    lines = ["scenario 1", *(f"node n{number} n{number}.can" for number in range(count)), f"until {until}"]
    chance = random.Random(SEED)
    numbers = [str(chance.randrange(2**32)) for _ in range(picks)]
    lines += [f"picks {' '.join(numbers[at:at + 100])}" for at in range(0, picks, 100)]
    return "\n".join(lines) + "\n"


def write(words, folder, count):
    """Writes the scenario of so many nodes, with its sources, and gives its name."""
    folder.mkdir(parents=True, exist_ok=True)
    for number in range(count):
        own = source(number, count, words.timers) if number < words.active else ""
        (folder / f"n{number}.can").write_text(own, encoding="utf-8")
    name = folder / f"many{count}.scn"
    name.write_text(scenario(count, words.until, words.picks), encoding="utf-8")
    return name


# ---- the figures


def said(program, command, name):
    """What a command writes, as lines."""
    done = subprocess.run([program, command, name], stdin=subprocess.DEVNULL, capture_output=True, text=True)
    if done.returncode:
        stop(f"{program} {command} {name} ended with status {done.returncode}: {done.stdout[:200]}")
    return done.stdout.splitlines()


def figures(program, name, active):
    """The frames, the tasks and the turns of a run with so many nodes that see frames, which have to fit each other."""
    frames = len(said(program, "log", name))
    rows = [line.split() for line in said(program, "profile", name)]
    seen = sum(int(row[4]) for row in rows if row[3] == "message")
    if seen != frames * active:
        stop(f"{frames} frames are seen {seen} times by {active} nodes")
    return frames, sum(int(row[4]) for row in rows), sum(int(row[5]) for row in rows)


def timed(program, command, name, core):
    """The processor seconds that a command takes, and its most memory in megabytes."""
    pin = lambda: os.sched_setaffinity(0, {core})
    run = subprocess.Popen([program, command, name], stdin=subprocess.DEVNULL, stdout=subprocess.DEVNULL,
                           preexec_fn=pin)
    _, status, usage = os.wait4(run.pid, 0)
    run.returncode = os.waitstatus_to_exitcode(status)
    if run.returncode:
        stop(f"{program} {command} {name} ended with status {run.returncode}")
    return usage.ru_utime + usage.ru_stime, usage.ru_maxrss / 1000


def report(words, folder, count):
    """Prints the row of so many nodes."""
    name = write(words, folder, count)
    frames, tasks, turns = figures(words.program, name, min(count, words.active))
    runs = [timed(words.program, words.command, name, words.core) for _ in range(words.rounds)]
    seconds = [it[0] for it in runs]
    middle = statistics.median(seconds)
    times = f"{middle:.2f} ({min(seconds):.2f} to {max(seconds):.2f})"
    faster = f"{words.until / 1000 / middle:.0f}" if middle else "-"
    print(f"{count:5} {frames:8,} {tasks:10,} {turns:10,} {times:22} {1e6 * middle / tasks:8.2f} {faster:>6} "
          f"{max(it[1] for it in runs):5.0f}", flush=True)


def main():
    parser = argparse.ArgumentParser(description=__doc__, formatter_class=argparse.RawDescriptionHelpFormatter)
    parser.add_argument("program", nargs="?", type=lambda it: pathlib.Path(it).resolve())
    parser.add_argument("--nodes", type=int, nargs="+", choices=range(1, MOST + 1), metavar="N")
    parser.add_argument("--until", type=int, default=UNTIL)
    parser.add_argument("--active", type=int, default=MOST)
    parser.add_argument("--timers", type=int, default=0)
    parser.add_argument("--command", default="profile", choices=["check", "window", "log", "run", "profile"])
    parser.add_argument("--picks", type=int, default=0)
    parser.add_argument("--rounds", type=int, default=5)
    parser.add_argument("--core", type=int, default=max(os.sched_getaffinity(0)))
    parser.add_argument("--write", type=pathlib.Path, metavar="FOLDER")
    words = parser.parse_args()
    if words.write:
        for count in words.nodes or [MOST]:
            print(write(words, words.write, count))
        return
    if not words.program:
        parser.error("a program is needed")
    print(processor())
    print(f"{words.command}, {words.until} milliseconds, {words.picks} picks, {words.rounds} rounds")
    print("nodes   frames      tasks      turns seconds                us/task times    MB")
    with tempfile.TemporaryDirectory(prefix="many-bench-") as temporary:
        for count in words.nodes or NODES:
            report(words, pathlib.Path(temporary) / str(count), count)


if __name__ == "__main__":
    main()
