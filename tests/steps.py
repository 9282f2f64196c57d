#!/usr/bin/env python3
"""Runs `rt ci`, and tells how long each of its steps took.

    steps.py COMMAND WORD ..

Passes the command's output on line by line, and ends with its status; a signal goes on to it. Once it
has ended, and before its last line 'N passed, M failed', come the steps that took a second or more,
the slowest first: the proof of each crate, its tests, and the tries of its must-fail edits, in
seconds of a processor. The command tells only when a step has ended, so that once a second
the processes below it are looked at: each time is true to about a second, and a step that
is shorter may be missed. The whole is what the system counted.
"""
import collections
import contextlib
import os
import pathlib
import re
import resource
import signal
import subprocess
import sys
import threading
import time

ROOT = pathlib.Path(__file__).resolve().parent.parent
SECONDS = 1.0
TICKS = os.sysconf("SC_CLK_TCK")
# The compiler, which proves.
PROVER = "rattle"
LAST = re.compile(rb"\d+ passed, \d+ failed")
# The folder in which rt keeps what a try of an edit begins with: a number, or the seed of all.
TRY = re.compile(r"/rt-edits-\d+-[^/]+/(\d+|seed)$")
# The folder that a try of an edit is checked in.
EDITED = re.compile(r"/rt-edit-\d+-[^/]+$")


def processes():
    """The processes that run: {number: (that of its parent, its start, its seconds of a processor)}."""
    found = {}
    for name in os.listdir("/proc"):
        if not name.isdigit():
            continue
        try:
            with open(f"/proc/{name}/stat", encoding="utf-8", errors="replace") as stat:
                fields = stat.read().rpartition(")")[2].split()
        except OSError:
            continue
        # The times are its own and those of its children that have ended.
        found[int(name)] = int(fields[1]), fields[19], sum(map(int, fields[11:15])) / TICKS
    return found


def below(top, running):
    """The children of a process, each with its seconds and those of all below it."""
    seconds = collections.Counter()
    for number, (_, _, own) in running.items():
        path = number
        while path in running and running[path][0] != top:
            path = running[path][0]
        if path in running:
            seconds[path] += own
    return seconds


def edit_of(crate, number):
    """The name of an edit of a crate by the number that rt gives it."""
    names = sorted(path.name for path in (ROOT / "crates" / crate / "must-fail").glob("*.edit"))
    return names[int(number)].removesuffix(".edit")


def step_of(process):
    """The step that a process is of: a crate and what is done with it, with the edit where one is tried."""
    with open(f"/proc/{process}/cmdline", encoding="utf-8", errors="replace") as file:
        words = file.read().split("\0")
    if os.path.basename(words[0]) != PROVER or "--crate-name" not in words:
        return None
    crate = words[words.index("--crate-name") + 1]
    if EDITED.search(os.readlink(f"/proc/{process}/cwd")):
        found = TRY.search(words[words.index("--incremental") + 1]) if "--incremental" in words else None
        number = found[1] if found else "nothing"
        return crate, "edits", edit_of(crate, number) if number.isdigit() else f"from {number}"
    return crate, "tests" if "--test" in words else "proof", ""


class Watch(threading.Thread):
    """Looks at the processes below a command once a second."""

    def __init__(self, top):
        super().__init__(daemon=True)
        self.top, self.ended = top, threading.Event()
        # By number and start: the step, and the seconds.
        self.steps, self.seconds = {}, {}

    def look(self):
        """Notes the step and the seconds of each process that is below the command."""
        running = processes()
        for number, seconds in below(self.top, running).items():
            key = number, running[number][1]
            self.seconds[key] = seconds
            # A process may not have begun yet to be what it will be, or have just ended.
            if not self.steps.get(key):
                with contextlib.suppress(OSError, ValueError, IndexError):
                    self.steps[key] = step_of(number)

    def run(self):
        while not self.ended.wait(SECONDS):
            # Whatever goes wrong here, the command goes on.
            with contextlib.suppress(Exception):
                self.look()

    def table(self):
        """The rows, the slowest first: seconds and words."""
        together, edits = collections.Counter(), collections.defaultdict(collections.Counter)
        for key, step in self.steps.items():
            if not step:
                continue
            crate, kind, edit = step
            together[crate, kind] += self.seconds[key]
            if kind == "edits":
                edits[crate][edit] += self.seconds[key]
        for (crate, kind), seconds in together.most_common():
            words = f"{crate}: {kind}"
            if kind == "edits":
                tried = {edit: it for edit, it in edits[crate].items() if not edit.startswith("from ")}
                slowest = max(tried, key=tried.get, default="")
                words += f", {len(tried)} seen" + (f", {slowest} {tried[slowest]:.0f}" if slowest else "")
            yield seconds, words


def told(watch, begun):
    """Prints the table."""
    rows = list(watch.table())
    used = resource.getrusage(resource.RUSAGE_CHILDREN)
    print("steps: seconds of a processor, slowest first")
    for seconds, words in rows:
        if seconds >= 1:
            print(f"{seconds:7.0f}  {words}")
    print(f"steps: {(used.ru_utime + used.ru_stime) / 60:.1f} minutes of a processor in "
          f"{(time.monotonic() - begun) / 60:.1f} minutes", flush=True)


def at_terminal():
    """Whether the terminal sends its signals to the command itself."""
    try:
        return os.tcgetpgrp(0) == os.getpgrp()
    except OSError:
        return False


def forward(command):
    """Sends the signals that come on to the command."""
    def send(number, _):
        if number not in (signal.SIGINT, signal.SIGQUIT) or not at_terminal():
            command.send_signal(number)

    for number in (signal.SIGTERM, signal.SIGINT, signal.SIGHUP, signal.SIGQUIT, signal.SIGUSR1, signal.SIGUSR2):
        signal.signal(number, send)


def passed_on(lines):
    """Writes lines as they come, and gives back the command's last one, that of its counts."""
    kept = b""
    for line in lines:
        ready, kept = (kept, line) if LAST.match(line) else (kept + line, b"")
        sys.stdout.buffer.write(ready)
        sys.stdout.flush()
    return kept


def main():
    if len(sys.argv) < 2:
        sys.exit("usage: steps.py COMMAND WORD ..")
    begun = time.monotonic()
    command = subprocess.Popen(sys.argv[1:], stdout=subprocess.PIPE)
    forward(command)
    watch = Watch(command.pid)
    watch.start()
    last = passed_on(command.stdout)
    status = command.wait()
    watch.ended.set()
    watch.join()
    try:
        told(watch, begun)
    except Exception as error:
        # The gate's verdict is the command's.
        print(f"steps: not told: {error!r}", flush=True)
    sys.stdout.buffer.write(last)
    sys.stdout.flush()
    return status if status >= 0 else 128 - status


if __name__ == "__main__":
    sys.exit(main())
