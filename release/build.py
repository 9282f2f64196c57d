#!/usr/bin/env python3
"""Builds the program: proves the crates below it, several side by side, and then the program.

    build.py

`rt lib` keeps its crate and all that are below it to itself, so that in one checkout no two crates
over a common one are proved at a time. So each processor has a lane, a copy of the sources. It
takes there what was built of the crates below, and what it builds goes to the checkout, where later
checks, and another run after one that was broken off, find it.

Prints a line for each crate that it begins with. The status is 0 only where the program was built
and says hello.
"""
import concurrent.futures
import contextlib
import fcntl
import hashlib
import os
import pathlib
import shutil
import subprocess
import sys
import tempfile
import time

ROOT = pathlib.Path(__file__).resolve().parent.parent
PROGRAM = "sim_cli"
# The most memory that a check takes, in bytes, and the most jobs that one is given.
MEMORY = 2_500_000_000
JOBS = 4
# What rt makes of a library: the library, and what later checks begin with.
PARTS = ("rlib", "incremental")
# How many lines of a failed check are shown.
LINES = 40


def listed():
    """The crates of crates.txt, each with those of them that it lists."""
    rows = (line.split("#")[0].partition(":") for line in (ROOT / "crates.txt").read_text(encoding="utf-8").split("\n"))
    uses = {name.split()[0]: below.split() for name, _, below in rows if name.strip()}
    return {name: [it for it in below if it in uses] for name, below in uses.items()}


def below(crates, name):
    """The crates below a crate."""
    found, waiting = set(), [name]
    while waiting:
        for it in crates[waiting.pop()]:
            if it not in found:
                found.add(it)
                waiting.append(it)
    return found


def weights(crates):
    """How much each crate has before it until the program: its text with the longest chain of those that use it."""
    own = {name: sum(path.stat().st_size for part in ("src", "specs", "proofs")
                     for path in (ROOT / "crates" / name / part).rglob("*")) for name in crates}
    found = {}

    def weigh(name):
        if name not in found:
            found[name] = own[name] + max((weigh(it) for it in crates if name in crates[it]), default=0)
        return found[name]

    return {name: weigh(name) for name in crates}


def how_many():
    """How many lanes there are: one a processor, as many as memory holds."""
    with open("/proc/meminfo", encoding="utf-8") as lines:
        free = next(1024 * int(line.split()[1]) for line in lines if line.startswith("MemAvailable"))
    return max(1, min(len(os.sched_getaffinity(0)), free // MEMORY))


def share(one, other):
    """Gives a file a second name, since rt replaces such files and changes none; or a copy where that cannot be."""
    try:
        os.link(one, other)
    except OSError:
        shutil.copy2(one, other)


@contextlib.contextmanager
def held(path):
    """Keeps other runs out of a folder or a file, as rt does."""
    at = os.open(path, os.O_RDONLY)
    try:
        try:
            fcntl.flock(at, fcntl.LOCK_EX | fcntl.LOCK_NB)
        except BlockingIOError:
            print(f"capl: waiting for another run to end that has {path}", flush=True)
            fcntl.flock(at, fcntl.LOCK_EX)
        yield
    finally:
        os.close(at)


def take(name, lane, part):
    """Gives a lane what the checkout has of a crate, unless the lane has it."""
    made, to = (top / "crates" / name / "out" / part for top in (ROOT, lane))
    if made.is_dir() and not to.exists():
        shutil.copytree(made, to, copy_function=share if part == "rlib" else shutil.copy2)


def stamp_of(top, name):
    """What rt notes with a library: a sum of what it was made from."""
    with contextlib.suppress(OSError):
        return (top / "crates" / name / "out/rlib/stamp").read_text(encoding="utf-8")
    return ""


def give(name, lane):
    """Gives the checkout what a lane has built of a crate."""
    if stamp_of(ROOT, name) == stamp_of(lane, name):
        return
    with held(ROOT / "crates" / name):
        for part in PARTS:
            made, to = (top / "crates" / name / "out" / part for top in (lane, ROOT))
            if made.is_dir():
                shutil.rmtree(to, ignore_errors=True)
                shutil.copytree(made, to, copy_function=share)


def prove(crates, name, lane, jobs):
    """Proves a crate in a lane, and gives what rt said where it failed."""
    for it in below(crates, name):
        take(it, lane, "rlib")
    for part in PARTS:
        take(name, lane, part)
    done = subprocess.run(["rt", "lib", "--jobs", str(jobs)], cwd=lane / "crates" / name, stdin=subprocess.DEVNULL,
                          stdout=subprocess.PIPE, stderr=subprocess.STDOUT, text=True, errors="replace")
    if done.returncode:
        return done.stdout
    give(name, lane)
    return None


def prove_all(crates, lanes):
    """Proves the crates below the program, those with the most before them first, and says whether all are proved."""
    left, weight = below(crates, PROGRAM), weights(crates)
    whole, begun, done, running, failed, idle = len(left) + 1, 0, set(), {}, False, len(lanes)
    with concurrent.futures.ThreadPoolExecutor(len(lanes)) as pool:
        while running or left and not failed:
            ready = sorted((it for it in left if done.issuperset(crates[it])), key=lambda it: -weight[it])
            for at, name in enumerate(ready[:len(lanes)] if not failed else []):
                left.remove(name)
                begun += 1
                print(f"capl: crate {begun} of {whole}: {name}", flush=True)
                # It gets the processors that no other waits for.
                lane, jobs = lanes.pop(), max(1, min(JOBS, idle // (len(ready) - at)))
                idle -= jobs
                running[pool.submit(prove, crates, name, lane, jobs)] = name, lane, jobs
            for it in concurrent.futures.wait(running, return_when=concurrent.futures.FIRST_COMPLETED).done:
                name, lane, jobs = running.pop(it)
                lanes.append(lane)
                idle += jobs
                done.add(name)
                said = it.result()
                if said is not None:
                    failed = True
                    print(*said.rstrip().split("\n")[-LINES:], f"capl: {name} was not proved", sep="\n", flush=True)
    return whole if not failed else 0


def build_program(number):
    """Builds the program over the libraries, and says whether it says hello."""
    print(f"capl: crate {number} of {number}: {PROGRAM}", flush=True)
    begin, folder = time.time(), ROOT / "crates" / PROGRAM
    done = subprocess.run(["rt", "run", "--", "window", "data/hello.scn"], cwd=folder, stdin=subprocess.DEVNULL,
                          stdout=subprocess.PIPE, stderr=subprocess.STDOUT, text=True, errors="replace")
    if done.returncode:
        print(*done.stdout.rstrip().split("\n")[-LINES:], sep="\n", flush=True)
        return False
    # What is written from now on is newer than the program.
    os.utime(folder / "out" / PROGRAM, (begin, begin))
    return True


def main():
    crates = listed()
    of_root = hashlib.sha256(os.fsencode(ROOT)).hexdigest()[:8]
    room = pathlib.Path(tempfile.gettempdir()) / f"capl-build-{os.getuid()}-{of_root}"
    with held(ROOT / "crates.txt"):
        shutil.rmtree(room, ignore_errors=True)
        try:
            lanes = [room / str(number) for number in range(how_many())]
            for lane in lanes:
                shutil.copytree(ROOT / "crates", lane / "crates", ignore=shutil.ignore_patterns("out", "must-fail"))
                shutil.copy(ROOT / "crates.txt", lane)
            number = prove_all(crates, lanes)
        finally:
            shutil.rmtree(room, ignore_errors=True)
        return 0 if number and build_program(number) else 1


if __name__ == "__main__":
    try:
        sys.exit(main())
    except KeyboardInterrupt:
        sys.exit(130)
