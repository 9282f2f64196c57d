#!/usr/bin/env python3
"""Runs the scenarios of examples/ and tests/cases/ on a built program.

    run.py PROGRAM

A scenario is a folder with the files that the program reads, and three more:
`words` (the words, one a line), `stdout` (the bytes that it must write) and
`status` (the status that it must end with). One more file may say what standard
output is:

    full    a device that takes nothing; `stdout` is not looked at
    slow    a pipe of one page, from which few bytes are taken at a time
    room    a file that takes as many bytes as this file says, and then fails

A folder that is run more than once has such files for each run, whose names go on with
the same `-` and word: `words-log`, `stdout-log`, `status-log`.

Each scenario runs in a copy of its folder, for at most 60 seconds, and nothing
may stand on standard error. Then examples/body-bus runs under random picks: its log,
the lines of each of its nodes and its profile have to be the same under all of them.
At each bit rate its log is replayed to a node without procedures, which has to give the same log.
A log of 64 MiB has to be read, and one of a byte more refused; both are of zeros alone, and made for the trial.
A folder whose name has a line feed has to be shown in one line by a refusal and by a profile.
Last `capl` is tried: without words and when asked for help,
in a checkout with the released program and nothing built, where that program is of the
sources, in one whose sources are others, where it has to build and cannot, and with a
program that tells what malloc is asked for. The scenarios run with large pages, as `capl` runs them.
The last line is 'N passed, M failed'.
"""
import contextlib
import fcntl
import hashlib
import os
import pathlib
import random
import re
import resource
import shutil
import subprocess
import sys
import tempfile
import threading

ROOT = pathlib.Path(__file__).resolve().parent.parent
SECONDS = 60
EXPECTATIONS = ("words", "stdout", "status", "full", "slow", "room")
PAGE = 4096
FEW = 7

# The random picks over BUS: how many lists, how many picks in each (a pick for each task), and the seed.
BUS = ROOT / "examples" / "body-bus"
LISTS = 100
PICKS = 1000
SEED = 20

# The most bytes of a log that is replayed.
MOST_LOG = 64 << 20

# What a scenario may say of the bit rate, as docs/scenario.md has it.
RATES = (10000, 12500, 15625, 20000, 25000, 31250, 40000, 50000, 62500, 100000, 125000, 200000, 250000, 500000, 1000000)


def trials_of(group):
    """The runs of the folders of a group: each a folder, and what the names of its files go on with."""
    paths = [path for name in ("words", "words-*") for path in (ROOT / group).glob(f"*/{name}")]
    return sorted((path.parent, path.name.removeprefix("words")) for path in paths)


def words_of(folder, which):
    """The words of a scenario, one a line; no bytes are no words."""
    data = (folder / f"words{which}").read_bytes()
    return data.removesuffix(b"\n").split(b"\n") if data else []


def take_few(end, taken):
    """Takes few bytes at a time from a pipe until its other end is closed."""
    with open(end, "rb", buffering=0) as pipe:
        while piece := pipe.read(FEW):
            taken += piece


@contextlib.contextmanager
def slow_pipe(taken):
    """The end to write to of a pipe that takes little at a time."""
    reading, writing = os.pipe()
    fcntl.fcntl(writing, fcntl.F_SETPIPE_SZ, PAGE)
    reader = threading.Thread(target=take_few, args=(reading, taken))
    reader.start()
    try:
        with open(writing, "wb") as pipe:
            yield pipe
    finally:
        reader.join()


def limit_files(size):
    """Lets the process write so many bytes to a file."""
    resource.setrlimit(resource.RLIMIT_FSIZE, (size, size))


def started(program, words, work, **output):
    """Runs the program in a folder to its end."""
    return subprocess.run([program, *words], cwd=work, stdin=subprocess.DEVNULL,
                          stderr=subprocess.PIPE, timeout=SECONDS, **output)


def copied(folder, work):
    """Copies what the program reads of a folder."""
    names = [name for it in EXPECTATIONS for name in (it, f"{it}-*")]
    shutil.copytree(folder, work, symlinks=True, ignore=shutil.ignore_patterns(*names))


def run(program, folder, which, work):
    """Runs a scenario in a copy of its folder, and gives status, output and error output."""
    copied(folder, work)
    words = words_of(folder, which)
    if (folder / f"full{which}").exists():
        with open("/dev/full", "wb") as out:
            done = started(program, words, work, stdout=out)
        return done.returncode, None, done.stderr
    if (folder / f"slow{which}").exists():
        taken = bytearray()
        with slow_pipe(taken) as out:
            done = started(program, words, work, stdout=out)
        return done.returncode, bytes(taken), done.stderr
    if (folder / f"room{which}").exists():
        size = int((folder / f"room{which}").read_text())
        with tempfile.TemporaryFile() as out:
            # The signal of a file that is too long stays ignored, as it is here, so that the write fails.
            done = started(program, words, work, stdout=out, restore_signals=False,
                           preexec_fn=lambda: limit_files(size))
            out.seek(0)
            return done.returncode, out.read(), done.stderr
    done = started(program, words, work, stdout=subprocess.PIPE)
    return done.returncode, done.stdout, done.stderr


def faults_of(program, folder, which):
    """What is wrong with a scenario, a line for each difference."""
    with tempfile.TemporaryDirectory() as keep:
        try:
            status, out, err = run(program, folder, which, pathlib.Path(keep) / "work")
        except subprocess.TimeoutExpired:
            return [f"no end within {SECONDS} seconds"]
    faults = []
    want = int((folder / f"status{which}").read_text())
    if status != want:
        faults.append(f"status {status}, not {want}")
    if out is not None and out != (asked := (folder / f"stdout{which}").read_bytes()):
        faults.append(f"wrote {out[:400]!r}, not {asked[:400]!r}")
    if err:
        faults.append(f"standard error has {err[:400]!r}")
    return faults


def told_apart(out):
    """The lines of each node, and under an empty name all others, which are those of a log or of a profile."""
    lines = {}
    for line in out.splitlines():
        name = line.split(b" ", 3)[2] if line.startswith(b"w ") else b""
        lines.setdefault(name, []).append(line)
    return lines


def outs_of_picks(program, command):
    """What a command on BUS writes without picks, and then with each list of random ones."""
    chance = random.Random(SEED)
    lists = ["", *(" ".join(str(chance.randrange(2**32)) for _ in range(PICKS)) for _ in range(LISTS))]
    with tempfile.TemporaryDirectory() as keep:
        work = pathlib.Path(keep) / "work"
        copied(BUS, work)
        scenario = (work / "body.scn").read_text()
        for picks in lists:
            (work / "body.scn").write_text(f"{scenario}picks {picks}\n" if picks else scenario)
            yield started(program, [command, "body.scn"], work, stdout=subprocess.PIPE).stdout


def faults_of_picks(program):
    """What is wrong with BUS under random picks, beside its run without any."""
    try:
        outs = {command: list(outs_of_picks(program, command)) for command in ("log", "window", "profile")}
    except subprocess.TimeoutExpired:
        return [f"no end within {SECONDS} seconds"]
    faults = [f"{command}: list {number} of picks changes the log, a node's lines or the profile"
              for command, several in outs.items() for number, out in enumerate(several)
              if told_apart(out) != told_apart(several[0])]
    if len(set(outs["window"])) == 1:
        faults.append("window: no list of picks changes in which order lines come")
    return faults


def faults_of_replays(program, rate):
    """What is wrong with the log of BUS at a bit rate, as it is replayed to a node without procedures."""
    with tempfile.TemporaryDirectory() as keep:
        work = pathlib.Path(keep) / "work"
        copied(BUS, work)
        text = (work / "body.scn").read_text().replace("bitrate 125000\n", f"bitrate {rate}\n")
        (work / "body.scn").write_text(text)
        items = re.findall("(?m)^(?:bitrate|until|interface) .*\n", text)
        (work / "again.scn").write_text("".join(["scenario 1\n", "node Silent silent.can\n", *items, "replay r.log\n"]))
        (work / "silent.can").write_text("")
        log = started(program, ["log", "body.scn"], work, stdout=subprocess.PIPE).stdout
        (work / "r.log").write_bytes(log)
        again = started(program, ["run", "again.scn"], work, stdout=subprocess.PIPE).stdout
    if f"bitrate {rate}\n" not in items or not log:
        return [f"no run at the rate: {items}, {len(log)} bytes"]
    return [] if again == log else [f"replayed {again[:400]!r}, not {log[:400]!r}"]


def faults_of_log_sizes(program):
    """What is wrong with the greatest log that may be replayed, one line without a reading or an end, or with one more."""
    with tempfile.TemporaryDirectory() as keep:
        work = pathlib.Path(keep)
        (work / "n.can").write_text("")
        (work / "s.scn").write_text("scenario 1\nnode N n.can\nreplay r.log\n")
        (work / "r.log").write_bytes(b"")
        for size, want in ((MOST_LOG, (0, b"w 0.000000 replay skipped 1\n")), (MOST_LOG + 1, (1, b"refused r.log F02\n"))):
            os.truncate(work / "r.log", size)
            done = started(program, ["window", "s.scn"], work, stdout=subprocess.PIPE)
            if (done.returncode, done.stdout) != want:
                yield f"of {size} bytes: status {done.returncode}, wrote {done.stdout[:400]!r}, not {want}"


def faults_of_names(program):
    """What is wrong with how a file in a folder is shown whose name has a line feed and a carriage return."""
    with tempfile.TemporaryDirectory() as keep:
        work = pathlib.Path(keep) / "a\nb\r"
        work.mkdir()
        (work / "n.can").write_text("on start { }")
        (work / "s.scn").write_text("scenario 1\nnode N n.can\n")
        for words, want in ((["profile", "a\nb\r/s.scn"], (0, b"p N a\\nb\\r/n.can:1 start 1 0\n")),
                            (["check", "a\nb\r/none"], (1, b"refused a\\nb\\r/none F01\n"))):
            done = started(program, words, keep, stdout=subprocess.PIPE)
            if (done.returncode, done.stdout) != want:
                yield f"{words[0]}: status {done.returncode}, wrote {done.stdout!r}, not {want}"


def called(script, *words, **how):
    """Calls capl with words, and gives status, output and error output."""
    done = subprocess.run([script, *words], stdin=subprocess.DEVNULL, capture_output=True, timeout=SECONDS, **how)
    return done.returncode, done.stdout, done.stderr


def faults_of_help(*words):
    """What is wrong with what capl says of its use."""
    status, out, err = called(ROOT / "capl", *words)
    if status != 2 or out or not err.startswith(b"usage: capl "):
        yield f"status {status}, wrote {out[:400]!r}, standard error has {err[:400]!r}"


@contextlib.contextmanager
def fresh_checkout():
    """A copy of what capl reads, with nothing built, and an environment without rt."""
    places = [it for it in os.environ["PATH"].split(":") if not shutil.which("rt", path=it)]
    with tempfile.TemporaryDirectory() as keep:
        top = pathlib.Path(keep)
        for name in ("crates", "examples", "release"):
            shutil.copytree(ROOT / name, top / name, ignore=shutil.ignore_patterns("out", "must-fail"))
        for name in ("capl", "crates.txt"):
            shutil.copy(ROOT / name, top)
        yield top, {**os.environ, "PATH": ":".join(places)}


def is_released(top):
    """Whether the released program of a checkout is of its sources, under the kit that it is of."""
    if not (top / "release" / "sources").exists():
        return False
    kit, told = (top / "release" / "sources").read_text(encoding="utf-8").splitlines()
    paths = [top / "crates.txt", *(path for kind in ("rt", "antt") for path in top.glob(f"crates/**/*.{kind}"))]
    whole = hashlib.sha256(kit.encode() + b"\n")
    for name, path in sorted((os.fsencode(path.relative_to(top)), path) for path in paths):
        whole.update(hashlib.sha256(path.read_bytes()).hexdigest().encode() + b"  " + name + b"\n")
    return whole.hexdigest() == told


def faults_of_released():
    """What is wrong with capl where nothing is built: it runs the released program, but only over its sources."""
    with fresh_checkout() as (top, env):
        hello = top / "examples" / "hello"
        words = top / "capl", "window", hello / "hello.scn"
        said = called(*words, env=env)
        if is_released(top) and said != (0, (hello / "stdout").read_bytes(), b""):
            yield f"the released program: {said}"
        with open(next(top.glob("crates/*/src/main.rt")), "a", encoding="utf-8") as file:
            file.write("\n")
        status, out, _ = called(*words, env=env)
        if status != 70 or out:
            yield f"of other sources than the released program's: status {status}, wrote {out[:400]!r}"


def faults_of_pages():
    """What is wrong with what capl has malloc ask for: large pages, unless it is told otherwise."""
    with fresh_checkout() as (top, env):
        program = top / "crates" / "sim_cli" / "out" / "sim_cli"
        program.parent.mkdir()
        program.write_text('#!/bin/sh\nprintf %s "$GLIBC_TUNABLES"\n')
        program.chmod(0o755)
        env.pop("GLIBC_TUNABLES", None)
        for own, want in (({}, b"glibc.malloc.hugetlb=1"), ({"GLIBC_TUNABLES": ""}, b"")):
            said = called(top / "capl", "window", "s.scn", env={**env, **own})
            if said != (0, want, b""):
                yield f"with {own}: {said}, not {want}"


def main():
    if len(sys.argv) != 2:
        sys.exit("usage: run.py PROGRAM")
    program = str(pathlib.Path(sys.argv[1]).resolve())
    os.environ.setdefault("GLIBC_TUNABLES", "glibc.malloc.hugetlb=1")
    trials = [(f"{folder.relative_to(ROOT)}{which}", faults_of(program, folder, which))
              for group in ("examples", "tests/cases") for folder, which in trials_of(group)]
    trials += [("examples/body-bus under random picks", faults_of_picks(program))]
    trials += [(f"examples/body-bus replayed at {rate} bits a second", faults_of_replays(program, rate))
               for rate in RATES]
    trials += [("logs of 64 MiB and of a byte more", list(faults_of_log_sizes(program)))]
    trials += [("a name with a line feed", list(faults_of_names(program)))]
    trials += [(" ".join(["capl", *words]), list(faults_of_help(*words))) for words in ((), ("--help",), ("-h",))]
    trials += [("capl on a fresh clone", list(faults_of_released()))]
    trials += [("capl and large pages", list(faults_of_pages()))]
    passed = failed = 0
    for name, faults in trials:
        if not faults:
            passed += 1
            continue
        failed += 1
        print(f"FAIL {name}")
        for fault in faults:
            print(f"    {fault}")
    print(f"{passed} passed, {failed} failed")
    return 0 if failed == 0 and passed > 0 else 1


if __name__ == "__main__":
    sys.exit(main())
