#!/usr/bin/env python3
"""Measures a built program by rows of work, in loops.

    table.py PROGRAM [--only WORD] [--rounds N] [--core N] [--to FOLDER]
    table.py PROGRAM --counts [--only WORD]
    table.py --write FOLDER [--only WORD]

A loop is the time of a procedure that counts to 3,200,000, the first row; so the figures of machines compare. Each
row is a scenario that is made of a size, and a command. Program and loop run in turn so many rounds, 5 if not given,
pinned to one core. A row tells the least processor seconds of the work, the median, the least and the greatest of
what it took in loops of its own round, and the loops that are its goal: of most rows what a program by hand in plain
Rust takes. What is written goes to /dev/null, or, with --to, to a file in a folder.

With --counts callgrind counts the processor instructions of each row once, which do not depend on what else the
machine does: a row then tells the millions of them, and loops. What the system does for the program is not in them.

With --only rows whose name has the word are measured. With --write the scenarios are kept in a folder, and nothing
is run.
"""
import argparse
import os
import pathlib
import re
import statistics
import subprocess
import sys
import tempfile

from hostile import nesting, parameters, single, uses_of_one
from run import processor, spread

TURNS = 3_200_000
LOOP = "counting to 3,200,000"


def stop(why):
    """Ends the script with a line that says why."""
    sys.exit(f"table.py: {why}")


# ---- runs


def counting(count):
    """A procedure that counts."""
    return single(f"on start {{ long i; for (i = 0; i < {count}; i++) ; }}", "turns 10000000")


def repeated(count, statement):
    """A loop that does a statement so often, a hundred times a turn, so that its turns hardly count."""
    return f"for (i = 0; i < {count // 100}; i++) {{ {statement * 100}}}"


def calls(count):
    """A procedure that calls a function so often."""
    return single("long f(long x) { return x + 1; } on start { long i, s; "
                  f"{repeated(count, 's = f(s); ')} }}", "turns 10000000")


def signals(count):
    """A procedure that sets a signal so often."""
    return single(f"variables {{ message M m; }} on start {{ long i; {repeated(count, 'm.S = i; ')} }}",
                  "turns 10000000", "database d.dbc",
                  **{"d.dbc": 'BO_ 1 M: 8 V\n SG_ S : 3|17@1+ (1,0) [0|0] "" A\n'})


def lines(count):
    """A procedure that writes so many lines of three numbers."""
    return single('on start { long i; for (i = 0; i < ' + str(count) + '; i++) write("%d %d %d", i, i + 1, i + 2); }',
                  "turns 10000000")


def frames(count):
    """So many frames of eight bytes, each sent by a cyclic timer."""
    return single("variables { message 0x123 m = {dlc = 8}; msTimer t; } on start { setTimerCyclic(t, 1); } "
                  "on timer t { m.dword(0) = m.dword(0) + 1; output(m); }", f"until {count}")


def waiting(count):
    """So many frames that wait at once, and are sent."""
    return single(f"variables {{ message 0x1x m = {{dlc = 0}}; }} on start {{ long i; for (i = 0; i < {count}; i++) "
                  "{ m.id = ((i * 7919) & 0x1FFFFFFF) | 0x80000000; output(m); } }", "turns 10000000",
                  "until 86400000")


def timers(count):
    """So many cyclic timers of a millisecond, over half a second."""
    names = [f"t{it}" for it in range(count)]
    sets = "".join(f"setTimerCyclic({it}, 1); " for it in names)
    return single(f"variables {{ msTimer {', '.join(names)}; }} on start {{ {sets}}}", "until 500")


def switched(count):
    """A switch of so many labels, 20,000 times."""
    cases = "".join(f"case {it}: s += 1; break; " for it in range(count))
    return single(f"on start {{ long i, s; for (i = 0; i < 20000; i++) switch (i % {count}) {{ {cases}}} }}")


def selected(count):
    """So many selectors, and as many frames that each are for one of them."""
    ids = ", ".join(f"{3 * it}x" for it in range(count))
    return single(f"variables {{ message 0x1x m = {{dlc = 0}}; }} on start {{ long i; for (i = 0; i < {count}; i++) "
                  "{ m.id = (3 * i) | 0x80000000; output(m); } } on message " + ids + " { }", "turns 10000000",
                  "until 86400000")


# ---- sources

FUNCTION = """\
long mix{it}(long past, long step)
{{
  long mixed;
  int at, own[16] = {{1, 2, 3, 4, 5, 6, 7, 8, 9, 10, 11, 12, 13, 14, 15, 16}};
  mixed = past ^ (step << 3);
  for (at = 0; at < 4; at++) {{
    if (mixed > 9)
      mixed = mixed - own[at];
    else
      mixed = mixed * 3 + step;
  }}
  gCount++;
  return mixed;
}}
"""


def functions(size):
    """A source of so many bytes with functions."""
    text, at = ["variables { long gCount; }\n"], 0
    size -= len(text[0])
    while (size := size - len(one := FUNCTION.format(it=at))) > 0:
        text.append(one)
        at += 1
    return single("".join(text))


def globals_used(count):
    """So many globals, each of which is stored in."""
    names = [f"gValue{it}" for it in range(count)]
    return single(f"variables {{ long {', '.join(names)}; }} on start {{ {''.join(f'{it} = 1; ' for it in names)}}}")


def empty_statements(count):
    """So many empty statements; from 125,000 on they outweigh what a program may have, and are refused at the end."""
    return single("on start { " + ";" * count + " }")


def texts(count):
    """So many texts of one array of nearly all cells that a program may have."""
    uses = 'write("%s", a); ' * count
    return single(f"variables {{ char a[999000]; long i; }} on start {{ if (i) {{ {uses}}} }}")


def texts_of_formats(count):
    """So many texts of one array, a hundred a line."""
    one = 'write("' + "%s" * 100 + '"' + ", a" * 100 + "); "
    return single(f"variables {{ char a[999000]; long i; }} on start {{ if (i) {{ {one * (count // 100)}}} }}")


# ---- databases


def database(size):
    """A database of so many bytes, with ten signals a message."""
    text, at = [], 0
    while size > 0:
        one = f"BO_ {2 ** 31 + at} Message{at}: 8 Unit\n" + "".join(
            f' SG_ Signal{at}_{it} : {6 * it}|6@1+ (0.5,-10) [0|100] "km/h" Other\n' for it in range(10)) + "\n"
        size -= len(one)
        text.append(one)
        at += 1
    return single("", "database d.dbc", **{"d.dbc": "".join(text[:-1])})


ROWS = {
    LOOP: (counting, TURNS, "window", 1.0),
    "calls": (calls, 1_000_000, "window", 0.54),
    "signals": (signals, 3_000_000, "window", 0.8),
    "lines of three numbers": (lines, 1_000_000, "window", 4),
    "frames of a cyclic timer": (frames, 600_000, "log", 4),
    "frames that wait at once": (waiting, 80_000, "log", 0.8),
    "bytes of source": (functions, 700 << 10, "check", 0.9),
    "globals": (globals_used, 20_000, "check", 0.3),
    "empty statements": (empty_statements, 260_000, "check", 0.8),
    "tokens of `if` in `if`": (nesting("if"), 250_000, "check", 1.5),
    "bytes of database": (database, 15 << 20, "check", 2.9),
    "labels of a switch, 20,000 times": (switched, 9_000, "window", 0.5),
    "cyclic timers, 500 ms": (timers, 4_000, "window", 1.0),
    "uses of one array": (uses_of_one, 20_000, "check", 0.6),
    "texts of one array": (texts, 10_000, "check", 0.6),
    "texts of one array in formats": (texts_of_formats, 80_000, "check", 0.6),
    "parameters of one function": (parameters, 95_000, "check", 0.8),
    "selectors and frames": (selected, 80_000, "log", 1.0),
}


# ---- the figures


def write(folder, name):
    """Writes the files of a row."""
    folder.mkdir(parents=True, exist_ok=True)
    make, size, _, _ = ROWS[name]
    for file, text in make(size).items():
        (folder / file).write_text(text, encoding="utf-8")


def timed(words, folder, name):
    """The processor seconds of a row."""
    pin = lambda: os.sched_setaffinity(0, {words.core})
    target = words.to / "written" if words.to else os.devnull
    with open(target, "wb") as out:
        run = subprocess.Popen([words.program, ROWS[name][2], "s.scn"], cwd=folder, stdin=subprocess.DEVNULL,
                               stdout=out, preexec_fn=pin)
        _, status, usage = os.wait4(run.pid, 0)
    run.returncode = os.waitstatus_to_exitcode(status)
    if run.returncode > 1:
        stop(f"{name}: status {run.returncode}")
    return usage.ru_utime + usage.ru_stime


def counted(words, folder, name):
    """The processor instructions of a row."""
    call = ["valgrind", "--tool=callgrind", "--callgrind-out-file=/dev/null", words.program, ROWS[name][2], "s.scn"]
    done = subprocess.run(call, cwd=folder, stdin=subprocess.DEVNULL, stdout=subprocess.DEVNULL,
                          stderr=subprocess.PIPE, text=True)
    found = re.search(r"Collected : (\d+)", done.stderr)
    if done.returncode > 1 or not found:
        stop(f"{name}: status {done.returncode}\n{done.stderr}")
    return int(found[1])


def report(words, folders, name):
    """Prints the row of a name by its times."""
    seconds, loops = [], []
    for _ in range(words.rounds):
        loop = timed(words, folders[LOOP], LOOP)
        seconds.append(timed(words, folders[name], name))
        loops.append(seconds[-1] / loop)
    print(f"{ROWS[name][1]:10,} {name:34} {min(seconds):7.3f} {spread(loops):24} {ROWS[name][3]:6}", flush=True)


def report_counts(words, folders, name, loop):
    """Prints the row of a name by its instructions."""
    count = counted(words, folders[name], name)
    print(f"{ROWS[name][1]:10,} {name:34} {count / 1e6:9,.0f} {count / loop:7.2f} {ROWS[name][3]:6}", flush=True)


def main():
    parser = argparse.ArgumentParser(description=__doc__, formatter_class=argparse.RawDescriptionHelpFormatter)
    parser.add_argument("program", nargs="?", type=lambda it: pathlib.Path(it).resolve())
    parser.add_argument("--only", default="")
    parser.add_argument("--rounds", type=int, default=5)
    parser.add_argument("--core", type=int, default=max(os.sched_getaffinity(0)))
    parser.add_argument("--counts", action="store_true")
    parser.add_argument("--to", type=lambda it: pathlib.Path(it).resolve())
    parser.add_argument("--write", type=pathlib.Path, metavar="FOLDER")
    words = parser.parse_args()
    names = [it for it in ROWS if words.only in it]
    if words.write:
        for name in names:
            write(words.write / re.sub(r"\W+", "-", name), name)
        return
    if not words.program:
        parser.error("a program is needed")
    with tempfile.TemporaryDirectory(prefix="table-bench-") as temporary:
        folders = {name: pathlib.Path(temporary) / str(at) for at, name in enumerate(ROWS)}
        for name in {LOOP, *names}:
            write(folders[name], name)
        print(processor())
        if words.counts:
            print(f"{'size':>10} {'work':34} {'millions':>9} {'loops':>7} {'goal':>6}")
            loop = counted(words, folders[LOOP], LOOP)
            for name in names:
                report_counts(words, folders, name, loop)
        else:
            print(f"{words.rounds} rounds; least seconds; median, least and greatest loops; goal")
            for name in names:
                report(words, folders, name)


if __name__ == "__main__":
    main()
