#!/usr/bin/env python3
"""Times a built program on inputs that are made to be slow or large.

    hostile.py PROGRAM [--only WORD] [--rounds N] [--core N]
    hostile.py --write FOLDER [--only WORD]

Each input is made of three sizes: the greatest that the program takes, which mostly is a limit of its own (where a
size is refused by E29 the greatest that is not is searched), half of it, and a quarter. A row tells the size, the
status with the beginning of the first line that was written, the median of the processor seconds of so many runs (3
if not given), pinned to a core where one is given, and the most memory, where it is more than that of this script,
which is told above the rows.

Names that collide are searched by a small program, which gcc has to compile; without gcc they are left out. With
--only inputs whose name has the word are tried. With --write their files are kept in a folder, and nothing is run.
"""
import argparse
import os
import pathlib
import re
import resource
import shutil
import statistics
import subprocess
import sys
import tempfile

from run import processor

TOKENS = 300_000
DEEP = 190
MILLION = 1_000_000
SOURCE = 1 << 20
DATABASE = 16 << 20
LOG = 64 << 20
DAY = 86_400_000

# Names of 8 bytes whose hash without a seed has the same lowest 10 bits: that of a database's tables, SipHash-1-3 of their
# length and their bytes, or that of a program's, which multiplies them and folds the product.
SEARCH = r"""
#include <stdint.h>
#include <stdio.h>
#include <stdlib.h>
#include <string.h>

#define TURN(x, b) (((x) << (b)) | ((x) >> (64 - (b))))

static uint64_t v0, v1, v2, v3;

static void turn(void)
{
    v0 += v1; v1 = TURN(v1, 13); v1 ^= v0; v0 = TURN(v0, 32);
    v2 += v3; v3 = TURN(v3, 16); v3 ^= v2;
    v0 += v3; v3 = TURN(v3, 21); v3 ^= v0;
    v2 += v1; v1 = TURN(v1, 17); v1 ^= v2; v2 = TURN(v2, 32);
}

static void take(uint64_t word)
{
    v3 ^= word;
    turn();
    v0 ^= word;
}

static uint64_t fold(uint64_t name)
{
    unsigned __int128 product =
        (unsigned __int128)(name ^ 0x243f6a8885a308d3) * (0x9e3779b97f4a7c15 ^ 16);
    return (uint64_t)product ^ (uint64_t)(product >> 64);
}

static uint64_t sip(uint64_t name)
{
    v0 = 0x736f6d6570736575; v1 = 0x646f72616e646f6d; v2 = 0x6c7967656e657261; v3 = 0x7465646279746573;
    take(8);
    take(name);
    take((uint64_t)16 << 56);
    v2 ^= 0xff;
    turn(); turn(); turn();
    return v0 ^ v1 ^ v2 ^ v3;
}

int main(int count, char **words)
{
    uint64_t (*hash)(uint64_t) = strcmp(words[2], "fold") ? sip : fold;
    long wanted = atol(words[1]), found = 0;
    for (uint64_t number = 0; found < wanted; number++) {
        char text[9];
        uint64_t name, rest = number;
        for (int at = 7; at >= 0; at--, rest /= 26) text[at] = 'a' + rest % 26;
        text[8] = 0;
        memcpy(&name, text, 8);
        if (hash(name) % 1024) continue;
        puts(text);
        found++;
    }
    return 0;
}
"""


def scenario(*items, nodes=1):
    """A scenario of nodes with the source n.can, and more items."""
    return "\n".join(["scenario 1", *(f"node N{it} n.can" for it in range(nodes)), *items]) + "\n"


def single(source, *items, nodes=1, **more):
    """The files of a scenario whose nodes have one source."""
    return {"s.scn": scenario(*items, nodes=nodes), "n.can": source, **more}


# ---- names


def colliding(count, by):
    """Names that collide where they are hashed so without a seed."""
    with tempfile.TemporaryDirectory() as folder:
        program = pathlib.Path(folder) / "search"
        subprocess.run(["gcc", "-O2", "-x", "c", "-", "-o", program], input=SEARCH.encode(), check=True)
        return subprocess.run([program, str(count), by], capture_output=True, text=True, check=True).stdout.split()


def globals_of(names):
    """A source that declares names and stores in each."""
    stores = "".join(f"{it}=1;" for it in names)
    return single(f"variables {{ byte {','.join(names)}; }} on start {{ {stores} }}")


def ordinary_names(count):
    """Globals of ordinary names."""
    return globals_of([f"n{it:07}" for it in range(count)])


def colliding_names(count):
    """Globals whose names collide."""
    return globals_of(colliding(count, "fold"))


def long_names(count):
    """Globals whose names differ only behind many equal letters."""
    return globals_of(["x" * (SOURCE // 2 // count - 12) + f"{it:05}" for it in range(count)])


def messages_of(names):
    """A database of messages with these names."""
    lines = [f"BO_ {2**31 + it} {name}: 8 V\n" for it, name in enumerate(names)]
    return single("", "database d.dbc", **{"d.dbc": "".join(lines)})


def colliding_messages(count):
    """A database whose names of messages collide."""
    return messages_of(colliding(count, "sip"))


# ---- nesting

NESTED = {
    "parentheses": ("a=", "(", "1", ")", ";"), "casts": ("a=", "(long)", "1", "", ";"),
    "signs": ("a=", "- ", "1", "", ";"), "sums": ("a=1", "+1", "", "", ";"), "assignments": ("", "a=", "1", "", ";"),
    "?:": ("a=", "a?", "1", ":1", ";"), "indices": ("a=", "b[", "1", "]", ";"), "calls": ("a=", "f(", "1", ")", ";"),
    "blocks": ("", "{", "", "}", ""), "if": ("", "if(a)", ";", "", ""), "else": ("", "if(a);else ", ";", "", ""),
    "if and else": ("", "if(a)", "return;", "else return;", ""),
    "while": ("", "while(0)", ";", "", "a;"), "do": ("", "do ", ";", "while(0);", "a;"),
    "for": ("", "for(;0;)", ";", "", ""), "switch": ("", "switch(a){case 1:", ";", "}", ""),
}

# How many levels of each kind a piece nests, where it is not DEEP.
LEVELS = {"do": 95, "switch": 60, "?:": 60}


def nesting(kind):
    """The maker of a source of so many tokens of pieces that nest deep in one way."""
    before, opening, core, closing, after = NESTED[kind]
    level = LEVELS.get(kind, DEEP)
    piece = before + opening * level + core + closing * level + after
    tokens = len(re.findall(r"\w+|[^\w\s]", piece))

    def made(count):
        """The source of so many tokens."""
        head = "variables { long b[9]; } long f(long x) { return x; } on start { long a; "
        return single(head + piece * ((count - 40) // tokens) + " }")
    return made


def trees_of_if(tokens):
    """A tree of `if` and `else` of at most so many tokens, below 160 further ones."""
    def tree(high):
        """One of a height, 10 times 2 to the height less 9 tokens."""
        return f"if(a){{{tree(high - 1)}}}else{{{tree(high - 1)}}}" if high else ";"

    return single("on start { long a; " + "if(a)" * 160 + tree((tokens // 10).bit_length() - 1) + " }")


# ---- rows


def labels(count):
    """A `switch` with so many labels."""
    cases = "".join(f"case {it}:;" for it in range(count))
    return single(f"on start {{ long a; switch(a) {{ {cases} }} }}")


def chain_of_calls(count):
    """So many functions of which each calls the one before, and the last one is called."""
    functions = "".join(f"void f{it}(){{f{it - 1}();}}" for it in range(1, count))
    return single(f"void f0(){{}}{functions} on start {{ f{count - 1}(); }}", f"turns {count}")


def parameters(count):
    """A function of so many parameters."""
    return single("void f(" + ",".join(f"int p{it:x}" for it in range(count)) + "){}")


def locals_of_one(count):
    """So many variables of one procedure, each of which is used."""
    return single("on start { " + "".join(f"byte v{it};v{it}=1;" for it in range(count)) + "}")


def uses_of_one(count):
    """So many assignments to elements of one array of nearly all cells that a program may have."""
    return single("variables { byte a[999000]; long i; } on start { if (i) { " + "a[i] = 1; " * count + "} }")


def texts_of_one(count):
    """So many lines with the text in one array of nearly all cells that a program may have."""
    return single("variables { char a[999000]; long i; } on start { if (i) { " + 'write("%s", a); ' * count + "} }")


def procedures(count):
    """So many procedures for messages and timers, each with a selector or a timer of its own."""
    names = [f"t{it}" for it in range(count // 2)]
    events = "".join(f"on timer {name}{{}}on message {it}x{{}}" for it, name in enumerate(names))
    return single(f"variables {{ msTimer {','.join(names)}; }} {events}")


def past_selectors(count):
    """A node with so many selectors, and frames for a second that are none of them."""
    rest = "variables { message 0x1FFFFFFFx m = {dlc = 0}; } on start { output(m); } on message * { output(this); }"
    return single(rest + " on message " + ",".join(f"{it}x" for it in range(count)) + " { }", "until 1000")


# ---- files


def include_lines(count):
    """A source with so many lines that include one file."""
    return single("includes {\n" + '#include "f"\n' * count + "}", f="")


def includes_of_all(count):
    """Files that all include each other, so many times in all."""
    names = [f"f{it}" for it in range(31)]
    text = "includes {\n" + "".join(f'#include "{it}"\n' for it in names) * (count // 31 // 31) + "}"
    return single('includes { #include "f0" }', **{name: text for name in names})


def one_statement(begin, piece, end):
    """The maker of a database of so many bytes with one statement that is repeated pieces."""
    def made(size):
        """The database of so many bytes."""
        text = begin + piece * ((size - len(begin) - len(end)) // len(piece)) + end
        return single("", "database d.dbc", **{"d.dbc": text})
    return made


def messages_of_a_signal(size):
    """A database of so many bytes of messages with one signal each."""
    text, at = [], 0
    while (size := size - len(one := f'BO_ {2 ** 31 + at} M{at}: 8 U\n SG_ S{at} : 0|8@1+ (1,0) [0|0] "" A\n')) > 0:
        text.append(one)
        at += 1
    return single("", "database d.dbc", **{"d.dbc": "".join(text)})


def one_log_line(size):
    """A log of one line of so many bytes."""
    return single("", "replay r.log", **{"r.log": "(0.000001) can0 123##" + "1" * (size - 22) + "\n"})


def log_without_line_feed(size):
    """A log of so many digits, and no line feed."""
    return single("", "replay r.log", **{"r.log": "1" * size})


# ---- runs


def long_timers(count):
    """So many cyclic timers of 4,294,967 milliseconds, over a day."""
    names = [f"t{it}" for it in range(count)]
    sets = "".join(f"setTimerCyclic({it},4294967);" for it in names)
    return single(f"variables {{ msTimer {','.join(names)}; }} on start {{ {sets} }}", f"until {DAY}")


def short_timers(count):
    """So many cyclic timers of a millisecond, over a second."""
    names = [f"t{it}" for it in range(count)]
    sets = "".join(f"setTimerCyclic({it},1);" for it in names)
    return single(f"variables {{ msTimer {','.join(names)}; }} on start {{ {sets} }}", "until 1000")


def keys_at_once(count):
    """So many keys of one moment, each for 64 nodes."""
    return single("on key * { }", *["key 5 a"] * count, nodes=64)


def endless_frames(until):
    """64 nodes that send each frame that they see once more, so long."""
    source = "variables { message 0x1 m = {dlc = 0}; } on start { output(m); } on message * { output(this); }"
    return single(source, f"until {until}", nodes=64)


def endless_keyed(until):
    """64 nodes that answer each frame that they see by one of a greater identifier, so long, at 1 Mbit/s."""
    source = ("variables { message 0x1x m = {dlc = 0}; } on start { output(m); } "
              "on message * { m = this; m.id = (m.id + 7919) | 0x80000000; output(m); }")
    return single(source, f"until {until}", "bitrate 1000000", nodes=64)


def many_lines(count):
    """A node that writes lines in all its turns."""
    return single('on start { long i; for (i = 0; i < 10000000; i++) write("%d", i); }', f"turns {count}")


# ---- the greatest programs


def arrays(nodes):
    """The maker of nodes whose cells, in arrays, and whose weights are together a number."""
    def made(sum):
        """The files of so many cells and so much weight."""
        stores = "x=1;" * ((sum // nodes - 8) // 32)
        return single(f"variables {{ byte g[{sum // nodes - 1}]; byte x; }} on start {{ {stores} }}", nodes=nodes)
    return made


def timers(sum):
    """64 nodes whose cells and weights are together a number. All cells are timers, and as many as can be are set."""
    names = [f"t{it}" for it in range(sum // 64)]
    sets = "".join(f"setTimer({it},9);" for it in names[:(sum // 64 - 8) // 32])
    return single(f"variables {{ msTimer {','.join(names)}; }} on start {{ {sets} }}", nodes=64)


def selectors(count):
    """64 nodes with so many selectors of messages together, which take neither cells nor weight."""
    return single("on message " + ",".join(f"{it}x" for it in range(count // 64)) + " { }", nodes=64)


INPUTS = {
    "globals of ordinary names": (ordinary_names, 31_000), "globals whose names collide": (colliding_names, 31_000),
    "globals with equal beginnings": (long_names, 1000),
    "messages whose names collide": (colliding_messages, 120_000),
    **{f"nesting of {kind}": (nesting(kind), TOKENS) for kind in NESTED},
    "trees of if and else": (trees_of_if, 10 << 14),
    "parameters of one function": (parameters, 99_000),
    "labels of a switch": (labels, 60_000), "calls in a chain": (chain_of_calls, 25_000),
    "variables of one procedure": (locals_of_one, 30_000), "uses of one array": (uses_of_one, 20_000),
    "texts of one array": (texts_of_one, 3_000), "procedures": (procedures, 30_000),
    "frames past selectors": (past_selectors, 130_000),
    "lines that include one file": (include_lines, 65_535), "files that include all": (includes_of_all, 250_000),
    "a string of a database": (one_statement('VERSION "', "x", '"'), DATABASE),
    "nodes in one statement": (one_statement("BU_:", " A", ""), DATABASE),
    "values in one statement": (one_statement("VAL_ 1 A", ' 1 "x"', ";"), DATABASE),
    "receivers of one signal": (one_statement('BO_ 1 M: 8 V\nSG_ S : 0|8@1+ (1,0) [0|0] "" A', ",A", ""), DATABASE),
    "messages of one signal": (messages_of_a_signal, DATABASE),
    "quotes that open nothing": (one_statement('CM_ "', '\\"', ""), DATABASE),
    "statements without an end": (one_statement("", "CM_ ", ""), DATABASE),
    "a log of one line": (one_log_line, LOG), "a log without a line feed": (log_without_line_feed, LOG),
    "timers of 4,294,967 ms in a day": (long_timers, 20_000), "timers of 1 ms in a second": (short_timers, 4_000),
    "keys of one moment, 64 nodes": (keys_at_once, 10_000),
    "all keys of a scenario, 64 nodes": (keys_at_once, 130_000),
    "64 nodes that send all again": (endless_frames, 10_000),
    "64 nodes that answer, 1 Mbit/s": (endless_keyed, 10_000),
    "lines in one task": (many_lines, 10_000_000),
    "4 nodes, all cells and weight": (arrays(4), 4 * MILLION),
    "64 nodes, all cells and weight": (arrays(64), 4 * MILLION),
    "64 nodes, all cells as timers": (timers, 4 * MILLION), "64 nodes, selectors": (selectors, 64 * 130_000),
}


# ---- the figures


def write(folder, name, size):
    """Writes the files of an input of a size, in a process of its own: the most memory of a process counts as that of
    what it starts."""
    shutil.rmtree(folder, ignore_errors=True)
    folder.mkdir(parents=True)
    one = os.fork()
    if one:
        os.waitpid(one, 0)
        return
    for file, text in INPUTS[name][0](size).items():
        (folder / file).write_text(text, encoding="utf-8")
    os._exit(0)


def timed(program, folder, core):
    """The status of a run, what it wrote first, its processor seconds and its most memory in megabytes."""
    pin = None if core is None else lambda: os.sched_setaffinity(0, {core})
    with open(folder / "out", "w+b") as out:
        run = subprocess.Popen([program, "window", "s.scn"], cwd=folder, stdin=subprocess.DEVNULL, stdout=out,
                               preexec_fn=pin)
        _, status, usage = os.wait4(run.pid, 0)
        run.returncode = os.waitstatus_to_exitcode(status)
        out.seek(0)
        first = out.readline(60).decode(errors="replace").rstrip()
    return run.returncode, first, usage.ru_utime + usage.ru_stime, usage.ru_maxrss / 1000


def greatest(words, folder, name):
    """The greatest size of an input up to its own that is not refused for its cells or weight."""
    def rule(size):
        """The end of what is written first for a size."""
        write(folder, name, size)
        return timed(words.program, folder, words.core)[1][-4:]

    low, high = 0, INPUTS[name][1]
    if rule(high) != " E29":
        return high
    while high - low > 1000:
        middle = (low + high) // 2
        low, high = (low, middle) if rule(middle) == " E29" else (middle, high)
    return low


def report(words, folder, name, size):
    """Prints the row of an input of a size."""
    write(folder, name, size)
    runs = [timed(words.program, folder, words.core) for _ in range(words.rounds)]
    status, first = runs[0][:2]
    seconds = statistics.median(it[2] for it in runs)
    memory = max(it[3] for it in runs)
    print(f"{name:32} {size:10,} {status:2} {first[:30]:30} {seconds:7.2f} {memory:5.0f}", flush=True)


def main():
    parser = argparse.ArgumentParser(description=__doc__, formatter_class=argparse.RawDescriptionHelpFormatter)
    parser.add_argument("program", nargs="?", type=lambda it: pathlib.Path(it).resolve())
    parser.add_argument("--only", default="")
    parser.add_argument("--rounds", type=int, default=3)
    parser.add_argument("--core", type=int)
    parser.add_argument("--write", type=pathlib.Path, metavar="FOLDER")
    words = parser.parse_args()
    names = [it for it in INPUTS if words.only in it and (shutil.which("gcc") or "collide" not in it)]
    if words.write:
        for name in names:
            write(words.write / name.replace(" ", "-"), name, INPUTS[name][1])
        return
    if not words.program:
        parser.error("a program is needed")
    print(processor())
    own = resource.getrusage(resource.RUSAGE_SELF).ru_maxrss / 1000
    print(f"window, {words.rounds} rounds; this script takes {own:.0f} MB")
    print(f"{'input':32} {'size':>10} status and first line {'seconds':>18} {'MB':>5}")
    with tempfile.TemporaryDirectory(prefix="hostile-bench-") as temporary:
        folder = pathlib.Path(temporary) / "input"
        for name in names:
            if size := greatest(words, folder, name):
                for part in (4, 2, 1):
                    report(words, folder, name, size // part)


if __name__ == "__main__":
    main()
