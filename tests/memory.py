#!/usr/bin/env python3
"""Refuses memory to a built program, request by request.

    memory.py PROGRAM [--runs N]
    memory.py PROGRAM --stack
    memory.py PROGRAM --day [MILLISECONDS]

Each input runs under limits of address space that rise page by page, from the least under which the program begins
with the first input up to where the answer is whole, and with an allocator, compiled by gcc and loaded before that of
the system, that refuses one request, the first, the second and so on, and then all requests from one on. Where that
would take more runs than --runs says, 3000 without it, only each second, third or so on is tried.

Each run has to end within 20 seconds, with status 5 and a beginning of the answer, or with the whole answer and its
status, and with nothing on standard error. The inputs are a hello, five nodes, a database of 1 MiB, a source whose
`if` nest as deep as a source may, and the replay of a log.

A line for each input tells how many runs there were, and over what. The status is 1 where a run ended otherwise.

With --stack it tells instead with how much stack each of the deepest nestings of sources is taken. Since the program
touches what the deepest needs before it reads, that is the same for all, but for a nesting that needs more.

With --day it tells instead whether a run with a frame and a line in each of so many milliseconds, those of a day
without a number, ends within 64 MB of address space beyond that with which the program begins.
"""
import argparse
import os
import pathlib
import resource
import shutil
import subprocess
import sys
import tempfile
import time

ROOT = pathlib.Path(__file__).resolve().parent.parent
SECONDS = 20
PAGE = 4096
MOST = 1 << 30
CALM = 32
DAY = 86_400_000
BEYOND = 64 << 20

# The allocator: `REFUSE` says which request is refused, and a `+` behind it that all later ones are too.
ALLOCATOR = """\
#include <stdlib.h>
#include <errno.h>

extern void *__libc_malloc(size_t size);
extern void *__libc_realloc(void *old, size_t size);
static unsigned long number, refused;
static int later;

static int refuses(void)
{
    if (!refused) {
        char *end, *text = getenv("REFUSE");
        refused = text ? strtoul(text, &end, 10) : -1ul;
        later = text && *end == '+';
    }
    number++;
    return number == refused || (later && number > refused);
}

void *malloc(size_t size)
{
    if (!refuses()) return __libc_malloc(size);
    errno = ENOMEM;
    return NULL;
}

void *realloc(void *old, size_t size)
{
    if (!refuses()) return __libc_realloc(old, size);
    errno = ENOMEM;
    return NULL;
}
"""


# The deepest nestings that a source may have, each as the text of a procedure.
NESTED = {
    "nothing": "", "if, 198": "if (1) " * 198 + ";", "blocks, 199": "{" * 199 + "}" * 199,
    "while, 198": "while (0) " * 198 + ";", "for, 198": "for (;0;) " * 198 + ";",
    "do, 99": "do " * 99 + ";" + " while (0);" * 99, "switch, 60": "switch (1) { case 1: " * 60 + "}" * 60,
    "calls, 198": "a = " + "f(" * 198 + "0" + ")" * 198 + ";",
    "parentheses, 198": "a = " + "(" * 198 + "0" + ")" * 198 + ";",
    "indices, 198": "a = " + "b[" * 198 + "0" + "]" * 198 + ";", "casts, 198": "a = " + "(long)" * 198 + "0;",
    "signs, 198": "a = " + "- " * 198 + "1;", "sums, 198": "a = 1" + "+1" * 198 + ";",
    "assignments, 199": "a = " * 199 + "0;", "?:, 99": "a = " + "1 ? " * 99 + "1" + " : 1" * 99 + ";",
}


class Input:
    """A folder with words, and the answer that the program has to them where it has memory."""

    def __init__(self, program, name, folder, words):
        self.program, self.name, self.folder, self.words = program, name, folder, words
        self.status, self.answer = self.run()
        if self.status != 0 or not self.answer:
            sys.exit(f"memory.py: {name}: status {self.status}, wrote {self.answer[:200]!r}")

    def run(self, space=None, refuse=None, allocator=None):
        """Runs the program, perhaps under a limit of address space or with an allocator that refuses."""
        env = {**os.environ, "LD_PRELOAD": str(allocator), "REFUSE": refuse} if refuse else os.environ
        limit = (lambda: resource.setrlimit(resource.RLIMIT_AS, (space, space))) if space else None
        try:
            done = subprocess.run([self.program, *self.words], cwd=self.folder, env=env, stdin=subprocess.DEVNULL,
                                  capture_output=True, timeout=SECONDS, preexec_fn=limit)
        except subprocess.TimeoutExpired:
            return f"no end within {SECONDS} seconds", b""
        return (done.returncode if not done.stderr else f"standard error has {done.stderr[:200]!r}"), done.stdout

    def is_whole(self, ended):
        """Whether a run ended with the whole answer."""
        return ended == (self.status, self.answer)

    def fault(self, ended):
        """What is wrong with how a run ended, if anything is."""
        status, out = ended
        if self.is_whole(ended) or (status == 5 and self.answer.startswith(out)):
            return None
        return f"status {status}, wrote {len(out)} bytes, {'' if self.answer.startswith(out) else 'not '}a beginning"


# ---- the inputs


def written(folder, files):
    """Writes files into a new folder."""
    folder.mkdir()
    for name, text in files.items():
        (folder / name).write_text(text, encoding="utf-8")
    return folder


def database():
    """A database of 1 MiB: messages of one signal each."""
    lines, size = [], 0
    while size < 1 << 20:
        number = len(lines)
        lines.append(f"BO_ {2**31 + number} Message{number}: 8 Vector__XXX\n"
                     f" SG_ Signal{number} : {number % 57}|8@1+ (1,0) [0|0] \"\" Vector__XXX\n")
        size += len(lines[-1])
    return "".join(lines[:-1])


def scenario(*items):
    """A scenario of one node with more items."""
    return "\n".join(["scenario 1", "node N n.can", *items]) + "\n"


def inputs(program, folder):
    """The inputs that the program takes."""
    body = ROOT / "examples" / "body-bus"
    yield Input(program, "hello", ROOT / "examples" / "hello", ["window", "hello.scn"])
    for command in ("run", "check", "profile"):
        yield Input(program, f"five nodes, {command}", body, [command, "body.scn"])
    source = "variables { message Message7 m; } on start { m.Signal7 = 5; output(m); } on message * { write(\"m\"); }"
    files = {"s.scn": scenario("database d.dbc"), "n.can": source, "d.dbc": database()}
    yield Input(program, "a database of 1 MiB", written(folder / "database", files), ["run", "s.scn"])
    log = "".join(f"({it // 100}.{it % 100:02}0000) can0 123#{it:08X}\n" for it in range(500))
    files = {"s.scn": scenario("replay r.log"), "n.can": "on message * { write(\"%d\", this.time); }", "r.log": log}
    replay = written(folder / "replay", files)
    if subprocess.run([program, "check", "s.scn"], cwd=replay, stdout=subprocess.DEVNULL).returncode == 0:
        yield Input(program, "a replay of 500 frames", replay, ["run", "s.scn"])
    files = {"s.scn": scenario(), "n.can": "on start { " + "if (1) " * 198 + "write(\"deep\"); }"}
    yield Input(program, "the deepest nesting", written(folder / "deep", files), ["run", "s.scn"])


# ---- the runs


def spread(count, most):
    """The numbers from 1 to a count, or as many of them as may be tried."""
    return range(1, count + 1, max(1, -(-count // most)))


def first_space(one, whole=False):
    """About the least address space under which the program begins, or under which its answer is whole."""
    low, high = 0, MOST
    while high - low > PAGE:
        middle = (low + high) // 2 // PAGE * PAGE
        ended = one.run(space=middle)
        low, high = (low, middle) if (one.is_whole(ended) if whole else ended[0] in (0, 5)) else (middle, high)
    return high


def under_limits(one, low, most):
    """The faults of an input under limits of address space from a least one on, and what was tried."""
    high = first_space(one, whole=True) + CALM * PAGE
    spaces = [low + PAGE * it for it in spread((high - low) // PAGE, most)]
    faults = [(f"{it // 1024} KB of address space", one.fault(one.run(space=it))) for it in spaces]
    return faults, f"{len(spaces)} limits from {low // 1024} to {high // 1024} KB"


def requests_of(one, allocator):
    """How many requests an input needs."""
    low, high = 0, 1 << 32
    while high - low > 1:
        middle = (low + high) // 2
        is_enough = one.is_whole(one.run(refuse=f"{middle}+", allocator=allocator))
        low, high = (low, middle) if is_enough else (middle, high)
    return low


def under_refusals(one, allocator, most):
    """The faults of an input where requests are refused, and what was tried."""
    count = requests_of(one, allocator)
    numbers = [f"{it}{sign}" for sign in ("", "+") for it in spread(count, most)]
    if not numbers:
        return [("the allocator", "it is not asked, so nothing was tried")], "no runs that refuse"
    faults = [(f"request {it} refused", one.fault(one.run(refuse=it, allocator=allocator))) for it in numbers]
    return faults, f"{len(numbers)} runs that refuse of {count} requests"


def least_stack(program, folder):
    """The least stack with which a scenario is taken, in bytes."""
    low, high = 0, 8 << 20
    while high - low > 1024:
        middle = (low + high) // 2
        limit = lambda: resource.setrlimit(resource.RLIMIT_STACK, (middle, middle))
        done = subprocess.run([program, "check", "s.scn"], cwd=folder, capture_output=True, preexec_fn=limit)
        low, high = (low, middle) if done.returncode == 0 else (middle, high)
    return high


def tell_stacks(program, folder):
    """Prints with how much stack each of the deepest nestings is taken."""
    for number, (name, text) in enumerate(NESTED.items()):
        source = f"variables {{ long b[2]; }} long f(long x) {{ return x; }} on start {{ long a; {text} }}"
        where = written(folder / str(number), {"s.scn": scenario(), "n.can": source})
        print(f"{name}: {least_stack(program, where) / 1024:.0f} KB", flush=True)


def run_day(program, folder, milliseconds):
    """Whether a run with a frame and a line in each of so many milliseconds has room, which it prints."""
    source = ("variables { msTimer t; message 0x100 m = {dlc = 8}; } on start { setTimerCyclic(t, 1); } "
              "on timer t { output(m); } on message * { write(\"frame\"); }")
    files = {"s.scn": scenario(f"until {milliseconds}"), "n.can": source}
    hello = Input(program, "hello", ROOT / "examples" / "hello", ["window", "hello.scn"])
    space = first_space(hello) + BEYOND
    limit = lambda: resource.setrlimit(resource.RLIMIT_AS, (space, space))
    start = time.monotonic()
    with subprocess.Popen([program, "run", "s.scn"], cwd=written(folder / "day", files), stdin=subprocess.DEVNULL,
                          stdout=subprocess.PIPE, preexec_fn=limit) as run:
        lines = sum(chunk.count(b"\n") for chunk in iter(lambda: run.stdout.read(1 << 20), b""))
    # The last frame begins at the end moment and has not ended by then.
    wanted = 2 * (milliseconds - 1)
    print(f"{milliseconds} ms: status {run.returncode}, {lines} lines of {wanted}, under {space >> 10} KB of address space, "
          f"in {time.monotonic() - start:.0f} s", flush=True)
    return run.returncode == 0 and lines == wanted


def built(folder):
    """The allocator, compiled, or none where it cannot be."""
    if not shutil.which("gcc"):
        return None
    (folder / "refuse.c").write_text(ALLOCATOR, encoding="utf-8")
    options = ["-O1", "-shared", "-fPIC", "-fno-builtin"]
    subprocess.run(["gcc", *options, "-o", "refuse.so", "refuse.c"], cwd=folder, check=True)
    return folder / "refuse.so"


def main():
    parser = argparse.ArgumentParser(description=__doc__, formatter_class=argparse.RawDescriptionHelpFormatter)
    parser.add_argument("program", type=lambda it: str(pathlib.Path(it).resolve()))
    parser.add_argument("--stack", action="store_true")
    parser.add_argument("--day", nargs="?", type=int, const=DAY)
    parser.add_argument("--runs", type=int, default=3000)
    words = parser.parse_args()
    bad = 0
    with tempfile.TemporaryDirectory(prefix="memory-") as keep:
        folder = pathlib.Path(keep)
        if words.stack:
            tell_stacks(words.program, folder)
            return 0
        if words.day:
            return 0 if run_day(words.program, folder, words.day) else 1
        allocator = built(folder)
        if not allocator:
            print("no gcc, so only the limits are tried")
        least = None
        for one in inputs(words.program, folder):
            least = least or first_space(one)
            trials = [under_limits(one, least, words.runs)]
            trials += [under_refusals(one, allocator, words.runs)] if allocator else []
            for faults, what in trials:
                found = [(at, fault) for at, fault in faults if fault]
                bad += len(found)
                print(f"{one.name}: {what}: {len(found)} faults", flush=True)
                for at, fault in found[:5]:
                    print(f"    {at}: {fault}")
    return 1 if bad else 0


if __name__ == "__main__":
    sys.exit(main())
