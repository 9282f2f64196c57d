#!/usr/bin/env python3
"""Times the machine of stack_vm against its twin by hand in Rust.

    run.py [--rounds N] [--turns N] [--core N] [--counts] [--folder FOLDER]

Builds the program of program.txt over the crates of this repository, and twin.rs twice, with and
without tests of bounds (rustc -O). Then it runs the codes of codes.txt, each N rounds (11 if not
given): the three programs in turn, pinned to one core. Of each round it takes the ratio of the
machine's processor time to that of each twin, and prints the median, the least and the greatest of
these, and the shortest time of each program. Before that each code has to end in the same cells in
all three programs.

With --counts it also prints how many processor instructions a turn takes, as valgrind's callgrind
counts them.

The build takes place in a temporary folder, or in FOLDER, which is kept. The libraries that it stands on are built in
out/ of their crates; those that were not proved before are proved first, which takes long.
"""
import argparse
import os
import pathlib
import re
import shutil
import statistics
import subprocess
import sys
import tempfile

HERE = pathlib.Path(__file__).resolve().parent
ROOT = HERE.parent
PROGRAM = "machine_bench"
STANDS_ON = "stack_vm bytecode vm_host run_effects signal_codec can_frame int_kinds texts items message_cells write_format".split()
KINDS = "Byte Word Dword Qword Int Long Int64 Char".split()
OPERATORS = "Or Xor And Equal NotEqual Less LessEqual Greater GreaterEqual Shl Shr Add Sub Mul Div Rem".split()
LAYOUTS = {"LITTLE": (3, 12, "false", "true"), "BIG": (29, 17, "true", "false")}
# What is measured runs as `capl` runs the program: with large pages, unless malloc is told otherwise.
os.environ.setdefault("GLIBC_TUNABLES", "glibc.malloc.hugetlb=1")
TURNS = 20_000_000
FEW_TURNS = 20_000
MACHINE, TWIN, UNCHECKED = "machine", "twin", "unchecked"


def stop(why):
    """Ends the script with a line that says why."""
    sys.exit(f"run.py: {why}")


# ---- the codes


def codes():
    """The codes by name: of each its functions (first place, end, whether it gives a number) and its
    instructions with their depths."""
    found = {}
    for line in (HERE / "codes.txt").read_text(encoding="utf-8").splitlines():
        if not line or line.startswith("#"):
            continue
        if line.startswith("function"):
            functions.append([len(rows), len(rows), line.endswith(" gives")])
        elif line[0].isdigit():
            depth, instr = line.split(" ", 1)
            rows.append((int(depth), instr))
            functions[-1][1] = len(rows)
        else:
            functions, rows = found[line] = [], []
    return found


def in_full(instr):
    """An instruction as both languages write it."""
    name, bracket, operands = instr.partition("(")
    for kind in KINDS:
        operands = re.sub(rf"\b{kind}\b", f"Kind::{kind}", operands)
    for operator in OPERATORS:
        operands = re.sub(rf"\b{operator}\b", f"BinOp::{operator}", operands)
    return f"Instr::{name}{bracket}{operands}"


def table(name, kind, items):
    """A table as both languages write it."""
    return f"static {name}: [{kind}; {len(items)}] = [{', '.join(items)}];\n"


def tables(function, lists):
    """The tables of all codes that are named in `lists`, with functions as given."""
    text = f"/// The turns of the codes as they stand.\npub const TURNS: i128 = {TURNS};\n\n"
    for name, (start, length, big, signed) in LAYOUTS.items():
        text += f"const {name}: Layout = Layout {{ start: {start}, len: {length}, big: {big}, signed: {signed} }};\n\n"
    for name, (functions, rows) in codes().items():
        found = {
            "FUNCTIONS": (function[0], [function[1](*it) for it in functions]),
            "INSTRS": ("Instr", [in_full(instr) for _, instr in rows]),
            "DEPTHS": ("u32", [str(depth) for depth, _ in rows]),
        }
        text += "".join(table(f"{name.upper()}_{it}", *found[it]) for it in lists) + "\n"
    return text


def arms(lists):
    """The arms of a match by name."""
    return "".join(
        f'        "{name}" => Some(({", ".join(f"&{name.upper()}_{it}" for it in lists)})),\n' for name in codes()
    )


def rust_codes():
    """The codes in Rust."""
    return (
        "//! The codes.\n\nuse crate::{BinOp, Instr, Kind, Layout};\n\n"
        + tables(("u32", lambda start, end, gives: str(start)), ("FUNCTIONS", "INSTRS"))
        + "/// The first places of the functions, and the instructions, of a code.\n"
        "pub fn code(name: &str) -> Option<(&'static [u32], &'static [Instr])> {\n    match name {\n"
        + arms(("FUNCTIONS", "INSTRS"))
        + "        _ => None,\n    }\n}\n"
    )


def rattle_codes():
    """The codes in Rattle."""
    function = lambda start, end, gives: f"Fun {{ start: {start}, end: {end}, gives: {str(gives).lower()} }}"
    return (
        "// The codes.\n\nuse bytecode::{Fun, Instr};\nuse int_kinds::{BinOp, Kind};\nuse signal_codec::Layout;\n\n"
        + tables(("Fun", function), ("FUNCTIONS", "INSTRS", "DEPTHS"))
        + "/// The functions, the instructions and their depths, of a code.\n"
        "pub fn code(name: &str) -> Option<(&'static [Fun], &'static [Instr], &'static [u32])> {\n    match name {\n"
        + arms(("FUNCTIONS", "INSTRS", "DEPTHS"))
        + "        _ => None,\n    }\n}\n"
    )


# ---- the programs


def call(words, folder):
    """Runs a command in a folder, and stops where it fails."""
    done = subprocess.run(words, cwd=folder, stdout=subprocess.PIPE, stderr=subprocess.STDOUT, text=True)
    if done.returncode:
        stop(f"{' '.join(map(str, words))} failed in {folder}:\n{done.stdout}")


def crates_below(stands_on):
    """The crates that a program stands on with all below, and what each of them lists."""
    lines = {}
    for line in (ROOT / "crates.txt").read_text(encoding="utf-8").splitlines():
        if line and not line.startswith("#"):
            name, _, below = line.partition(":")
            lines[name] = below.split()
    needed, open_ones = set(), list(stands_on)
    while open_ones:
        name = open_ones.pop()
        if name in lines and name not in needed:
            needed.add(name)
            open_ones += lines[name]
    return {name: below for name, below in lines.items() if name in needed}


def build_program(folder, name, stands_on, sources):
    """Builds a program of these sources, each by the name of its file, over crates of this repository, whose libraries
    it builds first where they stand."""
    for each in stands_on:
        call(["rt", "lib"], ROOT / "crates" / each)
    below = crates_below(stands_on)
    crate = folder / "crates" / name
    (crate / "src").mkdir(parents=True, exist_ok=True)
    for each in below:
        work = shutil.ignore_patterns("incremental")
        shutil.copytree(ROOT / "crates" / each, folder / "crates" / each, ignore=work, dirs_exist_ok=True)
    lines = [f"{each}: {' '.join(uses)}" for each, uses in below.items()]
    lines.append(f"{name}: {' '.join(stands_on)}")
    (folder / "crates.txt").write_text("\n".join(lines) + "\n", encoding="utf-8")
    for file, text in sources.items():
        (crate / "src" / file).write_text(text, encoding="utf-8")
    program = crate / "out" / name
    # Without words the program ends at once with status 2; building it is what counts here.
    subprocess.run(["rt", "run"], cwd=crate, stdin=subprocess.DEVNULL, stdout=sys.stderr)
    if not program.exists():
        stop(f"the program was not built in {crate}")
    return program


def build_machine(folder):
    """Builds the program over stack_vm."""
    main = (HERE / "program.txt").read_text(encoding="utf-8")
    return build_program(folder, PROGRAM, STANDS_ON, {"main.rt": main, "codes.rt": rattle_codes()})


def build_twin(folder, name, flags):
    """Builds the twin."""
    program = folder / name
    call(["rustc", "--edition", "2024", "-O", *flags, "-o", program, "twin.rs"], folder)
    return program


def build(folder):
    """Builds the three programs."""
    shutil.copy(HERE / "twin.rs", folder)
    (folder / "codes.rs").write_text(rust_codes(), encoding="utf-8")
    return {
        MACHINE: build_machine(folder),
        TWIN: build_twin(folder, TWIN, []),
        UNCHECKED: build_twin(folder, UNCHECKED, ["--cfg", "unchecked"]),
    }


# ---- the figures


def timed(program, name, turns, core):
    """What a program prints, and the processor seconds that it takes."""
    pin = lambda: os.sched_setaffinity(0, {core})
    run = subprocess.Popen([program, name, str(turns)], stdout=subprocess.PIPE, preexec_fn=pin, text=True)
    said = run.stdout.read()
    _, status, usage = os.wait4(run.pid, 0)
    run.returncode = os.waitstatus_to_exitcode(status)
    if run.returncode:
        stop(f"{program} {name} {turns} ended with status {run.returncode}")
    return said, usage.ru_utime + usage.ru_stime


def compare_answers(programs, name, core):
    """Stops where the programs do not end in the same cells."""
    said = {which: timed(program, name, FEW_TURNS, core)[0] for which, program in programs.items()}
    if len(set(said.values())) != 1 or not said[MACHINE].startswith("Done"):
        stop(f"the programs differ on {name}: {said}")


def counted(program, name, folder):
    """How many processor instructions a turn takes, by two runs of which one has 1000 turns more."""
    totals = []
    for turns in (1000, 2000):
        words = ["valgrind", "--tool=callgrind", "--callgrind-out-file=/dev/null", program, name, str(turns)]
        done = subprocess.run(words, cwd=folder, capture_output=True, text=True)
        found = re.search(r"Collected : (\d+)", done.stderr)
        if not found:
            stop(f"callgrind gave no count:\n{done.stderr}")
        totals.append(int(found[1]))
    return (totals[1] - totals[0]) / 1000


def processor():
    """The name of the processor, as lscpu gives it, and what malloc is told."""
    said = subprocess.run(["lscpu"], capture_output=True, text=True).stdout
    names = {key.strip(): value.strip() for key, _, value in (line.partition(":") for line in said.splitlines())}
    model = " ".join(f"{key} {names[key]}" for key in ("CPU family", "Model") if key in names)
    told = os.environ["GLIBC_TUNABLES"] or "nothing"
    return f"{names.get('Model name', 'unknown')} ({model}, {names.get('CPU(s)', '?')} processors); malloc is told {told}"


def spread(ratios):
    """The median of ratios, with the least and the greatest."""
    return f"{statistics.median(ratios):.2f} ({min(ratios):.2f} to {max(ratios):.2f})"


def report(programs, name, words):
    """Prints a line of figures for a code."""
    times = {which: [] for which in programs}
    for _ in range(words.rounds):
        for which, program in programs.items():
            times[which].append(timed(program, name, words.turns, words.core)[1])
    ratios = {other: [a / b for a, b in zip(times[MACHINE], times[other])] for other in (TWIN, UNCHECKED)}
    least = "  ".join(f"{min(times[which]):.2f}" for which in programs)
    print(f"{name:10} {spread(ratios[TWIN]):24} {spread(ratios[UNCHECKED]):24} {least}", flush=True)


def main():
    parser = argparse.ArgumentParser(description=__doc__, formatter_class=argparse.RawDescriptionHelpFormatter)
    parser.add_argument("--rounds", type=int, default=11)
    parser.add_argument("--turns", type=int, default=TURNS)
    parser.add_argument("--core", type=int, default=max(os.sched_getaffinity(0)))
    parser.add_argument("--counts", action="store_true")
    parser.add_argument("--folder", type=pathlib.Path)
    parser.add_argument("--code", action="append", choices=list(codes()))
    words = parser.parse_args()
    with tempfile.TemporaryDirectory(prefix="machine-bench-") as temporary:
        folder = words.folder.resolve() if words.folder else pathlib.Path(temporary)
        folder.mkdir(parents=True, exist_ok=True)
        programs = build(folder)
        names = words.code or list(codes())
        for name in names:
            compare_answers(programs, name, words.core)
        print(processor())
        if words.counts:
            print("processor instructions a turn: machine, twin, twin without tests of bounds")
            for name in names:
                counts = [counted(program, name, folder) for program in programs.values()]
                print(f"{name:10} " + "  ".join(f"{count:.0f}" for count in counts), flush=True)
        print(f"{words.turns} turns, {words.rounds} rounds; median, least and greatest ratio; least seconds of each")
        print(f"{'':10} {'to the twin':24} {'without tests of bounds':24} machine twin unchecked")
        for name in names:
            report(programs, name, words)


if __name__ == "__main__":
    main()
