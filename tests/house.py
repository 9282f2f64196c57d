#!/usr/bin/env python3
"""Checks the house rules that a machine can check.

    house.py [CRATE ..]

Of each crate, or of those that are named:

- a line of src/ or specs/ has at most 110 columns, unless it imports names;
- each file begins with a comment that says what it is about;
- each function of src/ has a `///` line, but for tests and for methods of a trait's
  impl, which have their trait's;
- each definition of specs/, and each lemma of proofs/ that other files may use, has a
  comment line directly above it;
- no file has more than 800 lines;
- crates.txt lists with it only crates that its files name.

Where no crate is named, also that docs/crates.md has the headings and crates of crates.txt, in its order: a
heading is a comment directly above a crate there, and a `## ` line above a row that begins with a crate's
name in backquotes here.

Prints a line for each fault. The last line is 'N files, M faults'.
"""
import pathlib
import re
import sys

ROOT = pathlib.Path(__file__).resolve().parent.parent
COLUMNS = 110
LINES = 800

IMPORT = re.compile(r"\s*(ghost |pub )*use ")
FUNCTION = re.compile(r"\s*(pub(\([a-z]+\))? )?(final )?(const )?(unsafe )?fn [a-z_0-9]+")
TRAIT_IMPL = re.compile(r"(unsafe )?impl\b[^{]*\bfor\b", re.S)
DEFINITION = re.compile(r"(abbrev |unfoldable )?(pub )?(data |record |[^\s:(){}\[\]-][^\s:]* :( |$))")
# Words that begin a line of an .antt file which is no definition.
OTHER = ("use ", "pub use ", "pub mod ", "mod ", "module ", "where", "ruleset ", "pub ruleset ",
         "infix", "unfolding ", "pub package ", "package ", "--")


def doc_above(lines, i, marker, between):
    """Whether the line above i, past the lines that may stand between, begins with the marker."""
    i -= 1
    while i >= 0 and lines[i].strip().startswith(between):
        i -= 1
    return i >= 0 and lines[i].strip().startswith(marker)


def attributes_start(lines, i):
    """The first line of the attributes and comments that stand above line i."""
    while i > 0 and (lines[i - 1].strip().startswith(("#[", "///", "//")) or lines[i - 1].strip() == ")]"):
        i -= 1
    return i


def is_test(lines, i):
    """Whether the function at line i is a test."""
    return any(line.strip().startswith("#[test]") for line in lines[attributes_start(lines, i):i])


def trait_impls(lines):
    """The numbers of the lines inside the impls of traits."""
    inside = set()
    i = 0
    while i < len(lines):
        if re.match(r"(unsafe )?impl\b", lines[i]):
            head = i
            while head < len(lines) and not lines[head].rstrip().endswith(("{", "{}")):
                head += 1
            text = "\n".join(lines[i:head + 1])
            end = head
            if not lines[head].rstrip().endswith("{}"):
                while end < len(lines) and not lines[end].startswith("}"):
                    end += 1
            if TRAIT_IMPL.match(text):
                inside.update(range(i, end + 1))
            i = end
        i += 1
    return inside


def faults_of_rust(lines):
    """The faults of a file of src/ but for its width: (line, what)."""
    inside = trait_impls(lines)
    for i, line in enumerate(lines):
        if not FUNCTION.match(line) or i in inside or is_test(lines, i):
            continue
        if not doc_above(lines, i, "///", ("#[", ")]", "using(", "crate::", "std::")):
            yield i + 1, "a function without a `///` line"


def faults_of_definitions(lines, public_only):
    """The definitions without a comment: (line, what)."""
    in_mutual = False
    for i, line in enumerate(lines):
        if line and not line[0].isspace():
            in_mutual = bool(re.match(r"(abbrev |unfoldable )?(pub )?mutual\b", line))
            if in_mutual:
                continue
            text = line
        elif in_mutual and re.match(r"  \S", line):
            text = line[2:]
        else:
            continue
        if text.startswith(OTHER) or not DEFINITION.match(text):
            continue
        if public_only and not re.match(r"(abbrev |unfoldable )?pub ", text):
            continue
        if not doc_above(lines, i, "--", ()):
            yield i + 1, "no comment line above " + text.split(" :")[0].split("(")[0].strip()


def faults_of(path, part):
    """The faults of a file of src/, specs/ or proofs/: (line, what)."""
    lines = path.read_text(encoding="utf-8").split("\n")
    if lines and lines[-1] == "":
        lines.pop()
    if len(lines) > LINES:
        yield LINES + 1, f"a file of {len(lines)} lines"
    marker = "--" if path.suffix == ".antt" else "//!" if path.name in ("lib.rt", "main.rt") else "//"
    if not lines or not lines[0].startswith(marker):
        yield 1, f"a file without a head comment, `{marker} ..`"
    if part in ("src", "specs"):
        for i, line in enumerate(lines):
            if len(line) > COLUMNS and not IMPORT.match(line):
                yield i + 1, f"a line of {len(line)} columns"
    if part == "src":
        yield from faults_of_rust(lines)
    elif path.name not in ("Answers.antt", "Invariants.antt", "Proof.antt", "Lib.antt"):
        yield from faults_of_definitions(lines, public_only=part == "proofs")


def listed():
    """What crates.txt lists with each crate."""
    rows = (line.split("#")[0].partition(":") for line in (ROOT / "crates.txt").read_text(encoding="utf-8").split("\n"))
    return {name.split()[0]: below.split() for name, _, below in rows if name.strip()}


def is_named(below, texts):
    """Whether some of the texts name a crate by a path."""
    path = re.compile(rf"\bRattle\.{below}\b|\b{below}::|\buse {below}\b")
    return any(path.search(text) for text in texts)


def faults_of_list(name, below):
    """The crates that are listed with a crate and not named in its files."""
    folder = ROOT / "crates" / name
    files = [path for part in ("src", "specs", "proofs") for path in (folder / part).rglob("*") if path.is_file()]
    texts = [path.read_text(encoding="utf-8") for path in files]
    for other in below:
        if not is_named(other, texts):
            yield f"crates.txt: {name} lists {other}, which none of its files names"


def layers_of(path, heading, crate):
    """The layers of a file in order, each a heading with its crates; a heading without crates is none."""
    layers = []
    for line in path.read_text(encoding="utf-8").split("\n"):
        if found := heading.match(line):
            layers.append((found[1].strip(), []))
        elif (found := crate.match(line)) and layers:
            layers[-1][1].append(found[1])
    return [(name, crates) for name, crates in layers if crates]


def faults_of_page():
    """Where the layers and crates of docs/crates.md are not those of crates.txt."""
    listed = layers_of(ROOT / "crates.txt", re.compile(r"# (.*)"), re.compile(r"([a-z_0-9]+)(?: staticlib)?:"))
    shown = layers_of(ROOT / "docs" / "crates.md", re.compile(r"## (.*)"), re.compile(r"\| `([a-z_0-9]+)` \|"))
    for i in range(max(len(listed), len(shown))):
        name, crates = listed[i] if i < len(listed) else ("", [])
        other, rows = shown[i] if i < len(shown) else ("", [])
        if name != other:
            yield f"docs/crates.md: layer {i + 1} is '{other}', and in crates.txt '{name}'"
        elif crates != rows:
            missing = [crate for crate in crates if crate not in rows]
            more = [crate for crate in rows if crate not in crates]
            what = f"lacks {missing} and has {more} besides" if missing or more else f"is not in the order {crates}"
            yield f"docs/crates.md: layer '{name}' {what}"


def main():
    names = sys.argv[1:] or sorted(path.name for path in (ROOT / "crates").iterdir() if path.is_dir())
    files = faults = 0
    lists = listed()
    for fault in faults_of_page() if not sys.argv[1:] else ():
        faults += 1
        print(fault)
    for name in names:
        for fault in faults_of_list(name, lists.get(name, [])):
            faults += 1
            print(fault)
        for part in ("src", "specs", "proofs"):
            folder = ROOT / "crates" / name / part
            for path in sorted(list(folder.rglob("*.rt")) + list(folder.rglob("*.antt"))):
                files += 1
                for line, what in sorted(faults_of(path, part)):
                    faults += 1
                    print(f"{path.relative_to(ROOT)}:{line}: {what}")
    print(f"{files} files, {faults} faults")
    return 0 if files and not faults else 1


if __name__ == "__main__":
    sys.exit(main())
