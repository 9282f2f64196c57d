#!/usr/bin/env python3
"""Compares docs/trust.md with the definitions that the clauses of `simulate` rest on.

    trust.py            compares
    trust.py --rows     prints the rows as they have to stand in the page

The clauses stand in the file of sim_run's src/ that declares `simulate`, and the
premises in the traits of sim_outside that the program meets the outside by. From the
names that stand in these clauses, the script follows names from definition to
definition, within this repository. The files of the definitions that it finds, no more
and no less, have to be the numbered rows of the page, each after those that it uses,
with their numbers of lines, and of lines of code of the definitions that were found:
other definitions, imports, comments and blank lines are no such lines. The page has to
state how many files, lines and lines of code they are together. It also has to list the
files of src/ whose types these definitions speak of.

Prints a line for each difference. The last line is 'N files, M lines, K of code' of what
was found.
"""
import pathlib
import re
import sys

ROOT = pathlib.Path(__file__).resolve().parent.parent
PAGE = ROOT / "docs" / "trust.md"
TRAITS = ("crates/sim_outside/src/files.rt", "crates/sim_outside/src/sink.rt")

# `use Rattle.CRATE.specs.A.B.{x, y}` or `use Rattle.CRATE.specs.A.B as z`, perhaps with `ghost` and `;`.
USE = re.compile(r"\s*(?:ghost |pub )*use Rattle\.([a-z_0-9]+)\.specs\.([A-Za-z_0-9.«»]+?)(?:\.\{([^}]*)\}| as (\S+?))?;?\s*$")
WORD = re.compile(r"[^\s(){}\[\],;.]+")

# What a definition may begin with, and its name before its type.
KEYWORDS = {"abbrev", "data", "mutual", "pattern", "pub", "record", "unfoldable"}
TYPED = re.compile(r"(?:(?:abbrev|pattern|pub|unfoldable) )*(\S+) :(?: |$)")


def clauses_of(text, name):
    """The clauses of a function: from its name to the brace that opens its body."""
    start = re.search(rf"\bfn {name}\b", text).start()
    end = text.index("\n{\n", start)
    return text[start:end]


def imports(text):
    """The imports from the specs/ of this repository's crates: ({name: (crate, module, its name there)}, {name of
    a module: (crate, module)})."""
    names, modules = {}, {}
    for crate, module, listed, alias in (found.groups() for found in map(USE.match, text.split("\n")) if found):
        if not (ROOT / "crates" / crate).is_dir():
            continue
        if alias:
            modules[alias] = crate, module
        for part in filter(None, map(str.strip, (listed or "").split(","))):
            there, _, here = part.partition(" as ")
            names[here or there] = crate, module, there
    return names, modules


def is_named(name, words):
    """Whether a name stands among the words; an operator does where its parts do."""
    return all(part in words for part in name.split("◌") if part)


class Definitions:
    """The definitions of a file, each with the names that it gives and its lines of code."""

    def __init__(self, path):
        text = path.read_text(encoding="utf-8")
        self.path = path
        self.names, self.modules = imports(text)
        self.blocks = []
        for line in text.split("\n"):
            if line.strip() and not line.strip().startswith("--") and not re.match(r"(?:pub )?use ", line):
                self.take(line)

    def take(self, line):
        """One more line of code: of a further definition, or of the last one."""
        words = line.split()
        typed = TYPED.match(line.strip() if self.in_mutual(line) else line)
        if not line[0].isspace() and (words[0] in KEYWORDS or typed):
            self.blocks.append((set(), []))
            if words[-1] != "mutual":
                self.blocks[-1][0].add(next(word for word in words if word not in KEYWORDS))
        elif typed:
            self.blocks[-1][0].add(typed.group(1))
        self.blocks[-1][1].append(line)

    def in_mutual(self, line):
        """Whether a line begins a definition inside `mutual`, whose definitions stand two blanks further right."""
        return bool(self.blocks) and self.blocks[-1][1][0].endswith("mutual") and re.match(r"  \S", line) is not None

    def block_of(self, name):
        """The number of the definition that gives a name, be it that of a field or of a variant."""
        for number, (names, _) in enumerate(self.blocks):
            if name in names:
                return number
        return next(number for number, (_, lines) in enumerate(self.blocks) if name in WORD.findall("\n".join(lines)))

    def named_in(self, text):
        """What is named in a text: definitions of this file by number, and (crate, module, name) of others."""
        words = set(WORD.findall(text))
        own = [number for number, (names, _) in enumerate(self.blocks) if any(is_named(name, words) for name in names)]
        others = [there for name, there in self.names.items() if is_named(name, words)]
        for alias, (crate, module) in self.modules.items():
            others += [(crate, module, name) for name in re.findall(rf"\b{alias}\.([^\s(){{}}\[\],;.]+)", text)]
        return own, others


def types_file(crate, module):
    """The file of src/ that declares what a module of `declared` is about."""
    parts = module.split(".")[1:]
    src = ROOT / "crates" / crate / "src"
    for length in range(len(parts), 0, -1):
        path = src.joinpath(*parts[:length]).with_suffix(".rt")
        if path.is_file():
            return path
    return src / "lib.rt"


def spec_file(crate, module):
    """The definition file of a module."""
    return (ROOT / "crates" / crate / "specs").joinpath(*module.split(".")).with_suffix(".antt")


def roots():
    """What the clauses and the traits name, and the files that they stand in."""
    top = next(path for path in sorted((ROOT / "crates/sim_run/src").rglob("*.rt"))
               if re.search(r"^pub fn simulate\b", path.read_text(encoding="utf-8"), re.M))
    text = top.read_text(encoding="utf-8")
    words = set(WORD.findall(clauses_of(text, "simulate")))
    named = [there for name, there in imports(text)[0].items() if is_named(name, words)]
    for trait in TRAITS:
        named += imports((ROOT / trait).read_text(encoding="utf-8"))[0].values()
    return named, {top} | {ROOT / trait for trait in TRAITS}


def closure():
    """What the clauses rest on: {definition file: (the definition files that it uses, its lines of code)}, and the
    files of types."""
    waiting, types = roots()
    files, reached, uses = {}, set(), {}
    while waiting:
        crate, module, name = waiting.pop()
        if module.split(".")[0] == "declared":
            types.add(types_file(crate, module))
            continue
        path = spec_file(crate, module)
        file = files.setdefault(path, None) or Definitions(path)
        files[path] = file
        numbers = [file.block_of(name)]
        while numbers:
            number = numbers.pop()
            if (path, number) in reached:
                continue
            reached.add((path, number))
            own, others = file.named_in("\n".join(file.blocks[number][1]))
            numbers += own
            waiting += others
            uses.setdefault(path, set()).update(spec_file(c, m) for c, m, _ in others if m.split(".")[0] != "declared")
    code = {path: sum(len(files[path].blocks[number][1]) for where, number in reached if where == path) for path in uses}
    return {path: (used - {path}, code[path]) for path, used in uses.items()}, types


def lines_of(path):
    """How many lines a file has."""
    return len(path.read_text(encoding="utf-8").splitlines())


def code_of(uses):
    """How many lines of code all definitions have that were found."""
    return sum(code for _, code in uses.values())


def name_of(path):
    """A file's name in the page."""
    return str(path.relative_to(ROOT))


def differences(uses, types, page):
    """How the page differs from what was found."""
    rows = re.findall(r"^\| (\d+) \| `?(crates/\S+?\.antt)`? \| (\d+) \| (\d+) \|", page, re.M)
    listed = [path for _, path, _, _ in rows]
    found = {name_of(path): path for path in uses}
    for path in sorted(set(found) - set(listed)):
        yield f"{path} is missing in the page"
    for path in sorted(set(listed) - set(found)):
        yield f"{path} stands in the page, and no clause rests on it"
    seen = set()
    for i, (number, path, lines, code) in enumerate(rows):
        if int(number) != i + 1:
            yield f"{path} has the number {number}, not {i + 1}"
        if path in seen:
            yield f"{path} stands twice in the page"
        seen.add(path)
        if path not in found:
            continue
        if int(lines) != lines_of(found[path]):
            yield f"{path} has {lines_of(found[path])} lines, not {lines}"
        if int(code) != uses[found[path]][1]:
            yield f"{path} has {uses[found[path]][1]} lines of code that are found, not {code}"
        for used in sorted(map(name_of, uses[found[path]][0])):
            if used not in seen:
                yield f"{path} stands before {used}, which it uses"
    total = f"{len(uses)} files with {sum(map(lines_of, uses)):,} lines, {code_of(uses):,} of them code"
    if total not in page:
        yield f"the page does not say '{total}'"
    for path in sorted(map(name_of, types)):
        if f"`{path}`" not in page:
            yield f"{path} is missing among the files of types and clauses"


def in_reading_order(uses):
    """The definition files, each after those that it uses."""
    order = []

    def visit(path):
        if path not in order:
            for used in sorted(uses[path][0]):
                visit(used)
            order.append(path)

    for path in sorted(uses):
        visit(path)
    return order


def row(number, path, code):
    """The row of a definition file, with the comment that it begins with."""
    about = []
    for line in path.read_text(encoding="utf-8").split("\n"):
        if not line.startswith("--"):
            break
        about.append(line.lstrip("- "))
    return f"| {number} | `{name_of(path)}` | {lines_of(path)} | {code} | {' '.join(about)} |"


def main():
    uses, types = closure()
    if sys.argv[1:] == ["--rows"]:
        for number, path in enumerate(in_reading_order(uses)):
            print(row(number + 1, path, uses[path][1]))
        return 0
    faults = list(differences(uses, types, PAGE.read_text(encoding="utf-8") if PAGE.is_file() else ""))
    for fault in faults:
        print(fault)
    print(f"{len(uses)} files, {sum(map(lines_of, uses))} lines, {code_of(uses)} of code")
    return 1 if faults or not uses else 0


if __name__ == "__main__":
    sys.exit(main())
