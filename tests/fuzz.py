#!/usr/bin/env python3
"""Tries a built program on scenarios that chance makes and breaks.

    fuzz.py PROGRAM [--seed N] [--seconds N | --cases N] [--first N] [--most SECONDS] [--keep FOLDER]
    fuzz.py PROGRAM --self-test

A case is made of the seed and its number alone: a scenario with its sources and perhaps a database (grammar.py), of
which three in five are then broken in bytes, lines or tokens. The program runs all its commands on it, and is held
to what can be seen without a second implementation:

    form        a status that fits what was written, lines of the documented forms, moments that do not fall, nothing
                on standard error, at most a second of processor time (or --most, for a program without optimisation)
    again       the same bytes when run again
    refusals    all commands refuse with the same line, or none does: `check` is `ok` exactly where `run` is done
    tokens      up to the token of an E02 a source could become a program, and with it none, whatever comes next
    parts       `run` is the lines of `window` and of `log`
    picks       with other picks the same log, profile and lines of each node
    prefix      where the output takes only some bytes: status 4, and these bytes of the answer
    reads       where a file that is read cannot be: status 3, and nothing; where it is not there: F01 or E07
    layout      with other blanks and comments between the tokens, and other names of variables, timers and functions,
                the same lines
    end         with a shorter run the lines up to its end
    silence     with one more node, whose source is empty, the same lines
    replay      a recorded log replayed gives itself, also where lines that are passed over were put into it
    words       words that are no command: status 2, and nothing
    constants   a constant has the number that its expression has when it is evaluated in a run

The default is 60 seconds from seed 1. With --first the cases begin at another number, so that one case can be tried
alone: `--first N --cases 1`. A case with a fault is made smaller as long as the fault stays, and kept in a folder
below the one given by --keep. The last line is 'N cases, M runs, K faults'. The status is 1 where there was a fault.

With --self-test the program runs inside small scripts that each do one thing wrong, and each has to be found.
"""
import argparse
import collections
import contextlib
import dataclasses
import os
import pathlib
import random
import re
import resource
import select
import shutil
import signal
import sys
import tempfile
import time

import grammar

# The most processor seconds that a run may take, and the seconds after which it is given up.
MOST = 1.0
WAIT = 20.0

# So many bytes are taken of any output, and so many milliseconds and turns may a scenario ask for to be run at all.
ROOM = 1 << 20
UNTIL = 1000
TURNS = 1000

COMMANDS = ["check", "run", "window", "log", "profile"]
# Rules of a file as a whole, and the letters of those of a line; all others are told with a line and a column.
WHOLE = {"E03", "E04", "E07", "E29", "F01", "F02"}
OF_LINES = ("S", "D", "L")
RULE = re.compile(rb"refused ([^\n]*?)(?::([1-9]\d*)(?::([1-9]\d*))?)? "
                  rb"(S0[1-9]|S1[0-2]|F0[12]|D0[12]|L01|E0[1-9]|E[12]\d)\n")
WINDOW = re.compile(rb"w (0|[1-9]\d*)\.(\d{6}) ([A-Za-z_]\w*) [^\n\r]*\n")
FRAME = re.compile(rb"\((\d{10}|[1-9]\d{10,})\.(\d{6})\) ([\w.-]{1,15}) "
                   rb"([0-7][0-9A-F]{2}|[01][0-9A-F]{7})#((?:[0-9A-F]{2}){0,8}|R[1-8]?)\n")
ROW = re.compile(rb"p [A-Za-z_]\w* \S.*:[1-9]\d* (preStart|start|message|timer|key|stopMeasurement) "
                 rb"(0|[1-9]\d*) (0|[1-9]\d*)\n")

# A token, from where it begins, and what may stand between tokens.
TOKEN = re.compile(rb"""#include[ \t]*"[^"\n]*"|"(?:\\.|[^"\\\n])*"|'(?:\\x[0-9A-Fa-f]{2}|\\.|[^'\\\n])'|\w+|<<=|>>=|[-+*/%&|^<>=!]="""
                   rb"""|&&|\|\||\+\+|--|<<|>>|::|[^\s]""")
BETWEEN = re.compile(rb"(?:\s|//[^\n]*|/\*.*?\*/)*", re.DOTALL)

Ended = collections.namedtuple("Ended", "status out err seconds")


# ---- runs of the program


class Place:
    """A folder in which the program is run, and what is wrong with the form of any of its runs there."""

    def __init__(self, program, folder):
        self.program = program
        self.work = folder / "work"
        self.out, self.err = folder / "out", folder / "err"
        self.runs = 0
        self.faults = []

    def lay(self, case, changes=None):
        """Puts the files of a case there, some perhaps changed: a folder for True, no file for None."""
        shutil.rmtree(self.work, ignore_errors=True)
        for name, data in {**case.files, **(changes or {})}.items():
            path = self.work / (case.folder + name)
            path.parent.mkdir(parents=True, exist_ok=True)
            if data is True:
                path.mkdir()
            elif data is not None:
                path.write_bytes(data)

    def run(self, words, room=ROOM):
        """Runs the program there on words, and gives how it ended; the output takes so many bytes."""
        self.runs += 1
        os.chdir(self.work)
        modes = os.O_WRONLY | os.O_CREAT | os.O_TRUNC
        actions = [(os.POSIX_SPAWN_OPEN, 0, os.devnull, os.O_RDONLY, 0),
                   (os.POSIX_SPAWN_OPEN, 1, self.out, modes, 0o600), (os.POSIX_SPAWN_OPEN, 2, self.err, modes, 0o600)]
        with limited(room):
            one = os.posix_spawn(self.program, [self.program, *words], os.environ, file_actions=actions, setpgroup=0)
        ended = waited(one)
        if isinstance(ended, str):
            self.faults.append(f"form: {words}: {ended}")
            ended = -1, 0.0
        return Ended(ended[0], self.out.read_bytes(), self.err.read_bytes(), ended[1])

    def formed(self, case, words, room=ROOM):
        """Runs the program, and notes what is wrong with the form."""
        ended = self.run(words, room)
        self.faults += [f"form: {' '.join(words)}: {fault}" for fault in faults_of_form(case, words[0], ended, room)]
        return ended


@contextlib.contextmanager
def limited(room):
    """Files take so many bytes from what is started inside. The signal of a file that is too long stays ignored,
    as it is here, so that the write fails."""
    before = resource.getrlimit(resource.RLIMIT_FSIZE)
    resource.setrlimit(resource.RLIMIT_FSIZE, (room, before[1]))
    try:
        yield
    finally:
        resource.setrlimit(resource.RLIMIT_FSIZE, before)


def waited(one):
    """The status and the processor seconds of a process when it has ended, or that it did not."""
    handle = os.pidfd_open(one)
    poll = select.poll()
    poll.register(handle, select.POLLIN)
    ready = poll.poll(1000 * WAIT)
    os.close(handle)
    if not ready:
        os.killpg(one, signal.SIGKILL)
    _, status, usage = os.wait4(one, 0)
    if not ready:
        return f"no end within {WAIT:.0f} seconds"
    return os.waitstatus_to_exitcode(status), usage.ru_utime + usage.ru_stime


# ---- the form of what is written


def lines_of(out):
    """The lines of an output, each with its line feed."""
    return re.findall(rb"[^\n]*\n|[^\n]+", out)


def moment(line):
    """The moment of a line of the window or the log, in microseconds; -1 of a line of no form."""
    match = WINDOW.fullmatch(line) or FRAME.fullmatch(line)
    return int(match[1]) * 1_000_000 + int(match[2]) if match else -1


def faults_of_lines(command, lines):
    """What is wrong with the lines of an answer."""
    forms = {"check": [re.compile(rb"ok\n")], "window": [WINDOW], "log": [FRAME], "run": [WINDOW, FRAME],
             "profile": [ROW]}[command]
    for line in lines:
        if not any(form.fullmatch(line) for form in forms):
            yield f"a line that has no form of {command}: {line[:200]!r}"
            return
    for kind in (b"w", b"("):
        moments = [moment(line) for line in lines if command != "profile" and line.startswith(kind)]
        if moments != sorted(moments):
            yield "the moments fall"
    if command == "check" and len(lines) != 1:
        yield f"check wrote {len(lines)} lines"


def faults_of_refusal(case, out):
    """What is wrong with the line of a refusal."""
    match = RULE.fullmatch(out)
    if not match:
        return [f"no line of a refusal: {out[:200]!r}"]
    file, line, column, rule = match[1], match[2], match[3], match[4].decode()
    if (line is None) != (rule in WHOLE):
        return [f"{rule} is told {'without' if line is None else 'with'} a line: {out!r}"]
    if (column is None) != (rule in WHOLE or rule.startswith(OF_LINES)):
        return [f"{rule} is told {'without' if column is None else 'with'} a column: {out!r}"]
    data = case.files.get(os.fsdecode(file).removeprefix(case.folder))
    if not line or not isinstance(data, bytes):
        return []
    # S12 is told of the line behind the last, which a line feed may end.
    rows = data.split(b"\n") + [b""]
    if int(line) > len(rows):
        return [f"the line is not in the file: {out!r}"]
    # E02 may be told just past the last token.
    if column and int(column) > len(rows[int(line) - 1]) + (rule == "E02"):
        return [f"the column is not in the line: {out!r}"]
    return []


def faults_of_form(case, command, ended, room):
    """What is wrong with how a command ended and with what it wrote, whatever its files are."""
    if ended.err:
        yield f"standard error has {ended.err[:200]!r}"
    if ended.seconds > MOST:
        yield f"{ended.seconds:.2f} seconds of a processor"
    if ended.status == 0:
        yield from faults_of_lines(command, lines_of(ended.out))
    elif ended.status == 1:
        yield from faults_of_refusal(case, ended.out)
    elif ended.status == 3 and ended.out:
        yield f"status 3, and wrote {ended.out[:200]!r}"
    elif ended.status == 4 and len(ended.out) != room:
        yield f"status 4, and wrote {len(ended.out)} bytes where {room} are taken"
    elif ended.status not in (3, 4):
        yield f"status {ended.status}"


# ---- the checks of a case


def number_of(scenario, item, default):
    """The greatest number of the lines of a scenario with this item."""
    found = re.findall(rb"^" + item + rb"[ \t]+(\d+)", scenario, re.MULTILINE)
    return max((int(it) for it in found), default=default)


def is_short(case):
    """Whether a scenario asks for a run that is short enough to be tried."""
    scenario = case.files.get(grammar.SCENARIO, b"")
    return number_of(scenario, b"until", 10000) <= UNTIL and number_of(scenario, b"turns", 100000) <= TURNS


class Trial:
    """A case on a program: what its commands write, and what is wrong with that."""

    def __init__(self, place, case, chance):
        self.place, self.case, self.chance = place, case, chance
        self.said = {}

    def run(self, command, changes=None, room=ROOM):
        """How a command ends on the files of the case, some perhaps changed."""
        if changes:
            self.place.lay(self.case, changes)
        ended = self.place.formed(self.case, [command, self.case.name()], room)
        if changes:
            self.place.lay(self.case)
        return ended

    def faults(self):
        """What is wrong, a line for each difference."""
        self.place.lay(self.case)
        self.place.faults = []
        self.said["check"] = self.run("check")
        if self.said["check"].status != 0 or is_short(self.case):
            for command in COMMANDS[1:]:
                self.said[command] = self.run(command)
        checks = [of_again, of_refusals, of_tokens]
        if self.said["check"].status == 0 and all(it.status == 0 for it in self.said.values()) and len(self.said) > 1:
            checks += [of_parts, of_picks, of_prefix, of_reads, of_layout, of_end, of_silence, of_replay]
        faults = [f"{check.__name__[3:]}: {fault}" for check in checks for fault in check(self)]
        return self.place.faults + faults

    def scenario(self, *more, without=b"-"):
        """The scenario with more lines, and without those that begin with a word."""
        lines = self.case.files[grammar.SCENARIO].removesuffix(b"\n").split(b"\n")
        lines = [it for it in lines if not it.startswith(without)]
        return {grammar.SCENARIO: b"\n".join([*lines, *more]) + b"\n"}


def told_apart(out):
    """The lines of each node, and under an empty name the frames."""
    lines = {}
    for line in lines_of(out):
        lines.setdefault(line.split(b" ", 3)[2] if line.startswith(b"w ") else b"", []).append(line)
    return lines


def differ(what, have, want):
    """A line that says where two outputs differ, or none."""
    if have == want:
        return []
    at = 0
    while at < min(len(have), len(want)) and have[at] == want[at]:
        at += 1
    return [f"{what}: {have[at:at + 2]!r} where {want[at:at + 2]!r} is due, from {at} on"]


def of_again(trial):
    """The same words and files give the same bytes."""
    command = trial.chance.choice(list(trial.said))
    again, before = trial.run(command), trial.said[command]
    return [] if again[:3] == before[:3] else [f"{command} gives other bytes or another status when run again"]


def of_refusals(trial):
    """All commands refuse by the same line, or none does."""
    refusal = lambda ended: ended.out if ended.status == 1 else ended.status if ended.status == 3 else b""
    want = refusal(trial.said["check"])
    return [f"{command} answers {refusal(ended)!r}, and check {want!r}"
            for command, ended in trial.said.items() if refusal(ended) != want]


def wrong_token(case, out):
    """The file of the first wrong token of what is refused so, its bytes and the place of the token."""
    match = RULE.fullmatch(out)
    name = match and os.fsdecode(match[1]).removeprefix(case.folder)
    data = case.files.get(name)
    if not match or match[4] != b"E02" or not isinstance(data, bytes):
        return None
    lines = data.split(b"\n")[:int(match[2]) - 1]
    return name, data, sum(len(line) + 1 for line in lines) + int(match[3]) - 1


def of_tokens(trial):
    """Up to it a source could become a program, and with it none, whatever comes next."""
    refused = trial.said["check"].out
    name, data, place = wrong_token(trial.case, refused) or (None, b"", 0)
    if name is None:
        return
    shorter = {name: data[:place]}
    ended = trial.run("check", shorter)
    again = wrong_token(dataclasses.replace(trial.case, files={**trial.case.files, **shorter}), ended.out)
    if again and again[0] == name and not BETWEEN.fullmatch(data[again[2]:place]):
        yield f"{data[again[2]:place]!r} stands behind what is told of a source up to its wrong token: {ended.out!r}"
    token = TOKEN.match(data, place)
    if token and b"#include" not in data[token.end():]:
        end = trial.chance.choice([b"", b" }", b" ; }", b" 0", b"\non start { }\n"])
        yield from differ("with another end", [trial.run("check", {name: data[:token.end()] + end}).out], [refused])


def of_parts(trial):
    """The lines of a run are those of the window and those of the log."""
    lines = lines_of(trial.said["run"].out)
    for command, kind in (("window", b"w "), ("log", b"(")):
        have, want = lines_of(trial.said[command].out), [line for line in lines if line.startswith(kind)]
        yield from differ(command, have, want)


def of_picks(trial):
    """Picks change only the order of lines of different nodes."""
    changes = trial.scenario(grammar.picks(trial.chance).encode(), without=b"picks")
    yield from differ("profile", *(lines_of(it.out) for it in (trial.run("profile", changes), trial.said["profile"])))
    have, want = told_apart(trial.run("run", changes).out), told_apart(trial.said["run"].out)
    for name in have.keys() | want.keys():
        yield from differ(f"lines of {name!r}", have.get(name, []), want.get(name, []))


def of_prefix(trial):
    """Where the output takes only some bytes, these are those of the answer."""
    command = trial.chance.choice(COMMANDS)
    whole = trial.said[command].out
    room = trial.chance.randrange(len(whole) + 2)
    ended = trial.run(command, room=room)
    status = 4 if room < len(whole) else 0
    if ended.status != status or ended.out != whole[:room]:
        end = ended.out[-60:]
        yield f"{command} with room for {room} of {len(whole)} bytes: status {ended.status}, the end is {end!r}"


def is_read(case, name):
    """Whether a file is one that a run reads for sure."""
    if name == grammar.SCENARIO:
        return True
    item = {grammar.DATABASE: rb"database", grammar.LOG: rb"replay"}.get(name, rb"node[ \t]+\S+")
    line = rb"^" + item + rb"[ \t]+" + re.escape(name.encode()) + rb"\r?$"
    if re.search(line, case.files[grammar.SCENARIO], re.MULTILINE):
        return True
    include = f"#include \"{name}\""
    return any(include in tokens and is_read(case, by) for by, tokens in case.tokens.items() if by != name)


def of_reads(trial):
    """A file that cannot be read ends the program without an answer, and one that is not there is refused."""
    name = trial.chance.choice(sorted(it for it in trial.case.files if is_read(trial.case, it)))
    ended = trial.run("window", {name: True})
    if ended.status != 3 or ended.out:
        yield f"a folder in place of {name}: status {ended.status}, wrote {ended.out[:200]!r}"
    ended = trial.run("window", {name: None})
    rule = "F01" if name in (grammar.SCENARIO, grammar.DATABASE, grammar.LOG) else "E07"
    if ended.status != 1 or ended.out != f"refused {trial.case.folder}{name} {rule}\n".encode():
        yield f"{name} is missing: status {ended.status}, wrote {ended.out[:200]!r}"


def of_layout(trial):
    """Blanks and comments between tokens, and other names of what a program declares, change no line."""
    changes = dict(trial.case.tokens)
    if all(name in changes for name in trial.case.files if name.endswith((".can", ".cin"))):
        seed = trial.chance.randrange(10**6)
        changes = {name: grammar.renamed(seed, tokens) for name, tokens in changes.items()}
    changes = {name: grammar.laid_out(trial.chance, tokens) for name, tokens in changes.items()}
    if changes:
        for command in ("run", "check"):
            yield from differ(command, lines_of(trial.run(command, changes).out), lines_of(trial.said[command].out))


def of_end(trial):
    """A shorter run has the same frames and lines before its end. An epoch would have to be taken off the stamps."""
    if b"epoch" in trial.case.files[grammar.SCENARIO]:
        return
    until = trial.chance.randrange(number_of(trial.case.files[grammar.SCENARIO], b"until", 10000) + 1)
    short = trial.run("run", trial.scenario(b"until %d" % until, without=b"until"))
    have, want = ([line for line in lines_of(out) if moment(line) < 1000 * until]
                  for out in (short.out, trial.said["run"].out))
    yield from differ(f"until {until}", have, want)


def of_silence(trial):
    """A node that does nothing changes nothing."""
    changes = {**trial.scenario(b"node Silent silent.can"), "silent.can": b""}
    if trial.case.files[grammar.SCENARIO].count(b"node") < 60:
        yield from differ("run", lines_of(trial.run("run", changes).out), lines_of(trial.said["run"].out))


def of_replay(trial):
    """A recorded log, perhaps with lines that are passed over, gives itself when it is replayed."""
    if not trial.said["log"].out:
        return
    lines, skipped = [], 0
    for line in lines_of(trial.said["log"].out):
        if trial.chance.random() < 0.1:
            skipped += 1
            lines.append(line.rsplit(b" ", 1)[0] + b" " + grammar.skipped(trial.chance).encode() + b"\n")
        lines.append(line)
    kept = [line for line in trial.case.files[grammar.SCENARIO].splitlines()
            if re.match(rb"(bitrate|interface|epoch)[ \t]", line)]
    scenario = b"\n".join([b"scenario 1", b"node N n.can", *kept, b"until 3000", b"replay r.log", b""])
    changes = {grammar.SCENARIO: scenario, "n.can": b"", "r.log": b"".join(lines)}
    yield from differ("log", lines_of(trial.run("log", changes).out), lines_of(trial.said["log"].out))
    told = trial.run("window", changes).out
    want = b"w 0.000000 replay skipped %d\n" % skipped if skipped else b""
    yield from differ("window", [told], [want])


def faults_of_constants(place, chance):
    """What is wrong with a constant: its number is that of the same expression when it is evaluated in a run."""
    text = " ".join(grammar.constant(chance, 4))
    write = 'write("%I64d %I64d %I64u", {}, v, q);'
    head = "variables { const int64 c = "
    source = (f"{head}{text}; int64 v = {text}; qword q = {text}; }} "
              f"on start {{ {write.format('c')} v = {text}; q = {text}; {write.format('v')} }}")
    case = grammar.Case({"s.scn": b"scenario 1\nnode N n.can\n", "n.can": source.encode()}, {})
    place.lay(case)
    ended = place.run(["window", "s.scn"])
    lines = lines_of(ended.out)
    if ended.status == 1 and ended.out == b"refused n.can:1:%d E19\n" % (len(head) + 1):
        return
    if ended.status or ended.err or len(lines) != 2 or lines[0] != lines[1]:
        yield f"constants: {text}: status {ended.status}, wrote {ended.out[:200]!r}"


def faults_of_words(place, chance):
    """What is wrong with words that are no command."""
    word = lambda: chance.choice([*COMMANDS, "s.scn", "gen", "0", "65", "01", "", "-", "--help", "Check", "check "])
    words = [word() for _ in range(chance.randrange(5))]
    if len(words) == 2 and words[0] in COMMANDS:
        words.append("x")
    ended = place.run(words)
    if ended.status != 2 or ended.out or ended.err:
        yield f"words: {words}: status {ended.status}, wrote {ended.out[:200]!r} and {ended.err[:200]!r}"


# ---- broken cases


def broken_bytes(chance, data):
    """A file with other bytes at some place, or without all that stands behind it."""
    at = chance.randrange(len(data) + 1)
    if chance.random() < 0.1:
        return data[:at]
    to = min(len(data), at + chance.choice([0, 0, 1, 1, 2, 20]))
    one = bytes([chance.choice(b"\n\r\t \"'\\{}()[];,/*#\0\x80")])
    some = chance.randbytes(chance.choice([1, 5]))
    put = chance.choice([b"", b"", one, one, some, some, b"\xef\xbb\xbf", data[:at][-30:]])
    return data[:at] + put + data[to:]


def broken_lines(chance, data):
    """A file with a line dropped, doubled, moved or changed at its end."""
    lines = data.split(b"\n")
    at, to = chance.randrange(len(lines)), chance.randrange(len(lines))
    way = chance.randrange(5)
    if way == 0:
        del lines[at]
    elif way == 1:
        lines.insert(to, lines[at])
    elif way == 2:
        lines[at], lines[to] = lines[to], lines[at]
    elif way == 3:
        lines[at] += chance.choice([b"\r", b" ", b"\t", b" x"])
    else:
        return data.replace(b"\n", b"\r\n")
    return b"\n".join(lines)


def broken_words(chance, data):
    """A file with a word or a sign dropped, doubled, or in place of another, or an edge in place of a number."""
    parts = re.findall(rb"\w+|\s+|[^\w\s]+", data) or [b""]
    at, other = chance.randrange(len(parts)), chance.choice(parts)
    numbers = [number for number, part in enumerate(parts) if part.isdigit()]
    if numbers and chance.random() < 0.5:
        at, other = chance.choice(numbers), str(chance.choice(grammar.EDGES)).encode()
    parts[at] = chance.choice([b"", parts[at] + b" " + parts[at], other, other, other + b" " + parts[at]])
    return b"".join(parts)


def sort_of(token):
    """What a token can be replaced by and mostly still be spelled right: a kind, a name, a number or an operator."""
    if token in grammar.KINDS or token in ("float", "double"):
        return "kind"
    if token.startswith("#include"):
        return "include"
    if token in grammar.BINARY or token in ("/", "%"):
        return "operator"
    if token in grammar.ASSIGNMENTS:
        return "assignment"
    if re.fullmatch(r"[vmtfp]\d+|this|RX|TX|rx|id|dlc|rtr|dir|time|Msg\d+|Sig\d+", token):
        return "name"
    if re.fullmatch(r"\w+|'.*'|\".*\"", token) and (token[0].isdigit() or token[0] in "'\""):
        return "constant"
    return token


def other_meaning(chance, case, name):
    """The tokens of a source with one in place of another of its sort, so that it mostly is spelled right and means
    something else, or breaks a rule on what it means."""
    tokens = list(case.tokens[name])
    others = [it for some in case.tokens.values() for it in some] + [str(it) for it in grammar.EDGES]
    others += 10 * ["this", "float", "#include \"\"", "#include \"none\\cin\""]
    for _ in range(20):
        at, other = chance.randrange(len(tokens) or 1), chance.choice(others)
        if tokens and sort_of(tokens[at]) == sort_of(other) and tokens[at] != other:
            tokens[at] = other
            break
    return tokens


def broken_tokens(chance, case, name):
    """The tokens of a source with some dropped, doubled, repeated or in place of others, also of another file."""
    tokens = list(case.tokens[name])
    others = [it for some in case.tokens.values() for it in some] or [";"]
    at, to = chance.randrange(len(tokens) + 1), chance.randrange(len(others))
    some = others[to:to + chance.choice([1, 1, 1, 2, 5, 20])]
    if chance.random() < 0.1:
        some = chance.choice([["("], ["{"], ["-"], ["(", "long", ")"], ["if", "(", "1", ")"], [";"], ["1", "+"]]) * \
            chance.choice([3, 198, 199, 200, 201, 3000])
    drop = chance.choice([0, 0, 1, 1, len(some)])
    return tokens[:at] + (some if chance.random() < 0.8 else []) + tokens[at + drop:]


def break_case(chance, case):
    """Breaks a case in some places. Of a source of which more than the tokens is broken no tokens are known."""
    for _ in range(chance.choice([1, 1, 1, 2, 3])):
        name = chance.choice(sorted(case.files))
        if name in case.tokens and chance.random() < 0.7:
            way = chance.choice([other_meaning, other_meaning, broken_tokens])
            case.tokens[name] = way(chance, case, name)
            case.files[name] = grammar.plain(case.tokens[name])
        else:
            case.tokens.pop(name, None)
            case.files[name] = chance.choice([broken_bytes, broken_lines, broken_words])(chance, case.files[name])
            case.files[name] = case.files[name][:1_200_000]


# ---- smaller cases


def pieces(case):
    """The parts of the files of a case that can be left out: runs of lines, the longest first, and words."""
    for name in sorted(case.files):
        for pattern in (rb"[^\n]*\n|[^\n]+", rb"\w+|\s+|[^\w\s]"):
            parts = re.findall(pattern, case.files[name])
            size = len(parts)
            while size > 0:
                yield from ((name, parts, at, size) for at in range(0, len(parts), size))
                size //= 2


def smaller(case, still, seconds=60):
    """A case with as little in its files as keeps a fault, found within so many seconds."""
    end = time.monotonic() + seconds
    found = True
    while found:
        found = False
        for name, parts, at, size in pieces(case):
            less = grammar.Case({**case.files, name: b"".join(parts[:at] + parts[at + size:])}, {}, case.folder)
            if time.monotonic() > end:
                return case
            if len(less.files[name]) < len(case.files[name]) and still(less):
                case, found = less, True
                break
    return case


def kept(place, folder, case, number, faults):
    """Keeps the files of a case, made smaller where its fault allows, and says where."""
    kind = faults[0].split(":")[0]
    chance = lambda: random.Random(number)
    still = lambda it: any(fault.startswith(kind + ":") for fault in Trial(place, it, chance()).faults())
    small = smaller(case, still) if still(grammar.Case(case.files, {}, case.folder)) else case
    for files, part in ((case, "whole"), (small, "small")):
        for name, data in files.files.items():
            path = folder / str(number) / part / (files.folder + name)
            path.parent.mkdir(parents=True, exist_ok=True)
            path.write_bytes(data)
    (folder / str(number) / "faults").write_text("\n".join(faults) + "\n", encoding="utf-8")
    return folder / str(number)


# ---- the program


def made(seed, number):
    """The case with a number of a seed, perhaps broken, and the source of chance for its checks."""
    chance = random.Random(f"{seed} {number}")
    case = grammar.case(chance)
    if chance.random() < 0.6:
        break_case(chance, case)
    return case, chance


def fuzz(program, words, folder, enough=lambda faults: False):
    """Tries cases on a program until faults are enough, and gives the numbers of cases, runs and faults."""
    place = Place(program, folder)
    end = time.monotonic() + words.seconds if words.cases is None else float("inf")
    number, faulty = words.first, 0
    while time.monotonic() < end and (words.cases is None or number < words.first + words.cases):
        case, chance = made(words.seed, number)
        faults = Trial(place, case, chance).faults()
        faults += [*faults_of_words(place, chance), *faults_of_constants(place, chance)]
        number += 1
        if faults:
            faulty += 1
            report(place, words, case, number - 1, faults)
        if enough(faults):
            break
    return number - words.first, place.runs, faulty


def report(place, words, case, number, faults):
    """Says what is wrong with a case, and keeps it where that was asked for."""
    if words.quiet:
        return
    print(f"FAIL case {number} of seed {words.seed}")
    for fault in faults:
        print(f"    {fault[:400]}")
    if words.keep:
        print(f"    kept in {kept(place, words.keep, case, number, faults)}", flush=True)


# The right program inside a script, and wrong ones: what is wrong, the check that has to find it, and the script, in
# which P is the program, "$@" are its words, $2 names the scenario, and $T is a file of the script's own.
RIGHT = 'P "$@"'


def where(test, change):
    """A script that changes the lines of an answer by sed where a test holds."""
    return f'P "$@" >$T; s=$?; if {test}; then sed "{change}" $T; else cat $T; fi; exit $s'


WRONG = {
    "status 7": ("form", 'P "$@"; exit 7'),
    "status 0 for a refusal": ("form", 'P "$@"; exit 0'),
    "a crash after the answer": ("form", 'P "$@"; kill -SEGV $$'),
    "no end": ("form", '[ $1 != log ] || exec sleep 1000; P "$@"'),
    "seconds of a processor": ("form", 'i=0; while [ $1 = log ] && [ $i -lt 900000 ]; do i=$((i+1)); done; P "$@"'),
    "standard error": ("form", 'P "$@"; s=$?; echo warning >&2; exit $s'),
    "a refusal of another form": ("form", where("true", "s/^refused /refuse /")),
    "a refusal without its line": ("form", where("true", r"s/^\(refused [^:]*\)[:0-9]*/\1/")),
    "a refusal without its column": ("form", where("true", r"s/^\(refused [^:]*:[0-9]*\):[0-9]*/\1/")),
    "a column behind the end of its line": ("form", where("true", r"s/^\(refused [^:]*:[0-9]*:\)/\19999/")),
    "frames in lower case": ("form", where("true", r"/^(/s/[A-F]/\L&/g")),
    "moments that fall": ("form", where("[ $1 = log ]", "1{h;d};$G")),
    "a text that changes with the process": ("again", where("true", "s/text/$$/")),
    "a check that is always ok": ("refusals", '[ $1 != check ] || { echo ok; exit 0; }; P "$@"'),
    "a wrong token at the beginning of its line": ("tokens", where("true", r"s/:[0-9]* E02$/:1 E02/")),
    "a window that lacks a line": ("parts", where("[ $1 = window ]", "1d")),
    "a log that lacks its last line": ("parts", where("[ $1 = log ]", r"\$d")),
    "frames by the picks": ("picks", where('grep -q ^picks "$2"', "/^(/s/#..*/#/")),
    "status 0 where a write failed": ("prefix", 'P "$@"; s=$?; [ $s != 4 ] || exit 0; exit $s'),
    "lines where a read failed": ("reads", 'P "$@"; s=$?; [ $s != 3 ] || echo ok; exit $s'),
    "a missing file by another name": ("reads", where("true", "s/ [^ ]* E07/ x E07/")),
    "lines by the comments": ("layout", where(r"grep -qr '/\*' --include=*.can .", "1d")),
    "lines by the end": ("end", where('grep -q "^until 300$" "$2"', "1d")),
    "lines by the number of nodes": ("silence", where('grep -q Silent "$2"', "1d")),
    "a constant with another number": ("constants", where("grep -qs 'const int64 c =' n.can", "1s/..$/7/")),
    "status 0 for no command": ("words", 'P "$@"; s=$?; [ $s != 2 ] || exit 0; exit $s'),
    "a replay that loses a frame": ("replay", where('grep -q ^replay "$2"', "1d")),
}


def found_by(program, folder, script, check, cases):
    """The case by which a check finds what a script does wrong, or none; and the number of all faulty cases."""
    path = folder / "wrong"
    head = f"#!/bin/sh\nT='{folder}/text'\nP() {{ '{program}' \"$@\"; }}\n"
    path.write_text(head + script + "\n", encoding="utf-8")
    path.chmod(0o755)
    words = argparse.Namespace(seed=1, seconds=0, cases=cases, first=0, keep=None, quiet=True)
    is_found = lambda faults: any(it.startswith(f"{check}: ") for it in faults)
    ends = []
    number, _, faulty = fuzz(str(path), words, folder, lambda it: is_found(it) and not ends.append(it))
    return number - 1 if ends else None, faulty


def self_test(program, folder):
    """Tries wrong programs, and says whether each is found by its check, and the right one by none."""
    global WAIT
    WAIT = 3.0
    _, faulty = found_by(program, folder, RIGHT, "no check", 200)
    missed = 1 if faulty else 0
    print("FAIL faults of the right program" if faulty else "passed 200 cases: the right program", flush=True)
    for name, (check, script) in WRONG.items():
        case, _ = found_by(program, folder, script, check, 200)
        missed += case is None
        print(f"MISSED {name}" if case is None else f"found by '{check}' in case {case}: {name}", flush=True)
    return missed


def arguments():
    """The words of the command line."""
    parser = argparse.ArgumentParser(description=__doc__, formatter_class=argparse.RawDescriptionHelpFormatter)
    parser.add_argument("program", type=lambda it: str(pathlib.Path(it).resolve()))
    parser.add_argument("--seed", type=int, default=1)
    parser.add_argument("--seconds", type=float, default=60)
    parser.add_argument("--cases", type=int)
    parser.add_argument("--first", type=int, default=0)
    parser.add_argument("--most", type=float, default=MOST)
    parser.add_argument("--keep", type=lambda it: pathlib.Path(it).resolve())
    parser.add_argument("--self-test", action="store_true")
    return parser.parse_args()


def main():
    global MOST
    words = arguments()
    words.quiet, MOST = False, words.most
    fast = "/dev/shm" if os.access("/dev/shm", os.W_OK) else None
    with tempfile.TemporaryDirectory(prefix="fuzz-", dir=fast) as keep:
        if words.self_test:
            missed = self_test(words.program, pathlib.Path(keep))
            print(f"{missed} missed")
            return 1 if missed else 0
        cases, runs, faults = fuzz(words.program, words, pathlib.Path(keep))
        os.chdir("/")
    print(f"{cases} cases, {runs} runs, {faults} faults")
    return 0 if cases and not faults else 1


if __name__ == "__main__":
    sys.exit(main())
