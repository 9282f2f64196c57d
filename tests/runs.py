#!/usr/bin/env python3
"""Runs nodes that chance makes, and compares with a second reckoning from the documents.

    runs.py PROGRAM [--cases N] [--seed N]

Each case is one to four nodes at a bit rate: procedures for the start and the end, for timers, keys and messages by identifier,
by range and for all; in them lines, frames, timers, fields, loops, calls, traps and `stop`; often a log that is replayed, picks
and keys. `run` has to write what is reckoned here, and `profile` how often each procedure ran and how many turns it took: by
docs/run.md, with the bits that view/bits.py counts, and not by what a source is compiled to.

Then the same cases are reckoned by rules that are wrong in one place each: each of them has to differ in some case, so that a
program which does so would be found. The last line is 'N passed, M failed'.
"""
import argparse
import pathlib
import random
import subprocess
import sys
import tempfile
import typing

ROOT = pathlib.Path(__file__).resolve().parent.parent
sys.path.insert(0, str(ROOT / "view"))

import bits  # noqa: E402
import replays  # noqa: E402

SECONDS = 60
MICROS = 10**6
EXTENDED = 1 << 31

# ---- rules, each of which a wrong one may take the place of


def rank(selector):
    """An identifier goes before a range, and a range before `*`."""
    return {"identifier": 0, "range": 1, "all": 2}[selector[0]]


RULES = {
    "rank": rank,
    # Which of the due timers is the next task: the one that was set first.
    "due": lambda number, settings: settings,
    # What the tasks of a moment are, in their order.
    "tasks": ("frame", "timers", "keys"),
    # Which of so many nodes a pick names.
    "pick": lambda pick, count: pick % count,
    # Which of the frames that wait goes first.
    "first": lambda arbitration, node, request: (arbitration, node, request),
    # Whether a node receives a frame, by its own number and the sender's.
    "receives": lambda node, sender: True,
    # The shortest duration, in the timer's unit.
    "least": 1,
    # Whether a procedure with so many turns behind it may take a further one.
    "may_turn": lambda taken, most: taken < most,
    # Whether a key's own procedure goes before the one for all keys.
    "own_key_first": True,
    # Whether the frames of a node that is halted still wait.
    "halted_sends": True,
    # Whether the tasks of a round still run once a stop is asked for.
    "round_ends": True,
    # Whether a timer that is set again while it is active begins anew.
    "sets_anew": True,
    "gap": bits.INTERMISSION,
}
WRONG = {
    "takes due timers by their numbers": {"due": lambda number, settings: number},
    "takes keys before timers": {"tasks": ("frame", "keys", "timers")},
    "takes timers before the frame": {"tasks": ("timers", "frame", "keys")},
    "takes the first selector that fits": {"rank": lambda selector: 0},
    "takes the last node for a pick beyond": {"pick": lambda pick, count: min(pick, count - 1)},
    "lets the last node go first where frames tie": {"first": lambda arbitration, node, request: (arbitration, -node, request)},
    "sends in the order of requests": {"first": lambda arbitration, node, request: (request, arbitration, node)},
    "does not give a node its own frames": {"receives": lambda node, sender: node != sender},
    "takes a duration below 2 for 2": {"least": 2},
    "allows a turn less": {"may_turn": lambda taken, most: taken < most - 1},
    "takes the procedure for all keys first": {"own_key_first": False},
    "drops the frames of a halted node": {"halted_sends": False},
    "stops in the middle of a round": {"round_ends": False},
    "keeps a timer that is active": {"sets_anew": False},
    "has no intermission": {"gap": 0},
}


# ---- what procedures do: each action is a name and what it is about


SOURCES = {
    "write": lambda text, counter: f'write("{text} %d", c{counter});',
    "now": lambda: 'write("now %u", timeNow());',
    "active": lambda timer: f'write("active %d", isTimerActive(t{timer}));',
    "tell": lambda: 'write("%x %d %d %d %u %d", this.id, this.dlc, this.rtr, this.dir, this.time, this.byte(0));',
    "key": lambda: 'write("key %c", this);',
    "output": lambda message: f"output(m{message});",
    "echo": lambda: "output(this);",
    "set": lambda timer, duration, cyclic: f"{'setTimerCyclic' if cyclic else 'setTimer'}(t{timer}, {duration});",
    "cancel": lambda timer: f"cancelTimer(t{timer});",
    "stop": lambda: "stop();",
    "count": lambda: "c0++;",
    "byte": lambda message, place: f"m{message}.byte({place})++;",
    "field": lambda message, field, number: f"m{message}.{field} = {number};",
    "copy": lambda: "m0 = this;",
    "loop": lambda passages: f"for (i = 0; i < {passages}; i++) c1++;",
    "call": lambda: "f();",
    "if": lambda counter, number, actions: f"if (c{counter} < {number}) {{ {' '.join(map(source_of, actions))} }}",
    "divide": lambda: "c0 = c0 / (c1 - c1);",
    "index": lambda: "m0.dword(5) = 1;",
}


def source_of(action):
    """The statement of an action."""
    name, *of = action
    return SOURCES[name](*of)


def actions_of(chance, node, event, depth=0):
    """What a procedure for an event does."""
    found = []
    for _ in range(chance.choice([0, 1, 2, 3, 4])):
        timer, message = chance.randrange(len(node["units"])), chance.randrange(len(node["messages"]))
        usual = [("write", chance.randrange(100), chance.randrange(3)), ("output", message), ("output", message),
                 ("set", timer, chance.choice([0, -3, 1, 1, 2, 3, 5, 10]), chance.random() < 0.3),
                 ("set", timer, chance.choice([1, 1, 2, 5]), True), ("cancel", timer), ("byte", message, chance.randrange(8)),
                 ("field", message, *chance.choice([("dlc", 9), ("dlc", 256), ("rtr", 2), ("id", 0x8FF), ("id", 0x80000100),
                                                    ("id", 0xFFFFFFFF)])),
                 ("loop", chance.choice([1, 2, 5])), ("call",), ("count",), ("now",), ("active", timer)]
        if depth < 2:
            usual.append(("if", chance.randrange(3), chance.randrange(4), actions_of(chance, node, event, depth + 1)))
        if depth:
            usual += [("stop",), ("divide",), ("index",)]
        if event == "message":
            usual += [("echo",), ("tell",), ("copy",)]
        if event == "key":
            usual += [("key",)]
        found.append(chance.choice(usual))
    return found


# ---- a run


class Halted(Exception):
    """A trap, or the limit of turns, by the line that it writes."""


class Task(typing.NamedTuple):
    """A run of a procedure: its node, its row of the profile, the frame with its direction, the key, whether it is the end."""

    node: dict
    row: list
    seen: tuple
    key: int
    is_end: bool


class Run:
    """A run of a case by rules: its entries, and of each procedure how often it ran and its turns."""

    def __init__(self, case, rules):
        self.case, self.rules, self.entries, self.now = case, rules, [], 0
        self.bit = MICROS // case["rate"]
        self.waiting, self.wire, self.free, self.is_stopped = [], None, 0, False
        self.picks, self.keys, self.asked = list(case["picks"]), sorted(case["keys"], key=lambda it: it[0]), list(case["asked"])
        self.nodes = [{**node, "number": number, "halted": False, "timers": {}, "settings": 0, "counters": [0, 0, 0],
                       "messages": [[*it[:3], list(it[3])] for it in node["messages"]],
                       "rows": [[0, 0] for _ in node["procedures"]]} for number, node in enumerate(case["nodes"])]
        self.requests = [0] * (len(self.nodes) + 1)

    def request(self, number, frame):
        """Adds a frame to those that wait, behind the earlier ones of its node; the log counts as one more node."""
        self.requests[number] += 1
        self.waiting.append((self.rules["first"](replays.arbitration(frame), number, self.requests[number]), number, frame))

    def perform(self, task, actions):
        """Does what a procedure does."""
        node = task.node
        for name, *of in actions:
            if name in ("loop", "call"):
                self.take_turns(task, of[0] if of else 1, 1 if of else 2)
            elif name == "if":
                if node["counters"][of[0]] < of[1]:
                    self.perform(task, of[2])
            elif name in ("divide", "index"):
                raise Halted("trap zero divisor" if name == "divide" else "trap index")
            elif name in ("write", "now", "active", "tell", "key"):
                self.entries.append((self.now, node["name"], self.text(task, name, of)))
            elif name in ("count", "byte", "field", "copy"):
                change(node, task.seen, name, of)
            elif not task.is_end:
                self.affect(task, name, of)

    def take_turns(self, task, count, counter):
        """Takes so many turns, each of which counts."""
        for _ in range(count):
            if not self.rules["may_turn"](self.turns, self.case["turns"]):
                raise Halted("turn limit")
            self.turns += 1
            task.row[1] += 1
            task.node["counters"][counter] += 1

    def text(self, task, name, of):
        """The text of a line."""
        if name == "tell":
            (identifier, extended, remote, length, data), direction = task.seen
            number = identifier | (EXTENDED if extended else 0)
            return f"{number:x} {length} {int(remote)} {direction} {self.now // 10} {(data + bytes(8))[0]}"
        return {"write": lambda: f"{of[0]} {task.node['counters'][of[1]]}", "now": lambda: f"now {self.now // 10}",
                "active": lambda: f"active {int(of[0] in task.node['timers'])}", "key": lambda: f"key {chr(task.key)}"}[name]()

    def affect(self, task, name, of):
        """Requests a frame, sets or cancels a timer, or asks for the end."""
        node = task.node
        if name == "output":
            self.request(node["number"], frame_of(node["messages"][of[0]]))
        elif name == "echo":
            self.request(node["number"], task.seen[0])
        elif name == "cancel":
            node["timers"].pop(of[0], None)
        elif name == "stop":
            self.is_stopped = True
        elif self.rules["sets_anew"] or of[0] not in node["timers"]:
            duration = max(self.rules["least"], of[1]) * node["units"][of[0]]
            node["settings"] += 1
            node["timers"][of[0]] = (self.now + duration, node["settings"], duration if of[2] else None)

    def run_procedure(self, number, place, seen=None, key=None, is_end=False):
        """Runs a procedure of a node to its end, or halts the node."""
        node = self.nodes[number]
        task, self.turns = Task(node, node["rows"][place], seen, key, is_end), 0
        task.row[0] += 1
        try:
            self.perform(task, node["procedures"][place][2])
        except Halted as why:
            self.entries.append((self.now, node["name"], str(why)))
            node["halted"] = True
            if not self.rules["halted_sends"]:
                self.waiting = [it for it in self.waiting if it[1] != number]

    def frame_tasks(self, number, seen, keys):
        """The task of the frame that ended, if the node has a procedure for it."""
        if seen is None or not self.rules["receives"](number, seen[1]):
            return
        frame = seen[0]
        fits = [(self.rules["rank"](selector), place) for place, (event, about, _) in enumerate(self.nodes[number]["procedures"])
                if event == "message" for selector in about if selects(selector, frame)]
        if fits:
            yield lambda: self.run_procedure(number, min(fits)[1], seen=(frame, int(seen[1] == number)))

    def timer_tasks(self, number, seen, keys):
        """The tasks of the timers that are due, those too that become due meanwhile."""
        node = self.nodes[number]
        while due := [(self.rules["due"](timer, it[1]), timer) for timer, it in node["timers"].items() if it[0] <= self.now]:
            yield lambda: self.take_timer(number, min(due)[1])

    def take_timer(self, number, timer):
        """Takes a due timer, sets it again where it is cyclic, and runs its procedure."""
        node = self.nodes[number]
        moment, _, interval = node["timers"].pop(timer)
        if interval is not None:
            node["settings"] += 1
            node["timers"][timer] = (moment + interval, node["settings"], interval)
        for place, (event, about, _) in enumerate(node["procedures"]):
            if (event, about) == ("timer", timer):
                self.run_procedure(number, place)

    def key_tasks(self, number, seen, keys):
        """The tasks of the keys that are pressed and that the node has a procedure for."""
        places = {about: place for place, (event, about, _) in enumerate(self.nodes[number]["procedures"]) if event == "key"}
        for key in keys:
            found = [it for it in (key, None) if it in places]
            if found:
                place = places[found[0 if self.rules["own_key_first"] else -1]]
                yield lambda place=place, key=key: self.run_procedure(number, place, key=key)

    def tasks(self, number, kind, seen, keys):
        """The tasks of a node in a round, each as the ones before leave it."""
        for place, (event, _, _) in enumerate(self.nodes[number]["procedures"]):
            if event == kind:
                yield lambda place=place: self.run_procedure(number, place, is_end=kind == "stopMeasurement")
        parts = {"frame": self.frame_tasks, "timers": self.timer_tasks, "keys": self.key_tasks}
        for part in self.rules["tasks"] if kind == "moment" else ("keys",) if kind == "start" else ():
            yield from parts[part](number, seen, keys)

    def round(self, kind, seen=None, keys=()):
        """Does all tasks of a round, in the order of the picks."""
        left = {number: self.tasks(number, kind, seen, keys) for number, node in enumerate(self.nodes) if not node["halted"]}
        tasks = {number: task for number, each in left.items() if (task := next(each, None))}
        while tasks and (self.rules["round_ends"] or not self.is_stopped):
            ready = sorted(tasks)
            number = ready[self.rules["pick"](self.picks.pop(0) if self.picks else 0, len(ready))]
            tasks.pop(number)()
            if not self.nodes[number]["halted"] and (task := next(left[number], None)):
                tasks[number] = task

    def pressed(self):
        """The keys of this moment."""
        found = [key for moment, key in self.keys if moment <= self.now]
        del self.keys[:len(found)]
        return found

    def arbitrate(self):
        """Adds what the log asks for, and begins a frame where the bus is free."""
        while self.asked and self.asked[0][0] <= self.now:
            self.request(len(self.nodes), self.asked.pop(0)[1])
        if self.wire is None and self.free <= self.now and self.waiting:
            first = min(self.waiting, key=lambda it: it[0])
            self.waiting.remove(first)
            end = self.now + bits.length_of(*first[2]) * self.bit
            self.wire, self.free = (end, first[2], first[1]), end + self.rules["gap"] * self.bit

    def moments(self):
        """The moments at which something is to be done next."""
        yield from (it[0] for node in self.nodes if not node["halted"] for it in node["timers"].values())
        yield from (moment for moment, _ in self.keys[:1])
        yield from (moment for moment, _ in self.asked[:1])
        if self.wire is not None:
            yield self.wire[0]
        elif self.waiting:
            yield self.free

    def go(self):
        """Does the run, from before the start to its end."""
        self.round("preStart")
        self.round("start", keys=self.pressed())
        self.arbitrate()
        while not self.is_stopped:
            following = min(self.moments(), default=None)
            if following is None or following > self.case["until"] * 1000:
                self.now = self.case["until"] * 1000
                break
            self.now, seen = following, None
            if self.wire is not None and self.wire[0] == self.now:
                seen, self.wire = self.wire[1:], None
                self.entries.append((self.now, None, seen[0]))
            self.round("moment", seen, self.pressed())
            self.arbitrate()
        self.round("stopMeasurement")
        return self


def frame_of(message):
    """The frame of a message variable."""
    number, length, remote, data = message
    extended = number >= EXTENDED
    return number & (0x1FFFFFFF if extended else 0x7FF), extended, bool(remote), length, b"" if remote else bytes(data[:length])


def change(node, seen, name, of):
    """Counts, or changes a message variable by the write rules of its fields."""
    if name == "count":
        node["counters"][0] += 1
        return
    message = node["messages"][0 if name == "copy" else of[0]]
    if name == "copy":
        identifier, extended, remote, length, data = seen[0]
        message[:] = [identifier | (EXTENDED if extended else 0), length, int(remote), list(data + bytes(8 - len(data)))]
    elif name == "byte":
        message[3][of[1]] = (message[3][of[1]] + 1) % 256
    elif of[1] == "dlc":
        message[1] = min(8, of[2] % 256)
    elif of[1] == "rtr":
        message[2] = int(of[2] % 256 != 0)
    else:
        message[0] = of[2] & 0x9FFFFFFF if of[2] >= EXTENDED else of[2] & 0x7FF


def selects(selector, frame):
    """Whether a selector selects a frame."""
    kind, *about = selector
    identifier, extended = frame[:2]
    return kind == "all" or extended == about[0] and about[1] <= identifier <= about[-1]


def answer(case, rules):
    """What `run` and `profile` write of a case."""
    run = Run(case, rules).go()
    lines = [f"w 0.000000 replay skipped {case['skipped']}\n"] if case["skipped"] else []
    for moment, name, what in run.entries:
        if name is None:
            lines.append(replays.written(case["epoch"], moment, what))
        else:
            lines.append(f"w {moment // MICROS}.{moment % MICROS:06d} {name} {what}\n")
    rows = [f"p {node['name']} n{number}.can:{2 + place} {event} {runs} {turns}\n" for number, node in enumerate(run.nodes)
            for place, ((event, _, _), (runs, turns)) in enumerate(zip(node["procedures"], node["rows"]))]
    return "".join(lines), "".join(rows)


# ---- cases

IDENTIFIERS = [(0x100, False), (0x100 << 18, True), (0x7FF, False), ((0x100 << 18) | 1, True), (0, False), (0x55, False),
               (0x1FFFFFFF, True), (0xAAAAAAA, True), (0x101, False), (0x100, True)]


def heads_of(chance, node, identifiers):
    """The events of a node's procedures, of which no two are for one."""
    heads = [(event, None) for event in ("preStart", "start", "start", "stopMeasurement") for _ in range(chance.choice([0, 1, 1]))]
    heads += [("timer", timer) for timer in range(len(node["units"])) if chance.random() < 0.8]
    heads += [("key", key) for key in chance.sample([97, 98, 42, 39, 92, 34, None], chance.randrange(5))]
    selectors = [("identifier", extended, it) for it, extended in identifiers if chance.random() < 0.5]
    selectors += chance.sample([("range", False, 0x80, 0x101), ("range", False, 0x700, 0x7FF),
                                ("range", True, 0x100 << 18, 0x1FFFFFFF), ("all",)], chance.randrange(4))
    chance.shuffle(selectors)
    while selectors:
        count = chance.choice([1, 1, 2, 3])
        heads.append(("message", selectors[:count]))
        del selectors[:count]
    chance.shuffle(heads)
    return heads


def node_of(chance, number, identifiers):
    """A node: its name, its message variables as number, length, remote bit and bytes, its timers' units, its procedures."""
    node = {"name": f"{chance.choice(['A', 'Z', 'node', '_'])}{number}", "messages": [], "units": []}
    for _ in range(chance.randint(1, 3)):
        identifier, extended = chance.choice(identifiers)
        length = chance.choice([0, 0, 1, 2, 4, 8])
        data = [chance.randrange(256) for _ in range(length)] + [0] * (8 - length)
        node["messages"].append([identifier | (EXTENDED if extended else 0), length, chance.choice([0, 0, 0, 1]), data])
    node["units"] = [chance.choice([1000, 1000, 1000, MICROS]) for _ in range(chance.randint(1, 4))]
    node["procedures"] = [(event, about, actions_of(chance, node, event)) for event, about in heads_of(chance, node, identifiers)]
    return node


def case_of(seed, number):
    """A case: its nodes, and what its scenario has."""
    chance = random.Random(f"{seed} {number}")
    identifiers = chance.sample(IDENTIFIERS, chance.randint(2, 5))
    rate = chance.choice([10_000, 10_000, 10_000, 12_500, 20_000, 100_000, 1_000_000])
    until = chance.choice([0, 1, 20, 60, 150, 300])
    case = {"nodes": [node_of(chance, it, identifiers) for it in range(chance.choice([1, 2, 2, 3, 3, 4]))], "rate": rate,
            "until": until, "turns": chance.choice([100_000, 100_000, 7, 3, 1]), "epoch": chance.choice([0, 5, 1_436_509_052]),
            "picks": [chance.choice([0, 1, 2, 3, 2**32 - 1]) for _ in range(chance.choice([0, 3, 10, 60]))],
            "keys": [(chance.randint(0, until + 1) * 1000, chance.choice([97, 98, 42, 39, 92, 126])) for _ in range(chance.randrange(6))],
            "log": b"", "asked": [], "skipped": 0}
    if chance.random() < 0.5:
        base = case["epoch"] * MICROS
        rows = sorted(replays.line_text(chance, base, (until + 1) * 1000) for _ in range(chance.randrange(8)))
        log = "".join(row + "\n" for row in rows if replays.reading(row.encode()) != replays.NONE).encode()
        _, _, case["skipped"], case["asked"] = replays.requests(log, MICROS // rate, case["epoch"], replays.RULES)
        case["log"] = log
    return case


def head_of(event, about):
    """What stands behind `on`."""
    if event == "timer":
        return f"timer t{about}"
    if event == "key":
        return "key *" if about is None else "key '" + ("\\" if chr(about) in "'\\\"" else "") + chr(about) + "'"
    if event != "message":
        return event
    shown = [("*",) if it[0] == "all" else [hex(at) + "x" * it[1] for at in it[2:]] for it in about]
    return "message " + ", ".join("-".join(it) for it in shown)


def source_of_node(node):
    """The source of a node: what it declares in one line, and each procedure in one."""
    messages = "".join(f" message {number & 0x1FFFFFFF}{'x' if number >= EXTENDED else ''} m{at} = {{dlc = {length}, rtr = {remote}"
                       + "".join(f", byte({place}) = {byte}" for place, byte in enumerate(data[:length])) + "};"
                       for at, (number, length, remote, data) in enumerate(node["messages"]))
    timers = "".join(f" {'timer' if unit == MICROS else 'msTimer'} t{at};" for at, unit in enumerate(node["units"]))
    lines = [f"variables {{{messages}{timers} long c0, c1, c2; int i; }} void f() {{ c2++; }}"]
    lines += [f"on {head_of(event, about)} {{ {' '.join(map(source_of, actions))} }}" for event, about, actions in node["procedures"]]
    return "\n".join(lines) + "\n"


def scenario_of(case):
    """The scenario of a case."""
    lines = ["scenario 1", f"bitrate {case['rate']}", f"until {case['until']}", f"turns {case['turns']}", f"epoch {case['epoch']}"]
    lines += [f"node {node['name']} n{number}.can" for number, node in enumerate(case["nodes"])]
    lines += ["replay r.log"] * bool(case["log"]) + [f"key {moment // 1000} {chr(key)}" for moment, key in case["keys"]]
    lines += ["picks " + " ".join(map(str, case["picks"]))] * bool(case["picks"])
    return "\n".join(lines) + "\n"


def said(program, folder, case):
    """What the program writes of a case, and how it ends."""
    for number, node in enumerate(case["nodes"]):
        (folder / f"n{number}.can").write_text(source_of_node(node))
    (folder / "r.log").write_bytes(case["log"])
    (folder / "s.scn").write_text(scenario_of(case))
    how = {"cwd": folder, "stdin": subprocess.DEVNULL, "stdout": subprocess.PIPE, "timeout": SECONDS}
    done = [subprocess.run([program, word, "s.scn"], **how) for word in ("run", "profile")]
    return [it.returncode for it in done], tuple(it.stdout.decode() for it in done)


def faults_of_cases(program, cases):
    """Where the program writes of a case something else than is reckoned, or ends with another status."""
    with tempfile.TemporaryDirectory() as keep:
        for number, case in cases.items():
            want, found = ([0, 0], answer(case, RULES)), said(program, pathlib.Path(keep), case)
            if found != want:
                yield f"case {number}: {found}, not {want}"


def main():
    parser = argparse.ArgumentParser(description=__doc__, formatter_class=argparse.RawDescriptionHelpFormatter)
    parser.add_argument("program", type=lambda it: str(pathlib.Path(it).resolve()))
    parser.add_argument("--cases", type=int, default=1000)
    parser.add_argument("--seed", type=int, default=33)
    words = parser.parse_args()
    cases = {number: case_of(words.seed, number) for number in range(words.cases)}
    faults = list(faults_of_cases(words.program, cases))
    print(*(f"FAIL {it}" for it in faults[:5]), sep="\n", end="\n" if faults else "")
    right = {number: answer(case, RULES) for number, case in cases.items()}
    missed = [name for name, wrong in WRONG.items()
              if all(answer(case, {**RULES, **wrong}) == right[number] for number, case in cases.items())]
    print(*(f"FAIL no case tells a program that {it}" for it in missed), sep="\n", end="\n" if missed else "")
    failed = len(faults) + len(missed)
    print(f"{len(cases) + len(WRONG) - failed} passed, {failed} failed")
    return 0 if failed == 0 else 1


if __name__ == "__main__":
    sys.exit(main())
