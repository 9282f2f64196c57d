"""Makes scenarios, sources, databases and logs by a grammar from a source of chance.

`case` makes the files of a scenario, mostly ones that are accepted. A source is a list of tokens, so that it can be
laid out in several ways; all else is bytes. Nothing here knows what a run has to write.
"""
import dataclasses
import random
import re

KINDS = ["byte", "word", "dword", "qword", "int", "long", "int64", "char"]
BINARY = ["+", "-", "*", "&", "|", "^", "<<", ">>", "==", "!=", "<", "<=", ">", ">=", "&&", "||"]
ASSIGNMENTS = ["=", "+=", "-=", "*=", "&=", "|=", "^=", "<<=", ">>="]
BITRATES = [10000, 12500, 15625, 20000, 25000, 31250, 40000, 50000, 62500, 100000, 125000, 200000, 250000, 500000,
            1000000]
EDGES = [0, 1, 2, 3, 7, 8, 9, 31, 32, 33, 63, 64, 65, 127, 128, 199, 200, 201, 255, 256, 2047, 2048, 32767, 32768,
         65535, 65536, 1000000, 1000001, 10000000, 86400000, 86400001, 536870911, 536870912, 2147483647, 2147483648,
         4294967295, 4294967296, 9223372036854775807, 9223372036854775808, 18446744073709551615,
         18446744073709551616, 10**25]
FIELDS = ["id", "dlc", "rtr", "can"]
KEYS = "abkz!~19"
IDENTIFIERS = ["0x0", "0x1", "0x100", "0x123", "256", "0x180", "0x7FF", "0x0x", "0x100x", "5x", "0x1FFFFFFFx"]
SCENARIO = "s.scn"
DATABASE = "d.dbc"
LOG = "r.log"


@dataclasses.dataclass
class Case:
    """The files of a scenario, and the tokens of those of its sources that are known by tokens."""
    files: dict
    tokens: dict
    folder: str = ""

    def name(self):
        """The word that names the scenario."""
        return self.folder + SCENARIO


@dataclasses.dataclass
class Message:
    """A message of a database: its name, and the names of its signals."""
    name: str
    signals: list


# ---- databases


def big_endian_start(chance, length):
    """A start bit of a big-endian signal of so many bits that lies within 64."""
    place = chance.randrange(64 - length + 1)
    return 8 * (place // 8) + 7 - place % 8


def signal_line(chance, name):
    """A statement of a signal within 64 bits."""
    length = chance.choice([1, 2, 3, 7, 8, 12, 16, 31, 32, 33, 63, 64, chance.randrange(1, 65)])
    order = chance.randrange(2)
    start = chance.randrange(64 - length + 1) if order else big_endian_start(chance, length)
    mark = chance.choice(["", "", "", "M ", "m0 ", "m1 "])
    factor, unit = chance.choice(["1,0", "0.5,-40", "1e3,0"]), chance.choice(["", "km/h"])
    return (f" SG_ {name} {mark}: {start}|{length}@{order}{chance.choice('+-')} ({factor})"
            f" [0|{chance.randrange(100)}] \"{unit}\" {chance.choice(['Vector__XXX', 'A,B', 'A B'])}")


def message_lines(chance, number, message):
    """The statement of a message, and those of its signals."""
    identifier = chance.choice([256 + number, 2**31 + 256 + number])
    lines = [f"BO_ {identifier} {message.name}: {chance.choice([8, 8, 4, 0, chance.randrange(9)])} Vector__XXX"]
    return lines + [signal_line(chance, name) for name in message.signals]


def database(chance):
    """The bytes of a database, and its messages."""
    messages = [Message(f"Msg{number}", [f"Sig{it}" for it in range(chance.randrange(4))])
                for number in range(chance.randrange(1, 5))]
    lines = ['VERSION "1"', "NS_ :", " CM_", " BA_DEF_", "BS_:", "BU_: A B"][:chance.randrange(7)]
    for number, message in enumerate(messages):
        lines += message_lines(chance, number, message)
    more = ['CM_ "text; of a comment";', "BA_DEF_ \"x\" INT 0 1;", "VAL_ 256 Sig0 1 \"on\" 0 \"off\" ;",
            "SIG_VALTYPE_ 77 Sig0 : 1;", "BO_ 3221225472 VECTOR__INDEPENDENT_SIG_MSG: 0 Vector__XXX"]
    lines += [it for it in more if chance.random() < 0.3]
    return "\n".join(lines).encode() + b"\n", messages


# ---- sources


class Writer:
    """Makes the program of a node. What is declared so far is kept, so that mostly what is named exists."""

    def __init__(self, chance, messages):
        self.chance = chance
        self.messages = messages
        self.numbers = []
        self.arrays = []
        self.frames = []
        self.timers = []
        self.functions = []
        self.made = 0
        self.loops = 0
        self.inside = ""
        self.gives = False

    def fresh(self, letter):
        """A name that was not used."""
        self.made += 1
        return f"{letter}{self.made}"

    # -- expressions, each a list of tokens

    def literal(self):
        """A number or a character."""
        small = str(self.chance.randrange(20))
        edge = str(self.chance.choice([it for it in EDGES if it < 2**64]))
        return [self.chance.choice([small, small, small, edge, hex(self.chance.randrange(2**32)),
                                    "'a'", "'\\n'", "'\\x41'", "0x10x", "TX", "rx"])]

    def index(self, size, depth):
        """An index that is mostly below a size."""
        if self.chance.random() < 0.6:
            return [str(self.chance.randrange(size))]
        if self.chance.random() < 0.8:
            return ["(", *self.number(depth), ")", "&", str((1 << size.bit_length() - 1) - 1)]
        return self.number(depth)

    def place(self, depth):
        """What can be assigned to: a variable, an element, a field, payload bytes or a signal."""
        ways = [self.variable] * 3 * bool(self.numbers) + [self.element] * 2 * bool(self.arrays)
        ways += [self.member] * 2 * bool(self.frames)
        return self.chance.choice(ways)(depth) if ways else None

    def variable(self, _):
        """A variable of a number."""
        return [self.chance.choice(self.numbers)]

    def element(self, depth):
        """An element of an array."""
        name, _, size = self.chance.choice(self.arrays)
        return [name, "[", *self.index(size, depth - 1), "]"]

    def payload(self, name, depth):
        """Payload bytes of a message."""
        kind = self.chance.choice(KINDS)
        size = {"byte": 8, "char": 8, "word": 7, "int": 7, "dword": 5, "long": 5}.get(kind, 1)
        return [name, ".", kind, "(", *self.index(size, depth - 1), ")"]

    def member(self, depth):
        """A part of a message that can be assigned to."""
        name, signals = self.chance.choice(self.frames)
        if signals and self.chance.random() < 0.5:
            return [name, ".", self.chance.choice(signals)]
        if self.chance.random() < 0.5:
            return self.payload(name, depth)
        return [name, ".", self.chance.choice(FIELDS)]

    def seen(self, depth):
        """A part of what a message procedure or a key procedure sees."""
        if self.inside == "key":
            return ["this"]
        if self.chance.random() < 0.5:
            return self.payload("this", depth)
        return ["this", ".", self.chance.choice([*FIELDS, "dir", "time"])]

    def operation(self, depth):
        """An operator with its operands."""
        way = self.chance.randrange(6)
        if way == 0:
            return [self.chance.choice(["-", "+", "!", "~"]), "(", *self.number(depth - 1), ")"]
        if way == 1:
            return ["(", self.chance.choice(KINDS), ")", "(", *self.number(depth - 1), ")"]
        if way == 2:
            return ["(", *self.number(depth - 1), "?", *self.number(depth - 1), ":", *self.number(depth - 1), ")"]
        if way == 3:
            divisor = ["(", *self.number(depth - 1), ")"] + ["|", "1"] * (self.chance.random() < 0.9)
            return ["(", *self.number(depth - 1), ")", self.chance.choice("/%"), "(", *divisor, ")"]
        return ["(", *self.number(depth - 1), self.chance.choice(BINARY), *self.number(depth - 1), ")"]

    def change(self, depth):
        """An assignment, or a step of a place up or down, as a number."""
        place = self.place(depth)
        if place is None:
            return self.literal()
        way = self.chance.randrange(4)
        sign = self.chance.choice(["++", "--"])
        if way == 0:
            return [sign, *place]
        if way == 1:
            return [*place, sign]
        return ["(", *place, self.chance.choice(ASSIGNMENTS), *self.number(depth - 1), ")"]

    def call(self, depth):
        """A call that gives a number."""
        ways = [lambda: ["timeNow", "(", ")"]]
        if self.timers:
            ways.append(lambda: ["isTimerActive", "(", self.chance.choice(self.timers), ")"])
        if self.arrays:
            ways.append(lambda: ["elCount", "(", self.chance.choice(self.arrays)[0], ")"])
        givers = [it for it in self.functions if it[2]]
        if givers:
            ways += [lambda: self.call_of(self.chance.choice(givers), depth)] * 3
        return self.chance.choice(ways)()

    def call_of(self, function, depth):
        """A call of a function of the program."""
        name, count, _ = function
        return [name, "(", *self.listed([self.number(depth - 1) for _ in range(count)]), ")"]

    def listed(self, parts):
        """Lists of tokens with commas between them."""
        return [token for number, part in enumerate(parts) for token in ([","] if number else []) + part]

    def number(self, depth):
        """An expression that is a number."""
        ways = [self.literal, self.literal]
        if self.numbers:
            ways += [lambda: self.variable(0)] * 4
        if depth > 0:
            ways += [lambda: self.operation(depth)] * 4 + [lambda: self.change(depth), lambda: self.call(depth)]
            ways += [lambda: self.element(depth)] * bool(self.arrays)
            ways += [lambda: self.member(depth)] * bool(self.frames)
            ways += [lambda: self.seen(depth)] * 2 * bool(self.inside)
        return self.chance.choice(ways)()

    # -- statements

    def shown(self, depth):
        """A code of `write`, and the argument that it takes."""
        width = self.chance.choice(["", "", "", "5", "-8", "02", "032"])
        way = self.chance.randrange(4)
        if way == 0:
            return f"%{width}I64{self.chance.choice('dux')}", ["(", "int64", ")", "(", *self.number(depth), ")"]
        texts = [["\"text\""], *([it[0]] for it in self.arrays if it[1] == "char")]
        if way == 1:
            return f"%{width}s", self.chance.choice(texts)
        code = self.chance.choice(["d", "ld", "u", "lu", "x", "lX", "o", "c"])
        kind = self.chance.choice(["long", "dword", "byte"])
        return f"%{width}{code}", ["(", kind, ")", "(", *self.number(depth), ")"]

    def write(self, depth):
        """A call of `write`."""
        codes = [self.shown(depth) for _ in range(self.chance.randrange(4))]
        text = self.chance.choice(["", "x ", "100%% ", "a\\n", "\\r\\t", "\\x80\\\\ "])
        text = f"\"{text}{' '.join(code for code, _ in codes)}\""
        return ["write", "(", *self.listed([[text], *(part for _, part in codes)]), ")", ";"]

    def timing(self, depth):
        """A call on a timer."""
        timer = self.chance.choice(self.timers)
        if self.chance.random() < 0.2:
            return ["cancelTimer", "(", timer, ")", ";"]
        time = [str(self.chance.randrange(40))] if self.chance.random() < 0.7 else self.number(depth)
        return [self.chance.choice(["setTimer", "setTimerCyclic"]), "(", timer, ",", *time, ")", ";"]

    def sending(self, _):
        """A request of a frame, or a copy of one."""
        name = self.chance.choice(self.frames)[0]
        if self.inside == "message" and self.chance.random() < 0.3:
            return self.chance.choice([["output", "(", "this", ")", ";"], [name, "=", "this", ";"]])
        if self.chance.random() < 0.2:
            return [name, "=", self.chance.choice(self.frames)[0], ";"]
        return ["output", "(", name, ")", ";"]

    def choice(self, depth):
        """An `if`, perhaps with more arms."""
        tokens = ["if", "(", *self.number(2), ")", *self.statement(depth - 1)]
        while self.chance.random() < 0.2:
            tokens += ["else", "if", "(", *self.number(1), ")", *self.statement(depth - 1)]
        return tokens + (["else", *self.statement(depth - 1)] if self.chance.random() < 0.4 else [])

    def loop(self, depth):
        """A loop that mostly ends."""
        self.loops += 1
        body = self.statement(depth - 1)
        self.loops -= 1
        way = self.chance.randrange(4)
        place = self.place(0)
        if place is None or way == 0:
            return ["while", "(", *self.number(1), ")", *body]
        if way == 1:
            return ["do", *body, "while", "(", *place, "++", "<", str(self.chance.randrange(6)), ")", ";"]
        most = str(self.chance.randrange(9))
        return ["for", "(", *place, "=", "0", ";", *place, "<", most, ";", *place, "++", ")", *body]

    def switch(self, depth):
        """A `switch` with different labels."""
        values = self.chance.sample(range(12), self.chance.randrange(4))
        labels = [["case", str(it), ":"] for it in values] + [["default", ":"]] * (self.chance.random() < 0.6)
        self.chance.shuffle(labels)
        tokens = ["switch", "(", *self.number(2), ")", "{"]
        for label in labels:
            tokens += label + self.statement(depth - 1) * (self.chance.random() < 0.8)
            tokens += ["break", ";"] * (self.chance.random() < 0.6)
        return [*tokens, "}"]

    def ending(self, _):
        """What leaves a loop, a procedure or the run."""
        ways = [["stop", "(", ")", ";"], ["return", *(["1"] if self.gives else []), ";"], [";"], [";"]]
        if self.loops:
            ways += [["break", ";"], ["continue", ";"]] * 2
        return self.chance.choice(ways)

    def doing(self, depth):
        """A statement that is an expression."""
        void = [it for it in self.functions if not it[2]]
        if void and self.chance.random() < 0.4:
            return [*self.call_of(self.chance.choice(void), depth), ";"]
        return [*self.change(2), ";"]

    def statement(self, depth):
        """A statement, nested at most so deep."""
        ways = [lambda: self.doing(1)] * 4 + [lambda: self.write(1)] * 3
        ways += [lambda: self.timing(1)] * 2 * bool(self.timers) + [lambda: self.sending(0)] * 3 * bool(self.frames)
        if self.chance.random() < 0.1:
            ways = [lambda: self.ending(0)]
        if depth > 0:
            ways += [lambda: self.choice(depth), lambda: self.loop(depth), lambda: self.switch(depth)]
            ways += [lambda: ["{", *self.statements(depth - 1), "}"]] * 2
        return self.chance.choice(ways)()

    def statements(self, depth):
        """Statements in a row."""
        return [token for _ in range(self.chance.randrange(4)) for token in self.statement(depth)]

    # -- declarations

    def initial(self, kind, size):
        """An initialiser, or none."""
        if self.chance.random() < 0.5:
            return []
        if size is None:
            return ["=", *self.constant()]
        if kind == "char" and size > 3 and self.chance.random() < 0.5:
            return ["=", '"ab\\n"']
        return ["=", "{", *self.listed([self.constant() for _ in range(self.chance.randrange(1, size + 1))]), "}"]

    def constant(self):
        """A constant."""
        number = self.literal()
        way = self.chance.randrange(6)
        if way == 0:
            return ["-", *number]
        if way == 1:
            return ["(", self.chance.choice(KINDS), ")", *number]
        return [*number, self.chance.choice(BINARY), "3"] if way == 2 else number

    def declared_number(self):
        """A declaration of a number or an array."""
        kind = self.chance.choice(KINDS)
        name = self.fresh("v")
        if self.chance.random() < 0.3:
            size = self.chance.randrange(1, 9)
            self.arrays.append((name, kind, size))
            return [kind, name, "[", str(size), "]", *self.initial(kind, size), ";"]
        if self.chance.random() < 0.1:
            return ["const", kind, name, "=", *self.constant(), ";"]
        self.numbers.append(name)
        return [kind, name, *self.initial(kind, None), ";"]

    def declared_message(self):
        """A declaration of a message."""
        name = self.fresh("m")
        head, signals = [self.chance.choice(["*", *IDENTIFIERS])], []
        if self.messages and self.chance.random() < 0.5:
            message = self.chance.choice(self.messages)
            head, signals = [message.name], message.signals
        items = [["dlc", "=", str(self.chance.randrange(10))], ["byte", "(", "1", ")", "=", "7"], ["rtr", "=", "1"]]
        items = [it for it in items if self.chance.random() < 0.4]
        self.frames.append((name, signals))
        return ["message", *head, name, *(["=", "{", *self.listed(items), "}"] if items else []), ";"]

    def declared_timer(self):
        """A declaration of a timer."""
        name = self.fresh("t")
        self.timers.append(name)
        return [self.chance.choice(["msTimer", "msTimer", "timer"]), name, ";"]

    def variables(self):
        """A section of variables."""
        tokens = ["variables", "{"]
        ways = [self.declared_number] * 3 + [self.declared_message] * 2 + [self.declared_timer]
        for _ in range(self.chance.randrange(1, 9)):
            tokens += self.chance.choice(ways)()
        return [*tokens, "}"]

    # -- procedures

    def body(self):
        """The block of a procedure. Its locals are known in it alone."""
        numbers, arrays, frames = len(self.numbers), len(self.arrays), len(self.frames)
        tokens = ["{"]
        for _ in range(self.chance.randrange(3)):
            tokens += self.declared_number() if self.chance.random() < 0.8 else self.declared_message()
        for _ in range(self.chance.randrange(6)):
            tokens += self.statement(2)
        del self.numbers[numbers:], self.arrays[arrays:], self.frames[frames:]
        return [*tokens, "}"]

    def function(self):
        """A function. It is known from then on, so that none calls itself."""
        name, count = self.fresh("f"), self.chance.randrange(3)
        self.gives = self.chance.random() < 0.6
        before = len(self.numbers)
        names = [self.fresh("p") for _ in range(count)]
        self.numbers += names
        head = [self.chance.choice(KINDS)] if self.gives else self.chance.choice([["void"], []])
        parts = self.listed([[self.chance.choice(KINDS), it] for it in names]) or self.chance.choice([[], ["void"]])
        tokens = [*head, name, "(", *parts, ")", *self.body()]
        del self.numbers[before:]
        self.functions.append((name, count, self.gives))
        self.gives = False
        return tokens

    def events(self):
        """The heads of event procedures, of which no two overlap."""
        heads = [["start"]] * self.chance.randrange(1, 3) + [["preStart"]] * (self.chance.random() < 0.3)
        heads += [["stopMeasurement"]] * (self.chance.random() < 0.5)
        heads += [["timer", it] for it in self.timers if self.chance.random() < 0.9]
        heads += [["key", f"'{it}'"] for it in self.chance.sample(KEYS, self.chance.randrange(3))]
        heads += [["key", "*"]] * (self.chance.random() < 0.3)
        heads += self.for_frames("*") * (self.chance.random() < 0.5)
        selectors = ["0x100", "0x123", "0x1FFFFFFFx", "0x100 - 0x17F", "0x0 - 0xFF , 0x180 - 0x7FF", "0x0x - 0xFFFFx"]
        return heads + [head for it in selectors if self.chance.random() < 0.3 for head in self.for_frames(it)]

    def for_frames(self, selectors):
        """The heads of procedures for these frames: for those of both channels, of one, or one for each of the two."""
        channels = self.chance.choice([[""], [""], [""], ["CAN1 . "], ["CAN2 . "], ["CAN1 . ", "CAN2 . "]])
        return [["message", *(channel + selectors.replace(", ", f", {channel}")).split()] for channel in channels]

    def event(self, head):
        """An event procedure."""
        self.inside = head[0] if head[0] in ("message", "key") else ""
        tokens = ["on", *head, *self.body()]
        self.inside = ""
        return tokens

    def program(self):
        """The parts of a program, in an order in which they can stand in files."""
        parts = [self.variables()]
        for _ in range(self.chance.randrange(4)):
            parts.append(self.function())
        return parts + [self.event(head) for head in self.events()]


def constant(chance, depth):
    """A constant expression of numbers."""
    if depth == 0 or chance.random() < 0.1:
        return Writer(chance, []).literal()
    part = lambda: constant(chance, depth - 1)
    way = chance.randrange(5)
    if way == 0:
        return ["(", chance.choice(KINDS), ")", "(", *part(), ")"]
    if way == 1:
        return [chance.choice(["-", "+", "!", "~"]), "(", *part(), ")"]
    if way == 2:
        return ["(", *part(), "?", *part(), ":", *part(), ")"]
    return ["(", *part(), chance.choice([*BINARY, "/", "%"]), *part(), ")"]


def renamed(seed, tokens):
    """The same tokens with other names for what a program declares, by a seed."""
    other = lambda name: f"{random.Random(f'{seed} {name}').choice('abcXYZ')}{seed}{name}"
    return [other(it) if re.fullmatch(r"[vmtfp]\d+", it) else it for it in tokens]


def node_files(chance, number, messages):
    """The tokens of the files of a node, by their names."""
    parts = Writer(chance, messages).program()
    name = f"n{number}.can"
    if chance.random() < 0.8:
        return name, {name: [token for part in parts for token in part]}
    cut = chance.randrange(len(parts))
    inner = chance.choice([f"i{number}.cin", f"lib/i{number}.cin"])
    include = ["includes", "{", f"#include \"{inner}\"", "}"]
    whole = lambda some: [token for part in some for token in part]
    return name, {name: include + whole(parts[cut:]), inner: whole(parts[:cut])}


def plain(tokens):
    """Tokens as text: a line for each statement."""
    is_last = lambda it: it in (";", "{", "}") or it.startswith("#")
    return " ".join(it + "\n" if is_last(it) else it for it in tokens).encode() + b"\n"


def laid_out(chance, tokens):
    """The same tokens with other blanks and comments between them."""
    between = [" ", "\n", "\t", "\r\n", "  ", " /* if ( \" */ ", " // x ; {\n", "\t/**/", "\n\n\f\v"]
    return "".join(it + chance.choice(between) for it in tokens).encode()


# ---- scenarios and logs


def picks(chance):
    """A line of picks."""
    return "picks " + " ".join(str(chance.choice([0, 1, 2, 3, chance.randrange(2**32)])) for _ in range(60))


def scenario_lines(chance, nodes, has_database):
    """The lines of a scenario."""
    lines = ["database " + DATABASE] * has_database + [f"node {name} {file}" for name, file in nodes]
    lines += [f"until {chance.choice([0, 1, 5, 20, 100, 300])}", f"turns {chance.choice([1, 5, 50, 100])}"]
    lines += [f"bitrate {chance.choice(BITRATES)}"] * (chance.random() < 0.5)
    lines += [f"epoch {chance.choice(['first', '0', '1', '1436509052', '4294967295'])}"] * (chance.random() < 0.3)
    lines += [f"interface {chance.choice(['can1', 'vcan0', 'a.b-c_9'])}"] * (chance.random() < 0.3)
    lines += [picks(chance)] * (chance.random() < 0.4) + ["# a comment"] * (chance.random() < 0.2)
    lines += [f"key {chance.choice([0, 1, 5, chance.randrange(100)])} {chance.choice(KEYS)}"
              for _ in range(chance.randrange(6))]
    chance.shuffle(lines)
    return ["scenario 1", *lines]


def frame(chance):
    """A frame of a log line."""
    identifier = chance.choice([f"{chance.randrange(2048):03X}", f"{chance.randrange(2**29):08X}", "123", "000"])
    if chance.random() < 0.15:
        return f"{identifier}#R{chance.choice(['', '', '1', '8'])}"
    return f"{identifier}#{chance.randbytes(chance.randrange(9)).hex().upper()}"


def skipped(chance):
    """A line of a log that is passed over, without its stamp and interface."""
    return chance.choice(["123##1112233", "20000080#0000000000000000", "123#0102030405060708_9", "00000001##3"])


def log(chance):
    """The bytes of a log."""
    lines, moment = [], chance.randrange(1000)
    for _ in range(chance.randrange(12)):
        moment += chance.choice([0, 50, 100, 250, 4000])
        shown = frame(chance) if chance.random() < 0.8 else skipped(chance)
        shown += chance.choice(["", "", " R", " T"])
        interface = chance.choice(["can0", "can0", "can0", "can1"])
        lines.append(f"({moment // 10**6}.{moment % 10**6:06}) {interface} {shown}")
    return "".join(line + chance.choice(["\n", "\n", "\r\n"]) for line in lines).encode()


def case(chance):
    """A scenario with all its files, mostly one that is accepted."""
    made = Case({}, {}, chance.choice(["", "", "", "d/"]))
    messages = []
    if has_database := chance.random() < 0.6:
        made.files[DATABASE], messages = database(chance)
    nodes = []
    for number in range(chance.choice([1, 1, 1, 2, 2, 3, 5])):
        file, tokens = node_files(chance, number, messages)
        nodes.append((f"N{number}", file))
        made.tokens.update(tokens)
    lines = scenario_lines(chance, nodes, has_database)
    if chance.random() < 0.3:
        lines.append("replay " + LOG)
        made.files[LOG] = log(chance)
    made.files[SCENARIO] = "\n".join(lines).encode() + b"\n"
    made.files.update((name, plain(tokens)) for name, tokens in made.tokens.items())
    return made
