"""Reads messages and signals of a database: through canmatrix where it is installed, else by a small reader.

The small reader takes the statements BO_ and SG_, and of SIG_VALTYPE_ that a signal is floating point. What it leaves
out, and each signal that is not shown, stands in `left_out`. Numbers of signals are raw ones, as the program has them.
"""
import collections
import contextlib
import io
import logging
import pathlib
import re
import typing

try:
    # It tells of each format for which a package of its own is missing.
    logging.getLogger("canmatrix").setLevel(logging.CRITICAL)
    import canmatrix.formats
    HAS_CANMATRIX = True
except ImportError:
    HAS_CANMATRIX = False

EXTENDED = 1 << 31
# The message of signals that belong to no message.
INDEPENDENT = 3221225472
MOST_BITS = 64

STRING = re.compile(r'"(?:[^"]|(?<=\\)")*"')
MESSAGE = r"\bBO_\s+(?P<id>\d+)\s+(?P<message>\w+)\s*:\s*(?P<length>\d+)\s+(?P<sender>\w+)"
SIGNAL = (r"\bSG_\s+(?P<signal>\w+)\s*(?P<multiplex>\bM\b|\bm\d+M?\b)?\s*:"
          r"\s*(?P<start>\d+)\s*\|\s*(?P<bits>\d+)\s*@\s*(?P<order>[01])\s*(?P<sign>[+-])"
          r'\s*\([^)]*\)\s*\[[^\]]*\]\s*"(?P<unit>[^"]*)"')
STATEMENT = re.compile(f"{MESSAGE}|{SIGNAL}")
FLOAT = re.compile(r"\bSIG_VALTYPE_\s+(\d+)\s+(\w+)\s*:?\s*[12]\s*;")
KEYWORD = re.compile(r"^[ \t]*([A-Z][A-Z_]*_|VERSION)\b", re.MULTILINE)


class Signal(typing.NamedTuple):
    """A signal as the database lays it out; when is None, M of a multiplexor, or the number that it needs to have."""
    name: str
    start: int
    bits: int
    little: bool
    signed: bool
    unit: str
    when: typing.Union[None, str, int]


class Message(typing.NamedTuple):
    """A message of the database; sender is the name that its BO_ has."""
    name: str
    identifier: int
    extended: bool
    sender: str
    signals: list


class Database(typing.NamedTuple):
    """What was read: messages by identifier and whether that is extended, who read it, and what was left out."""
    messages: dict
    reader: str
    left_out: list


NONE = Database({}, "", [])


# ---- numbers of signals

def places_of(signal):
    """The bits of a signal, its least significant first: bit b of byte i has the number 8 i + b."""
    if signal.little:
        return list(range(signal.start, signal.start + signal.bits))
    places = [signal.start]
    while len(places) < signal.bits:
        # Behind bit 0 of a byte comes bit 7 of the next.
        places.append(places[-1] - 1 if places[-1] % 8 else places[-1] + 15)
    return places[::-1]


def bytes_of(signal):
    """How many data bytes a frame needs to have the signal."""
    return max(places_of(signal)) // 8 + 1


def number_of(signal, data):
    """The raw number of a signal in the data of a frame, or None where it has too few bytes."""
    if bytes_of(signal) > len(data):
        return None
    number = sum((data[place // 8] >> place % 8 & 1) << i for i, place in enumerate(places_of(signal)))
    return number - (1 << signal.bits) if signal.signed and number >> (signal.bits - 1) else number


def numbers_of(message, data):
    """The numbers of the signals that a frame of a message has, by their names."""
    numbers = {it.name: number_of(it, data) for it in message.signals}
    switch = next((numbers[it.name] for it in message.signals if it.when == "M"), None)
    present = {it.name for it in message.signals if not isinstance(it.when, int) or it.when == switch}
    return {name: number for name, number in numbers.items() if name in present and number is not None}


# ---- the small reader

def without_strings(text):
    """The text with blanks in its strings, so that nothing in them is taken for a statement."""
    return STRING.sub(lambda it: '"' + re.sub(r"[^\n]", " ", it[0][1:-1]) + '"', text)


def when_of(word):
    """When a signal is there, by the word behind its name."""
    return word if word in (None, "M") else int(word[1:])


def signal_of(found, text):
    """The signal of a statement; its unit stands in the text that has its strings."""
    return Signal(found["signal"], int(found["start"]), int(found["bits"]), found["order"] == "1", found["sign"] == "-",
                  text[found.start("unit"):found.end("unit")], when_of(found["multiplex"]))


def other_statements(plain):
    """How many statements of each other kind stand at beginnings of lines, but for lists of words."""
    counts = collections.Counter(KEYWORD.findall(plain[plain.find("BO_"):]))
    for name in ("BO_", "SG_", "BU_", "BS_", "NS_", "VERSION", "SIG_VALTYPE_"):
        counts.pop(name, None)
    return [", ".join(f"{name} ({count})" for name, count in sorted(counts.items()))] if counts else []


def unread(plain, found):
    """The lines of statements BO_ and SG_ that have no form which is read."""
    places = {it.start() for it in found}
    begins = [it.start(1) for it in KEYWORD.finditer(plain) if it[1] in ("BO_", "SG_")]
    return [f"the {plain[at:at + 3]} of line {plain.count(chr(10), 0, at) + 1}" for at in begins if at not in places]


def small_reader(text):
    """The messages of a database, and what was left out of it."""
    plain = without_strings(text)
    found = list(STATEMENT.finditer(plain))
    floats = {(int(it[1]), it[2]) for it in FLOAT.finditer(plain)}
    left_out, messages, number = unread(plain, found) + other_statements(plain), {}, None
    for it in found:
        if it["id"]:
            number = int(it["id"])
            messages[number] = (it["message"], it["sender"], [])
        elif (it["multiplex"] or "").endswith("M") and it["multiplex"] != "M":
            left_out.append(f"{it['signal']}, which is multiplexed and a multiplexor itself")
        elif (number, it["signal"]) in floats:
            left_out.append(f"{it['signal']}, which is floating point")
        elif number is not None:
            messages[number][2].append(signal_of(it, text))
    messages.pop(INDEPENDENT, None)
    return [Message(name, number % EXTENDED, number >= EXTENDED, sender, signals)
            for number, (name, sender, signals) in messages.items()], left_out


# ---- canmatrix

def when_in(signal):
    """When a signal of canmatrix is there."""
    if signal.multiplex is None:
        return None
    return "M" if signal.multiplex == "Multiplexor" else int(signal.multiplex)


def through_canmatrix(path):
    """The messages of a database as canmatrix reads it, and what is left out."""
    messages, left_out = [], []
    # It prints the lines that it cannot read, and what is shown goes out there too.
    with contextlib.redirect_stdout(io.StringIO()):
        frames = canmatrix.formats.loadp_flat(str(path)).frames
    for frame in frames:
        signals = []
        for it in frame.signals:
            if it.is_float:
                left_out.append(f"{it.name}, which is floating point")
                continue
            # With this numbering it gives the start as the database has it.
            start = it.get_startbit(bit_numbering=1)
            signals.append(Signal(it.name, start, it.size, bool(it.is_little_endian), bool(it.is_signed),
                                  it.unit or "", when_in(it)))
        identifier, sender = frame.arbitration_id, next(iter(frame.transmitters), "")
        messages.append(Message(frame.name, identifier.id, bool(identifier.extended), sender, signals))
    return messages, left_out


# ---- both

def is_usable(signal):
    """Whether the signal lies in eight bytes."""
    return 1 <= signal.bits <= MOST_BITS and bytes_of(signal) <= 8


def usable(message, left_out):
    """The message with the signals that lie in eight bytes; the others are told to be left out."""
    left_out += [f"{it.name}, which is not within 8 bytes" for it in message.signals if not is_usable(it)]
    return message._replace(signals=[it for it in message.signals if is_usable(it)])


def names_of(messages):
    """The names of all signals, each with the identifier of its message."""
    return {(it.identifier, it.extended, one.name): None for it in messages for one in it.signals}


def read_messages(path):
    """The messages, the name of their reader, and what was left out."""
    messages, left_out = small_reader(text_of(pathlib.Path(path).read_bytes()))
    if HAS_CANMATRIX:
        try:
            read_so, missing = through_canmatrix(path)
            # It goes line by line, and reads nothing of statements that begin or end within one.
            lost = [key for key in names_of(messages) if key not in names_of(read_so)]
            return read_so, "canmatrix", missing + [f"{name}, which canmatrix does not read" for _, _, name in lost]
        except Exception as fault:  # whatever it raises of a database that the program takes
            left_out.insert(0, f"what canmatrix reads, which failed: {fault}")
    return messages, "a small reader of BO_ and SG_", left_out


def text_of(data):
    """The text of a database, which is UTF-8 or else ISO 8859-1."""
    try:
        return data.decode("utf-8")
    except UnicodeDecodeError:
        return data.decode("latin-1")


def read(path):
    """The database at a path, or an empty one where there is none."""
    if path is None:
        return NONE
    messages, reader, left_out = read_messages(path)
    messages = [usable(it, left_out) for it in messages]
    return Database({(it.identifier, it.extended): it for it in messages}, reader, left_out)
