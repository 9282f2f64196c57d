"""A run as it is shown: its frames with start, message and sender, its lines, and the numbers of its signals."""
import typing

import bits
import database
import lines
import scenario


class Sent(typing.NamedTuple):
    """A frame on the bus from its start to its end; message and sender are None where nothing tells them."""
    start: int
    end: int
    bits: int
    frame: lines.Frame
    message: typing.Optional[database.Message]
    sender: typing.Optional[str]


class Record(typing.NamedTuple):
    """All that is known of a run; `order` has a frame or a line for each line that was printed."""
    path: str
    scenario: scenario.Scenario
    database: database.Database
    frames: list
    lines: list
    order: list

    @property
    def last(self):
        """The moment of the last line of the run."""
        return max([0, *(it.moment for it in self.lines[-1:]), *(it.end for it in self.frames[-1:])])


def sender_of(said, message):
    """The node that sent a frame: the only one, or the one that the database names, where it is of the scenario.

    No line tells who sent a frame, so where a node sends the message of another this names the other.
    """
    if len(said.nodes) == 1:
        return said.nodes[0]
    return message.sender if message and message.sender in said.nodes else None


def sent(frame, said, known):
    """The frame with what the scenario and the database tell of it."""
    length = bits.length_of(frame.identifier, frame.extended, frame.remote, frame.length, frame.data)
    message = known.messages.get((frame.identifier, frame.extended))
    return Sent(frame.end - length * said.bit, frame.end, length, frame, message, sender_of(said, message))


def identifier_text(frame):
    """The identifier as a log has it."""
    return format(frame.identifier, "08X" if frame.extended else "03X")


def payload_text(frame):
    """What stands behind the `#` of a log's frame."""
    if frame.remote:
        return f"R{frame.length}" if frame.length else "R"
    return frame.data.hex().upper()


def joined(path, out):
    """The record of the scenario at a path, of which a run printed this."""
    said = scenario.read(path)
    known = database.read(said.database)
    order = [it if isinstance(it, lines.Line) else sent(it, said, known) for it in lines.entries_of(out, said.epoch)]
    return Record(path, said, known, frames=[it for it in order if isinstance(it, Sent)],
                  lines=[it for it in order if isinstance(it, lines.Line)], order=order)


class Change(typing.NamedTuple):
    """A frame, by its number, from which on a signal has a number."""
    number: int
    value: int


def changes(record):
    """The changes of each signal that came, in the order of the database: {(message, signal): [Change]}."""
    found = {(message.name, it.name): [] for message in record.database.messages.values() for it in message.signals}
    for number, it in enumerate(record.frames):
        if it.message is None or it.frame.remote:
            continue
        for name, value in database.numbers_of(it.message, it.frame.data).items():
            known = found[it.message.name, name]
            if not known or known[-1].value != value:
                known.append(Change(number, value))
    return {key: known for key, known in found.items() if known}
