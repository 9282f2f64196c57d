#!/usr/bin/env python3
"""Writes a page that shows a run, for any browser and without a network.

    page.py SCENARIO [--signals NAME,NAME..] [--program PROGRAM] > run.html

The page has all frames and lines of the run as data, and its own script and style (view/web/). With --signals it
begins with those signals of the database, each as NAME or MESSAGE.NAME, else with the first that change. Of a
scenario that is refused the page shows why, and the refusal stands on standard error as well.

The status is that of the run: 1 where the scenario is refused; and 2 where no frame has a signal that is named.
"""
import argparse
import collections
import html
import json
import pathlib
import sys

import load
import lines
import record
import refusal

WEB = pathlib.Path(__file__).resolve().parent / "web"
SCRIPTS = ("run.js", "time.js", "view.js", "paint.js", "lanes.js", "content.js", "under.js", "list.js", "page.js")
# The status where words are wrong, as of the program.
USAGE = 2
# How many signals are shown where none are named.
FIRST_SIGNALS = 4
# Numbers beyond this are written as texts, since a script would round them.
EXACT = 1 << 53


# ---- the data of the page

def kinds_of(seen):
    """The kinds of frames, by identifier, each with its message and sender: {(identifier, extended): row}."""
    nodes = seen.scenario.nodes
    return {(it.frame.identifier, it.frame.extended): {
        "id": record.identifier_text(it.frame),
        "name": it.message.name if it.message else "",
        "sender": nodes.index(it.sender) if it.sender else -1,
    } for it in seen.frames}


def frames_of(seen, places):
    """The frames by columns: their ends, their bits, their kinds and what they carry."""
    return {"end": [it.end for it in seen.frames], "bits": [it.bits for it in seen.frames],
            "kind": [places[it.frame.identifier, it.frame.extended] for it in seen.frames],
            "data": [record.payload_text(it.frame) for it in seen.frames]}


def lines_of(seen):
    """The lines of nodes by columns; halts has the numbers of those that tell of one."""
    places = {name: number for number, name in enumerate(seen.scenario.nodes)}
    return {"at": [it.moment for it in seen.lines], "node": [places[it.node] for it in seen.lines],
            "text": [it.text for it in seen.lines], "halts": [i for i, it in enumerate(seen.lines) if it.halt]}


def exact(number):
    """A number that a script reads as it is, or else its digits."""
    return number if -EXACT <= number <= EXACT else str(number)


def signals_of(seen, places):
    """The signals that came, by message, each with the frames from which on it has a number."""
    rows, changes = [], record.changes(seen)
    sent = collections.Counter(it.message.name for it in seen.frames if it.message)
    for message in seen.database.messages.values():
        switch = next((it.name for it in message.signals if it.when == "M"), None)
        for it in message.signals:
            if known := changes.get((message.name, it.name)):
                rows.append({"message": message.name, "name": it.name, "unit": it.unit,
                             "kind": places[message.identifier, message.extended],
                             "often": 2 * len(known) > sent[message.name],
                             "bytes": record.database.bytes_of(it),
                             "when": [switch, it.when] if isinstance(it.when, int) and switch else None,
                             "frame": [change.number for change in known],
                             "value": [exact(change.value) for change in known]})
    return rows


def chosen(rows, names):
    """The signals to begin with, as MESSAGE.NAME: those that are named, or else the first that change.

    Counters and checks, which change with most of their frames, come behind the others.
    """
    full = [f"{row['message']}.{row['name']}" for row in rows]
    if names:
        wanted = [[it for it in full if name in (it, it.partition(".")[2])] for name in names]
        missing = [name for name, found in zip(names, wanted) if not found]
        if missing:
            print(f"page.py: no frame of the run has a signal {', '.join(missing)}", file=sys.stderr)
            sys.exit(USAGE)
        return [it for found in wanted for it in found]
    changing = [(row["often"], it) for it, row in zip(full, rows) if len(row["value"]) > 1]
    return [it for _, it in sorted(changing, key=lambda it: it[0])][:FIRST_SIGNALS]


def loads_of(seen):
    """The mean load, and the greatest of each window that the run is long enough for."""
    it = load.Load([it.start for it in seen.frames], [it.end for it in seen.frames])
    greatest = [(window, it.greatest(window, seen.last)) for window in load.WINDOWS]
    return {"mean": it.mean(seen.last),
            "greatest": [{"window": window, "load": found[0], "end": found[1]} for window, found in greatest if found]}


def notes_of(seen):
    """What a reader of the page should know of it."""
    known = seen.database
    notes = [f"Database {seen.scenario.database}, read by {known.reader}."] if known.reader else ["No database."]
    notes += [f"Left out of it: {'; '.join(known.left_out)}."] if known.left_out else []
    if len(seen.scenario.nodes) > 1 and known.reader:
        notes.append("Senders are those that the database names.")
    return notes


def data_of(seen, names):
    """The data of the page of a run."""
    kinds = kinds_of(seen)
    places = {key: number for number, key in enumerate(kinds)}
    said, signals = seen.scenario, signals_of(seen, places)
    return {"scenario": seen.path, "bit": said.bit, "until": said.until, "last": seen.last, "epoch": said.epoch,
            "interface": said.interface, "nodes": said.nodes, "keys": said.keys, "kinds": list(kinds.values()),
            "frames": frames_of(seen, places), "lines": lines_of(seen),
            "order": "".join("w" if isinstance(it, lines.Line) else "f" for it in seen.order),
            "signals": signals, "chosen": chosen(signals, names), "load": loads_of(seen), "notes": notes_of(seen)}


# ---- the page

def web(name):
    """A file of view/web/."""
    return (WEB / name).read_text(encoding="utf-8")


def filled(template, **parts):
    """A template with the parts in the place of the comments that name them."""
    for name, text in parts.items():
        mark = f"<!-- {name} -->"
        assert template.count(mark) == 1, mark
        before, _, after = template.partition(mark)
        template = before + text + after
    return template


def page_of(seen, names):
    """The page of a run."""
    # Without `<` no text of a node ends the script, whatever it says.
    data = json.dumps(data_of(seen, names), separators=(",", ":")).replace("<", "\\u003c")
    script = "\n".join(web(name) for name in SCRIPTS)
    return filled(web("run.html"), title=html.escape(seen.path), style=f"<style>\n{web('page.css')}</style>",
                  data=f'<script type="application/json" id="run">{data}</script>',
                  script=f"<script>\n\"use strict\";\n(() => {{\n{script}}})();\n</script>")


def refused_page(path, told):
    """The page of a scenario that is refused."""
    return filled(web("refused.html"), title=html.escape(path), style=f"<style>\n{web('page.css')}</style>",
                  line=html.escape(told.line), sentence=html.escape(refusal.sentence_of(told.rule)),
                  source=html.escape(refusal.source_text(told)), places=html.escape(refusal.places_of(told.rule)),
                  example=html.escape(refusal.example_text(told.rule)))


def main():
    words = argparse.ArgumentParser(description="Writes a page that shows a run.")
    words.add_argument("scenario")
    words.add_argument("--signals", default="", help="those to begin with, with commas between")
    words.add_argument("--program", default=str(lines.CAPL))
    told = words.parse_args()
    status, out = lines.answer(told.program, "run", told.scenario)
    if status == lines.REFUSED:
        why = refusal.read(out)
        print(why.line, file=sys.stderr)
        text = refused_page(told.scenario, why)
    else:
        text = page_of(record.joined(told.scenario, out), [it for it in told.signals.split(",") if it])
    sys.stdout.buffer.write(text.encode("utf-8", "surrogateescape"))
    return status


if __name__ == "__main__":
    sys.exit(main())
