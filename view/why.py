#!/usr/bin/env python3
"""Says why a scenario is refused: the rule, the line of the input that breaks it, and an example of the docs.

    why.py SCENARIO [--program PROGRAM]

The status is that of `capl check`: 0 where the scenario is accepted, 1 where it is refused.
"""
import argparse
import sys

import lines
import refusal


def place(told):
    """The file of a refusal, with its line and column where they are told."""
    return ":".join([told.file, *(str(it) for it in (told.row, told.column) if it is not None)])


def said(told):
    """What is said of a refusal, part by part."""
    yield f"{place(told)}: refused by {told.rule}: {refusal.sentence_of(told.rule)}\n"
    if source := refusal.source_text(told):
        yield source
    if places := refusal.places_of(told.rule):
        yield places
    if example := refusal.example_text(told.rule):
        yield f"Refused by {told.rule} too:\n    {example}\n"
    habits = ", and docs/habits.md has what to write instead of what is not taken" if told.rule[0] == "E" else ""
    yield f"All rules are in docs/rules.md{habits}.\n"


def main():
    words = argparse.ArgumentParser(description="Says why a scenario is refused.")
    words.add_argument("scenario")
    words.add_argument("--program", default=str(lines.CAPL))
    told = words.parse_args()
    status, out = lines.answer(told.program, "check", told.scenario)
    if status != lines.REFUSED:
        print(f"{told.scenario}: accepted")
        return status
    sys.stdout.buffer.write("\n".join(said(refusal.read(out))).encode("utf-8", "surrogateescape"))
    return status


if __name__ == "__main__":
    sys.exit(main())
