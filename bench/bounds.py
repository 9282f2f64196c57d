#!/usr/bin/env python3
"""Waiting bounds beside the exact worst case, for 17 messages in the style of the SAE benchmark.

    bounds.py
    bounds.py --times [--rounds N] [--folder FOLDER]

The set is like the one into which Tindell and Burns (Guaranteeing message latencies on
Controller Area Network, 1994) put the signals of the SAE benchmark for class C, strongest
first: data bytes, and the least time between requests in milliseconds. It was written down
without that paper at hand, and is not claimed to be its set.
For each message it prints, at three bit rates and in microseconds, the longest wait from the
request to the start of the frame by the exact analysis, without jitter, and the bound that
`find` of load_bound gives.

The exact one is the queuing delay of Davis, Burns, Bril and Lukkien (Controller Area Network
schedulability analysis: refuted, revisited and revised, 2007): the greatest over all
instances of the message in its busy period.

Nothing of this calls the program: the bound is computed again from its definition.

With --times it tells instead how long `find` and `accept` of load_bound take for sets of 256 streams, the shortest of
so many rounds (6 if not given), by the program of bound_program.txt, which it builds over the crates of this repository
in a temporary folder, or in FOLDER, which is kept.
"""
import argparse
import pathlib
import subprocess
import tempfile

from run import HERE, build_program, processor, stop

MESSAGES = [(1, 1000), (2, 5), (1, 5), (2, 5), (1, 5), (2, 5), (6, 10), (1, 10), (2, 10),
            (2, 10), (1, 100), (4, 100), (1, 100), (1, 100), (3, 1000), (1, 1000), (1, 1000)]
RATES = [(125, 8), (250, 4), (500, 2)]
COUNT = 256
MOST = (1 << 32) - 1
STANDARD, EXTENDED = "standard", "extended"


def bits(count):
    """The bits of a standard frame with so many bytes and all stuff bits, and the intermission."""
    unstuffed = 34 + 8 * count
    return unstuffed + (unstuffed - 1) // 4 + 10 + 3


def streams(bit):
    """Of each message its longest time on the bus and the least time between requests."""
    return [(bits(count) * bit, 1000 * apart) for count, apart in MESSAGES]


def exact(all_streams, place, bit):
    """The greatest queuing delay of the message at this place, or None where the bus has no time for it."""
    time, apart = all_streams[place]
    stronger = all_streams[:place]
    weaker = [c for c, _ in all_streams[place + 1:]]
    blocked = max(weaker, default=0)
    if sum(c / t for c, t in all_streams[:place + 1]) >= 1:
        return None
    busy = time
    while True:
        longer = blocked + sum(-(-busy // t) * c for c, t in all_streams[:place + 1])
        if longer == busy:
            break
        busy = longer
    worst = 0
    for instance in range(-(-busy // apart)):
        wait = blocked + instance * time
        while True:
            longer = blocked + instance * time + sum(((wait + bit - 1) // t + 1) * c for c, t in stronger)
            if longer == wait:
                break
            wait = longer
        worst = max(worst, wait - instance * apart)
    return worst


def bound(all_streams, place):
    """The least good wait of the message at this place, or None where it or a stronger one has none."""
    blocked = max(c for c, _ in all_streams)
    for at in range(place + 1):
        wait = 0
        while wait < all_streams[at][1]:
            enough = blocked + sum((wait // t + 2) * c for c, t in all_streams[:at])
            if enough <= wait:
                break
            wait = enough
        else:
            return None
    return wait


# ---- times


def longest(form, count, bit):
    """The longest time of a frame of this form with so many bytes on the bus, with the intermission."""
    unstuffed = (54 if form == EXTENDED else 34) + 8 * count
    return (unstuffed + (unstuffed - 1) // 4 + 13) * bit


def least_wait(stronger, blocked, low):
    """The least wait that is long enough for a stream behind these, of times on the bus and least times between
    requests, or one that is too long; sought from below: each round passes all frames of the one that takes most."""
    wait = low
    time, period = max(stronger, key=lambda it: it[0] / it[1], default=(0, 1))
    while wait < MOST:
        needed = blocked + sum((wait // t + 2) * c for c, t in stronger)
        if needed <= wait:
            break
        others = needed - wait // period * time
        wait = needed
        if others >= period:
            wait = max(wait, others + ((others - period) // (period - time) + 1) * time)
    return wait


def tightest(form, count, bit):
    """Streams of which each comes as often as it can, where it is to be bounded."""
    time, wait = longest(form, count, bit), 0
    found = []
    while len(found) < COUNT:
        wait = least_wait(found, time, wait)
        found.append((time, min(MOST, wait + 1)))
    return [(form, count, apart) for _, apart in found]


def sets():
    """Sets of streams by what they are, each with the microseconds of a bit."""
    return {
        "each T is 100,000": (1, [(STANDARD, 8, 100_000)] * COUNT),
        "T from 10,000 on, rising by 2,000": (1, [(STANDARD, 8, 10_000 + 2000 * it) for it in range(COUNT)]),
        "T of the strongest is 136": (1, [(STANDARD, 8, 136)] + [(STANDARD, 8, 4_000_000_000)] * (COUNT - 1)),
        "T of the strongest is 4,801": (30, [(EXTENDED, 8, 4801)] + [(STANDARD, 0, MOST)] * (COUNT - 1)),
        "each T is the least, 8 bytes": (1, tightest(EXTENDED, 8, 1)),
        "each T is the least, no bytes": (27, tightest(STANDARD, 0, 27)),
    }


def times(words, folder):
    """Prints a row for each set of streams."""
    main = (HERE / "bound_program.txt").read_text(encoding="utf-8")
    program = build_program(folder, "bound_bench", ["load_bound", "can_frame"], {"main.rt": main})
    print(processor())
    print("| 256 streams | microseconds a bit | with a wait | `find` | `accept` |\n|---|---|---|---|---|")
    for name, (bit, rows) in sets().items():
        (folder / "streams").write_text("".join(f"{form} {count} {apart}\n" for form, count, apart in rows))
        found = []
        for _ in range(words.rounds):
            run = subprocess.run([program, str(bit), folder / "streams"], capture_output=True, text=True)
            if run.returncode:
                stop(f"no bounds of {name}")
            count, accepted, *nanoseconds = run.stdout.split()
            if accepted != "true":
                stop(f"the waits of {name} are not accepted")
            found.append([int(it) / 1e6 for it in nanoseconds])
        find, accept = (min(it) for it in zip(*found))
        print(f"| {name} | {bit} | {count} | {find:.1f} ms | {accept:.1f} ms |", flush=True)


def table():
    """Prints a row for each message."""
    head = "".join(f" exact {rate} | bound {rate} |" for rate, _ in RATES)
    print(f"| Message | Bytes | Apart |{head}")
    print("|---|---|---|" + "---|---|" * len(RATES))
    for place, (count, apart) in enumerate(MESSAGES):
        row = f"| {place + 1} | {count} | {1000 * apart:,} |"
        for _, bit in RATES:
            found = bound(streams(bit), place)
            row += f" {exact(streams(bit), place, bit):,} | {'none' if found is None else f'{found:,}'} |"
        print(row)


def main():
    parser = argparse.ArgumentParser(description=__doc__, formatter_class=argparse.RawDescriptionHelpFormatter)
    parser.add_argument("--times", action="store_true")
    parser.add_argument("--rounds", type=int, default=6)
    parser.add_argument("--folder", type=pathlib.Path)
    words = parser.parse_args()
    if not words.times:
        table()
        return
    with tempfile.TemporaryDirectory(prefix="bound-bench-") as temporary:
        folder = words.folder.resolve() if words.folder else pathlib.Path(temporary)
        folder.mkdir(parents=True, exist_ok=True)
        times(words, folder)


if __name__ == "__main__":
    main()
