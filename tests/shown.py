"""What the tests of view/ have in common: scenarios, what the program and the scripts of view/ make of them, trials."""
import functools
import json
import pathlib
import re
import subprocess
import sys

import waves

ROOT = pathlib.Path(__file__).resolve().parent.parent
VIEW = ROOT / "view"
sys.path.insert(0, str(VIEW))

import database  # noqa: E402

SECONDS = 60
SEED = 32
BODY = "examples/body-bus/body.scn"
EXAMPLES = (BODY, "examples/turn-signal-log/flasher.scn", "examples/four-frames/four.scn",
            "examples/door-control/door.scn", "examples/replay/watch.scn")


# ---- what is run

def made(folder, files):
    """Writes files, texts or bytes, into a folder, and gives the path of its scenario."""
    for name, text in files.items():
        (folder / name).write_bytes(text if isinstance(text, bytes) else text.encode("utf-8"))
    return str(folder / "s.scn")


def said(program, command, path):
    """What the program writes."""
    return subprocess.run([program, command, path], cwd=ROOT, stdin=subprocess.DEVNULL, stdout=subprocess.PIPE,
                          timeout=SECONDS).stdout


def written(script, program, path, *words):
    """The status, output and errors of a script of view/."""
    done = subprocess.run([sys.executable, str(VIEW / script), path, "--program", program, *words], cwd=ROOT,
                          stdin=subprocess.DEVNULL, capture_output=True, timeout=SECONDS)
    return done.returncode, done.stdout.decode("utf-8"), done.stderr.decode("utf-8")


@functools.cache
def page(program, path, *words):
    """The page of a run."""
    status, text, errors = written("page.py", program, path, *words)
    assert status == 0 and not errors, f"page.py ended with status {status}: {errors}"
    return text


def data_of(text):
    """The data of a page."""
    found = re.findall(r'<script type="application/json" id="run">(.*?)</script>', text, re.DOTALL)
    assert len(found) == 1, f"{len(found)} places with data"
    return json.loads(found[0])


def dump_of(program, path):
    """The values of a wave file."""
    status, text, errors = written("vcd.py", program, path)
    assert status == 0 and not errors, f"vcd.py ended with status {status}: {errors}"
    return waves.read(text)


def stamp(moment, width):
    """A moment as the program prints it."""
    return f"{moment // 10**6:0{width}d}.{moment % 10**6:06d}"


# ---- signals

def random_signals(chance, count):
    """Signals within eight bytes, of all lengths and both orders of bytes."""
    named = 0
    while named < count:
        little, start = chance.random() < 0.5, chance.randrange(64)
        width = chance.choice([1, 2, 7, 8, 12, 31, 32, 33, 63, 64])
        it = database.Signal(f"S{named}", start, width, little, chance.random() < 0.5, "", None)
        if database.is_usable(it):
            named += 1
            yield it


def code_of(signal):
    """The code of `write` for the kind that a signal has in a source."""
    if signal.bits > 32 or (signal.bits == 32 and not signal.signed):
        wide = signal.bits > 32
        unsigned = signal.bits in (32, 64) and not signal.signed
        return ("%I64" if wide else "%") + ("u" if unsigned else "d")
    return "%d"


def signal_files(signals, payloads):
    """A scenario in which one node sends payloads, and another writes the number of each signal."""
    rows = [f" SG_ {it.name} : {it.start}|{it.bits}@{int(it.little)}{'-' if it.signed else '+'} (1,0) [0|0] \"\" Reader"
            for it in signals]
    sets = "\n".join(f"  if (n == {i}) {{ {' '.join(f'm.byte({k}) = {byte};' for k, byte in enumerate(data))} }}"
                     for i, data in enumerate(payloads))
    writes = "\n".join(f'  write("{it.name} {code_of(it)}", this.{it.name});' for it in signals)
    return {
        "s.scn": f"scenario 1\ndatabase d.dbc\nnode Sender a.can\nnode Reader b.can\nuntil {2 * len(payloads) + 1}\n",
        "d.dbc": "BO_ 2147484676 Mixed: 8 Sender\n" + "\n".join(rows) + "\n",
        "a.can": "variables { message Mixed m; msTimer t; int n; }\non start { setTimerCyclic(t, 2); }\n"
                 f"on timer t {{\n{sets}\n  output(m); n++;\n}}\n",
        "b.can": f"on message Mixed {{\n{writes}\n}}\n",
    }


# ---- trials

def faults_found(faults, *words):
    """What a trial finds; an error in it is a fault."""
    try:
        return list(faults(*words))
    except Exception as error:  # whatever a script or a page did not do
        return [f"{type(error).__name__}: {error}"]
