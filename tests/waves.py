"""A second reader of value change dumps, and a GTKWave that tests ask for what it reads of one."""
import contextlib
import os
import re
import shutil
import subprocess

SECONDS = 30
NEEDED = ("gtkwave", "Xvfb")
SCALAR = re.compile(r"([01xz])(\S+)")
VECTOR = re.compile(r"b([01xz]+) (\S+)")
STRING = re.compile(r"s(\S*) (\S+)")


def unescaped(text):
    """The text of a string's value."""
    return re.sub(rb"\\([0-7]{3})", lambda it: bytes([int(it[1], 8)]), text.encode("latin-1")).decode("utf-8")


def number_of(digits):
    """The number of binary digits; `x` or `z` where it has one."""
    return next((it for it in "xz" if it in digits), None) or int(digits, 2)


def declared(lines):
    """The variables of a dump by their codes: {code: (scopes and name with dots between, kind, width)}."""
    variables, scopes = {}, []
    for line in lines:
        words = line.split()
        if words[0] == "$scope":
            scopes.append(words[2])
        elif words[0] == "$upscope":
            scopes.pop()
        elif words[0] == "$var":
            assert words[3] not in variables, f"{words[3]} is declared twice"
            variables[words[3]] = (".".join([*scopes, words[4]]), words[1], int(words[2]))
        elif words[0] == "$enddefinitions":
            assert not scopes, f"{scopes} are not closed"
            return variables
    raise AssertionError("the declarations have no end")


def read(text):
    """The values of each variable of a dump: {name: [(moment, value)]}, a value for each line that sets one."""
    lines = iter(text.split("\n"))
    variables = declared(lines)
    values, moment = {name: [] for name, _, _ in variables.values()}, -1
    for line in filter(None, lines):
        if line.startswith("#"):
            assert int(line[1:]) > moment, f"{line} is no later moment"
            moment = int(line[1:])
        elif found := SCALAR.fullmatch(line) or VECTOR.fullmatch(line):
            name, kind, width = variables[found[2]]
            value = number_of(found[1])
            if kind == "integer" and not isinstance(value, str) and value >> (width - 1):
                value -= 1 << width
            values[name].append((moment, value))
        elif found := STRING.fullmatch(line):
            values[variables[found[2]][0]].append((moment, unescaped(found[1])))
        else:
            assert line in ("$dumpvars", "$end"), f"{line!r} is no change"
    return values


def value_at(changes, moment):
    """The value that is the last at a moment, all changes of this moment done."""
    return [value for at, value in changes if at <= moment][-1]


# ---- GTKWave

# It ends GTKWave also where a command of it fails.
SCRIPT = """\
if {[catch {
    set names [list %(names)s]
    gtkwave::addSignalsFromList $names
    foreach moment [list %(moments)s] {
        gtkwave::setMarker $moment
        foreach name $names { puts "value $moment $name [gtkwave::getTraceValueAtMarkerFromName $name]" }
    }
    %(zoom)s
    %(grab)s
} fault]} { puts "error: $fault" }
gtkwave::/File/Quit
"""


def missing():
    """The programs that are needed and not there."""
    return [name for name in NEEDED if not shutil.which(name)]


@contextlib.contextmanager
def screen(width, height):
    """The name of a screen of its own that no one sees."""
    reading, writing = os.pipe()
    words = ["Xvfb", "-displayfd", str(writing), "-screen", "0", f"{width}x{height}x24", "-nolisten", "tcp"]
    process = subprocess.Popen(words,
                               stdout=subprocess.DEVNULL, stderr=subprocess.DEVNULL, pass_fds=(writing,))
    os.close(writing)
    try:
        with os.fdopen(reading) as pipe:
            yield f":{pipe.readline().strip()}"
    finally:
        process.terminate()
        process.wait(SECONDS)


def asked(dump, moments, names, folder, picture=None, span=None):
    """What GTKWave shows of variables at moments: {(moment, name): text}; and what it said of errors."""
    zoom = "gtkwave::/Time/Zoom/Zoom_Full"
    if span:
        zoom = f"gtkwave::setZoomRangeTimes {span[0]} {span[1]}; gtkwave::setMarker {sum(span) // 2}"
    (folder / "ask.tcl").write_text(SCRIPT % {
        "names": " ".join(f"{{{it}}}" for it in names), "moments": " ".join(map(str, moments)), "zoom": zoom,
        "grab": f"gtkwave::/File/Grab_To_File {picture}" if picture else ""})
    with screen(1400, 900) as name:
        done = subprocess.run(["gtkwave", "--rcvar", "initial_window_x 1100", "--rcvar", "initial_window_y 460",
                               "--rcvar", "initial_signal_window_width 330", "--rcvar", "hide_sst on",
                               "-S", "ask.tcl", dump.name], cwd=folder, env={**os.environ, "DISPLAY": name},
                              stdin=subprocess.DEVNULL, capture_output=True, text=True, timeout=SECONDS)
    found = re.findall(r"^value (\d+) (\S+) (.*)$", done.stdout, re.MULTILINE)
    errors = [it for it in (done.stdout + done.stderr).split("\n") if re.search(r"error|invalid|unknown", it, re.I)]
    if done.returncode:
        errors.append(f"status {done.returncode}")
    return {(int(moment), it): text for moment, it, text in found}, errors
