"""Trials of the pages of view/ in a headless Chromium, and of its wave files in GTKWave, where these are installed."""
import itertools
import pathlib
import random
import re
import tempfile

import browser
import waves
from shown import (BODY, EXAMPLES, ROOT, SEED, data_of, dump_of, faults_found, made, page, random_signals, signal_files,
                   stamp, written)

PICTURES = ROOT / "docs" / "pictures"

# ---- pages in a browser

# Where the lanes stand on the canvas, as view/web/lanes.js has it.
NAMES, RIGHT, TOP, BAR = 150, 10, 50, 9
WIDE, HIGH = 1280, 860


def run_of(size, row, place):
    """The colour at a place of a row, and from where to where the row has it."""
    colours = [row[i:i + 3] for i in range(0, len(row), size)]
    first = last = place
    while first > 0 and colours[first - 1] == colours[place]:
        first -= 1
    while last + 1 < len(colours) and colours[last + 1] == colours[place]:
        last += 1
    return colours[place], first, last + 1


def opened(screen, folder, text, words="", dark=False, high=HIGH):
    """Opens a page with words behind its address."""
    (folder / "run.html").write_text(text, encoding="utf-8")
    screen.open(f"file://{folder}/run.html{words}", WIDE, high, dark)


def told(screen):
    """What the page says that is in view."""
    return screen.value("document.getElementById('status').textContent")


def faults_of_opened(screen, program, folder):
    """Where pages of examples tell of an error, or do not say how many frames and lines are in view."""
    for path in EXAMPLES:
        text = page(program, path)
        data = data_of(text)
        opened(screen, folder, text)
        frames, lines = len(data["frames"]["end"]), len(data["lines"]["at"])
        want = f"frames {frames}, lines {lines}, load {percent(data['load']['mean'])}"
        if want not in told(screen):
            yield f"{path}: {told(screen)!r} does not say {want!r}"


def percent(part):
    """A load as the page writes it."""
    return f"{100 * part:.{2 if part < 0.0995 else 1}f} %"


def faults_of_zoom(screen, program, folder):
    """Where a zoomed view does not show a frame at its place and in the colour of its sender."""
    text = page(program, BODY)
    data = data_of(text)
    paints = re.findall(r"--paint\d: (#[0-9a-f]{6});", text)[:7]
    opened(screen, folder, text)
    for i in range(0, len(data["frames"]["end"]), 16):
        end = data["frames"]["end"][i]
        length = data["frames"]["bits"][i] * data["bit"]
        start, third = end - length, length
        screen.value(f"location.hash = 't={start - third}_{end + third}'")
        screen.settle()
        view = f"{stamp(max(0, start - third), 1)} to {stamp(min(data['last'], end + third), 1)} s"
        if not told(screen).startswith(f"In view {view}"):
            yield f"the address of frame {i} shows {told(screen)}"
        top = screen.value("document.getElementById('canvas').getBoundingClientRect().top")
        size, rows = browser.pixels_of(screen.picture(0, round(top) + TOP + BAR, WIDE, 1))
        scale = (WIDE - NAMES - RIGHT) / (length + 2 * third)
        want = [NAMES + third * scale, NAMES + (third + length) * scale]
        colour, first, last = run_of(size, rows[0], round(sum(want) / 2))
        paint = paints[data["kinds"][data["frames"]["kind"][i]]["sender"]]
        if colour.hex() != paint[1:] or abs(first - want[0]) > 1.5 or abs(last - want[1]) > 1.5:
            yield f"frame {i} is #{colour.hex()} from {first} to {last}, not {paint} between {want}"


def faults_of_plots(screen, program, folder):
    """Where a plot of a signal does not go on to the end of the run."""
    text = page(program, BODY)
    last, names = data_of(text)["last"], [f"{it['message']}.{it['name']}" for it in data_of(text)["signals"]]
    accent = re.search("--accent: (#[0-9a-f]{6});", text)[1]
    for some in (names[i:i + 6] for i in range(0, len(names), 6)):
        words = f"#t={-last // 50}_{last + last // 50}&s={','.join(some)}"
        opened(screen, folder, text, words, high=HIGH + 400)
        top = round(screen.value("document.getElementById('canvas').getBoundingClientRect().top")) + TOP
        left = round(NAMES + (WIDE - NAMES - RIGHT) * 0.975)
        size, rows = browser.pixels_of(screen.picture(left, top, 1, HIGH + 400 - top))
        levels = [key for key, _ in itertools.groupby(row[:3].hex() == accent[1:] for row in rows)].count(True)
        if levels != len(some):
            yield f"{some} have {levels} levels near the end"


def faults_of_keys(screen, program, folder):
    """Where keys and the wheel do not zoom, move, search and choose."""
    opened(screen, folder, page(program, BODY))
    screen.key("/", "/")
    for letter in "hazard":
        screen.key(letter, letter)
    screen.key("Enter", "\r")
    screen.settle()
    if "Lights: hazard 1" not in told(screen) or screen.value("document.getElementById('matches').value") != "2 found":
        yield f"the search of hazard shows {told(screen)}"
    row = screen.value("document.querySelector('[aria-selected=true]').textContent")
    if "hazard 1" not in row:
        yield f"the list has chosen {row!r}"
    screen.value("document.getElementById('list').focus()")
    screen.key("ArrowDown")
    screen.key("Enter", "\r")
    screen.settle()
    address = screen.value("location.hash")
    if "Lights: hazard 0" not in told(screen) or "q=hazard" not in address:
        yield f"down and Enter show {told(screen)} at {address}"
    spans = [span_of(screen)]
    screen.ask("Input.dispatchMouseEvent", type="mouseWheel", x=700, y=400, deltaX=0, deltaY=-300)
    screen.settle()
    spans.append(span_of(screen))
    if not spans[1] < 0.8 * spans[0]:
        yield f"the wheel makes {spans[1]} of {spans[0]} microseconds"
    screen.key("0", "0")
    screen.settle()
    if not told(screen).startswith("In view 0.000000 to 3.900000 s"):
        yield f"0 shows {told(screen)}"


def span_of(screen):
    """How many microseconds the address has in view."""
    found = re.search(r"t=(-?\d+)_(-?\d+)", screen.value("location.hash"))
    return int(found[2]) - int(found[1])


def faults_of_readers(screen, program, folder):
    """Where a screen reader finds no list of all entries, or no name of a control."""
    text = page(program, BODY)
    opened(screen, folder, text)
    nodes = [it for it in screen.ask("Accessibility.getFullAXTree")["nodes"] if not it.get("ignored")]
    named = [(it["role"]["value"], it.get("name", {}).get("value", "")) for it in nodes]
    options = [name for role, name in named if role == "option" and "0.146000" in name]
    if not any("DoorLeft" in it and "door open" in it for it in options):
        yield f"no entry says that the door opens: {options}"
    for role, name in named:
        if role in ("listbox", "button", "searchbox", "combobox", "image", "img", "textbox") and not name:
            yield f"a {role} has no name"
    size = screen.value("document.querySelector('.row').getAttribute('aria-setsize')")
    if size != str(len(data_of(text)["order"])):
        yield f"the list says that it has {size} entries"


def faults_of_themes(screen, program, folder):
    """Where a page is not light, or dark, as the system asks."""
    for dark in (False, True):
        opened(screen, folder, page(program, BODY), dark=dark)
        places = (2, 2), (4, 300), (2, HIGH - 2)
        light = [max(browser.pixels_of(screen.picture(*place, 1, 1))[1][0][:3]) for place in places]
        if any((it < 64) != dark for it in light):
            yield f"where dark is {dark} the page is as light as {light}"


def faults_of_refused(screen, program, folder):
    """Where the page of a refusal does not show the line and the mark under it."""
    made(folder, {"s.scn": "scenario 1\nnode N n.can\n", "n.can": "on start {\n  x = 1;\n}\n"})
    opened(screen, folder, written("page.py", program, str(folder / "s.scn"))[1])
    text = screen.value("document.body.innerText")
    for part in (f"refused {folder}/n.can:2:3 E09", "2 |   x = 1;\n  |   ^"):
        if part not in text:
            yield f"{part!r} is not in {text!r}"


BROWSED = {
    "pages open in Chromium": faults_of_opened, "a zoomed page shows its frame": faults_of_zoom,
    "plots go on to the end": faults_of_plots, "keys, wheel and search": faults_of_keys,
    "names for screen readers": faults_of_readers, "light and dark pages": faults_of_themes,
    "a refusal in Chromium": faults_of_refused,
}


def browsed(program, pictures):
    """The trials of pages in a browser."""
    name = browser.found()
    if not name:
        print("no Chromium here: the pages are not opened")
        return []
    trials = []
    with tempfile.TemporaryDirectory() as keep, browser.started(name) as screen:
        folder = pathlib.Path(keep)
        for what, faults in BROWSED.items():
            found = faults_found(faults, screen, program, folder)
            trials.append((what, found + [f"the page tells of an error: {it}" for it in screen.errors]))
            screen.errors.clear()
        if pictures:
            text = page(program, BODY, "--signals", "Clamp,Speed,LeftWindow")
            opened(screen, folder, text, "#t=-40000_3960000&e=51", high=900)
            (PICTURES / "page.png").write_bytes(screen.picture())
    return trials


# ---- wave files in GTKWave

# Variables of the bus, of which GTKWave writes hexadecimal digits.
BUS = ["bus.busy", "bus.identifier[28:0]", "bus.byte0[7:0]", "bus.byte1[7:0]"]
# Those of the body bus, of which GTKWave writes the numbers in decimal digits.
BODY_NAMES = [*(f"signals.{it}" for it in ("ClampStatus.Clamp", "ClampStatus.Speed", "ClampStatus.Ambient",
                                          "DoorLeftStatus.LeftWindow", "LightStatus.TurnLamps")),
              *(f"lines.{it}" for it in ("Gateway", "DoorLeft", "DoorRight", "Lights"))]
# What of the run the picture shows.
SPAN = 1299000, 1304500


def value_of(text, is_hexadecimal):
    """The value that GTKWave writes: decimal digits and texts as they are, and the number of hexadecimal digits."""
    if re.fullmatch("[xX]+|[zZ]+", text):
        return text[0].lower()
    return int(text, 16) if is_hexadecimal else text


def faults_of_gtkwave(program, path, names, picture):
    """Where GTKWave shows other values than the second reader; names say whether they are hexadecimal."""
    with tempfile.TemporaryDirectory() as keep:
        folder = pathlib.Path(keep)
        (folder / "run.vcd").write_text(written("vcd.py", program, path)[1], encoding="utf-8")
        dump = dump_of(program, path)
        moments = sorted(random.Random(SEED).sample(sorted({at for it in dump.values() for at, _ in it}), 12))
        drawn = folder / "drawn.png"
        shows, errors = waves.asked(folder / "run.vcd", moments, names, folder, drawn, SPAN if picture else None)
        yield from (f"GTKWave says: {it}" for it in errors)
        if drawn.stat().st_size < 5000:
            yield "GTKWave draws nothing"
        if picture:
            picture.write_bytes(drawn.read_bytes())
    for (moment, name), text in shows.items():
        value = waves.value_at(dump[name.split("[")[0]], moment)
        want = value if names[name] else str(value)
        if value_of(text, names[name]) != want:
            yield f"{name} at {moment} is {text!r}, not {want!r}"
    if len(shows) != len(moments) * len(names):
        yield f"GTKWave tells {len(shows)} values, not {len(moments) * len(names)}"


def waved(program, pictures):
    """The trials of wave files in GTKWave."""
    if missing := waves.missing():
        print(f"no {' and no '.join(missing)} here: the wave files are not opened")
        return
    names = {**dict.fromkeys(BUS, True), **dict.fromkeys(BODY_NAMES, False)}
    picture = PICTURES / "waves.png" if pictures else None
    yield "the body bus in GTKWave", faults_found(faults_of_gtkwave, program, BODY, names, picture)
    with tempfile.TemporaryDirectory() as keep:
        chance = random.Random(SEED)
        laid = list(random_signals(chance, 40))
        path = made(pathlib.Path(keep), signal_files(laid, [chance.randbytes(8) for _ in range(20)]))
        # An integer of more than 64 bits it writes in hexadecimal digits.
        names = {f"signals.Mixed.{it.name}": it.bits == 64 and not it.signed for it in laid}
        yield "signals of all lengths in GTKWave", faults_found(faults_of_gtkwave, program, path, names, None)
