#!/usr/bin/env python3
"""Times how fluently a page of view/page.py is zoomed, in a headless Chromium.

    look.py PAGE [--steps N]

A wheel over the middle of the lanes zooms in from the whole run and out again, one turn of it for each frame of the
screen, 120 turns if not given. Told are the median, the time that one in twenty goes above, and the greatest, of what
drawing took in the page's script, and of how long the screen waited from one frame to the next, in milliseconds.
"""
import argparse
import pathlib
import sys

sys.path.insert(0, str(pathlib.Path(__file__).resolve().parent.parent / "tests"))

import browser  # noqa: E402

WIDE, HIGH = 1400, 900

# Before any script of the page: each call that waits for a frame of the screen is timed.
WATCH = """
window.drawn = [];
const wait = window.requestAnimationFrame.bind(window);
window.requestAnimationFrame = act => wait(now => {
  const before = performance.now();
  act(now);
  window.drawn.push(performance.now() - before);
});
window.waitPlainly = wait;
"""

TURN = """
new Promise(done => {
  const canvas = document.getElementById("canvas"), box = canvas.getBoundingClientRect(), waits = [];
  window.drawn.length = 0;
  let before = performance.now(), turn = 0;
  const one = () => {
    const now = performance.now();
    waits.push(now - before);
    before = now;
    canvas.dispatchEvent(new WheelEvent("wheel", {
      clientX: box.left + box.width / 2, clientY: box.top + 80, deltaY: turn < STEPS / 2 ? -60 : 60, cancelable: true,
    }));
    if (turn++ < STEPS) window.waitPlainly(one); else done({ waits, drawn: window.drawn });
  };
  window.waitPlainly(one);
})
"""


def row(name, times):
    """A row of figures."""
    ordered = sorted(times)
    picks = ordered[len(ordered) // 2], ordered[len(ordered) * 19 // 20], ordered[-1]
    return f"{name:8}" + "".join(f"{it:10.1f}" for it in picks)


def main():
    words = argparse.ArgumentParser(description="Times how fluently a page is zoomed.")
    words.add_argument("page", type=pathlib.Path)
    words.add_argument("--steps", type=int, default=120)
    told = words.parse_args()
    program = browser.found()
    if not program:
        sys.exit("look.py: no Chromium here")
    with browser.started(program) as screen:
        screen.ask("Page.addScriptToEvaluateOnNewDocument", source=WATCH)
        screen.open(told.page.resolve().as_uri(), WIDE, HIGH)
        print(screen.value("document.getElementById('summary').textContent"))
        found = screen.value(TURN.replace("STEPS", str(told.steps)))
        print(f"{'':8}{'median':>10}{'1 in 20':>10}{'greatest':>10}")
        print(row("drawing", found["drawn"]))
        print(row("waiting", found["waits"]))
        for fault in screen.errors:
            sys.exit(f"look.py: {fault}")


if __name__ == "__main__":
    main()
