#!/usr/bin/env python3
"""Opens the pictures of docs/pictures/ in headless Chromium, and looks their elements and titles up there.

    python3 tests/browser/pictures.py

It wants Python 3.10 or later, and `chromium` on the path; without that it says so, and does nothing. Each picture is put into a page with a script
of this test's own, which writes down what the browser made of it: how many elements of each kind it has, their titles, where they lie, and how they are
filled in light and in dark.
"""

import html
import json
import os
import re
import shutil
import subprocess
import sys
import tempfile

ROOT = os.path.join(os.path.dirname(os.path.abspath(__file__)), "..", "..")

# What each picture has: its rows in order, its crosses, flags, dots and arrows, and titles that are somewhere in it.
WANTED = {
    "supervisor": (
        ["supervisor", "nursery workers", "reader", "scope flush", "writer"],
        (1, 0, 1, 1),
        [
            "reader  is cancelled while sleeping since 0 by nursery workers (writer failed at 4)",
            "writer  raises DiskFull",
            "writer  ends: raised DiskFull(writer@4); nursery workers is cancelled from 4",
        ],
    ),
    "shutdown": (
        ["shutdown", "scope serving", "nursery workers", "upload", "scope drain_upload", "query", "scope drain_query"],
        (3, 2, 0, 0),
        ["query  is cancelled during cleanup while sleeping since 10 by scope drain_query (deadline)"],
    ),
    "retry": (
        ["retry", "scope budget", "scope attempt.0", "scope attempt.1", "scope attempt.2", "scope attempt.3"],
        (4, 4, 0, 0),
        ["retry  leaves scope attempt.0: cancellation caught, raises TooSlow(attempt.0@4)"],
    ),
}

PAGE = """<!doctype html><meta charset="utf-8"><body style="margin:0">%s<pre id="seen"></pre><script>
const svg = document.querySelector('svg'), all = kind => [...svg.querySelectorAll(kind)];
const box = it => { const b = it.getBoundingClientRect(); return [b.left, b.top, b.right, b.bottom]; };
document.getElementById('seen').textContent = JSON.stringify({
  title: svg.querySelector(':scope > title').textContent,
  names: all('text.name').map(it => it.textContent.trim()),
  bars: all('rect.task, rect.scope, rect.nursery').length,
  marks: [all('use[href="#cross"]').length, all('use[href="#deadline"]').length, all('circle.dot').length, all('line.arrow').length],
  titles: all('title').map(it => it.textContent),
  scripts: all('script, image, foreignObject').length,
  view: box(svg),
  boxes: all('rect, use, circle, text').map(box),
  classes: all('rect.task').map(it => it.className.baseVal),
  fills: all('rect.task').map(it => getComputedStyle(it).fill),
  color: getComputedStyle(svg).color,
});
</script>"""


class Wrong(Exception):
    """What was found, in one sentence."""


def dom_of(name, content, *words):
    """What Chromium makes of a file of that name."""
    with tempfile.TemporaryDirectory() as folder:
        path = os.path.join(folder, name)
        with open(path, "w", encoding="utf-8") as file:
            file.write(content)
        command = ["chromium", "--headless", "--no-sandbox", "--disable-gpu", f"--user-data-dir={folder}", "--window-size=1200,900"]
        run = subprocess.run([*command, *words, "--dump-dom", f"file://{path}"], capture_output=True, timeout=120)
    return run.stdout.decode()


def seen_of(svg, *words):
    """What the browser made of a picture in a page."""
    dom = dom_of("page.html", PAGE % svg, *words)
    found = re.search(r'<pre id="seen">(.*?)</pre>', dom, re.DOTALL)
    if not found or not found[1]:
        raise Wrong(f"Chromium wrote {dom[:500]!r}")
    return json.loads(html.unescape(found[1]))


def compare(name, svg):
    names, marks, titles = WANTED[name]
    alone = dom_of("picture.svg", svg)
    if "parsererror" in alone or alone.count("<rect") != svg.count("<rect"):
        raise Wrong(f"{name}: Chromium cannot read it as a document: {alone[:500]!r}")
    light, dark = seen_of(svg), seen_of(svg, "--blink-settings=preferredColorScheme=0")
    # the legend has four bars, two marks, a dot and an arrow
    if light["title"] != name or light["names"] != names or light["bars"] != len(names) + 4:
        raise Wrong(f"{name}: the rows are {light['title']}: {light['names']}, {light['bars']} bars")
    if tuple(count - 1 for count in light["marks"]) != marks:
        raise Wrong(f"{name}: crosses, flags, dots and arrows, with those of the legend, are {light['marks']}")
    if light["scripts"]:
        raise Wrong(f"{name}: it has {light['scripts']} scripts or images")
    for title in titles:
        if not any(" ".join(title.split()) in " ".join(told.split()) for told in light["titles"]):
            raise Wrong(f"{name}: no title has: {title}")
    left, top, right, bottom = light["view"]
    for box in light["boxes"]:
        if box[0] < left or box[1] < top or box[2] > right or box[3] > bottom:
            raise Wrong(f"{name}: something lies at {box}, outside {light['view']}")
    if len(set(light["fills"])) != len(set(light["classes"])):
        raise Wrong(f"{name}: bars of different outcomes are filled as {light['fills']}")
    if light["color"] == dark["color"]:
        raise Wrong(f"{name}: it is the same in light and in dark")


def main():
    if shutil.which("chromium") is None:
        print("pictures.py: there is no Chromium, so no picture was opened")
        return
    for name in WANTED:
        with open(os.path.join(ROOT, "docs", "pictures", name + ".svg"), encoding="ascii") as file:
            compare(name, file.read())
        print(f"pictures.py: docs/pictures/{name}.svg is shown as it should be, in light and in dark")


if __name__ == "__main__":
    try:
        main()
    except (Wrong, OSError) as wrong:
        sys.exit(f"pictures.py: {wrong}")
