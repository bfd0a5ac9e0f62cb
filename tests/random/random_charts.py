#!/usr/bin/env python3
"""Draws the charts of random jobs from their stories, and compares them with what `nursery chart` draws.

    python3 tests/random/random_charts.py PROGRAM [JOBS [SEED]]

PROGRAM is the built executable. It needs Python 3.10 or later. Each job's text chart is drawn here from what `nursery explain` prints and the order
of tasks in its report, at several widths, and has to be the same to the byte. The SVG document is read by Python's XML parser: its
rows have to be the report's tasks, and below each its scopes and nurseries, with their outcomes in one column; its ticks have to be
those of the story, as far apart as they are worked out here; and no number in it may be out of its view.
"""

import os
import random
import re
import subprocess
import sys
import tempfile
import xml.etree.ElementTree
from concurrent.futures import ThreadPoolExecutor

from jobs import job_of_any_format

LIMIT = 1000
MOST_OUTCOME = 24
SVG_WIDTH = 400
SVG = "{http://www.w3.org/2000/svg}"


class Wrong(Exception):
    """What was found, in one sentence."""


class Bar:
    """A row: its name, when it starts and ends (None if that is not printed), its outcome, and the ticks of its crosses, dots and pluses."""

    def __init__(self, kind, label, start):
        self.kind, self.label, self.start, self.end = kind, label, start, None
        self.outcome, self.crosses, self.dots, self.pluses, self.blocks, self.cancelled, self.deadline = "", [], [], [], [], None, None

    def name(self):
        return self.label if self.kind == "task" else f"  {self.kind} {self.label}"

    def is_cancelled(self):
        """Whether the row shows that it is cancelled: that comes between its start and its end."""
        return self.cancelled is not None and self.start <= self.cancelled and (self.end is None or self.cancelled <= self.end)

    def cancel(self, tick):
        self.cancelled = tick if self.cancelled is None else min(tick, self.cancelled)


def story_of(text):
    """The events of a story as (tick, task, sentence), and its limit, if it is cut off at one."""
    events, tick = [], 0
    for line in text.splitlines():
        if line.startswith("tick "):
            tick = int(line[5:])
        elif line.startswith("limit "):
            return events, int(line[6:])
        else:
            task, sentence = re.fullmatch(r"  (\S+) +(.*)", line).groups()
            events.append((tick, task, sentence))
    return events, None


def is_cancellation(exception):
    """Whether each leaf of an exception, as it is printed, is `Cancelled`."""
    return set(re.sub(r"[^\s\[\]]*\[|\]", "", exception).split(", ")) == {"Cancelled"}


def left_by_cancellation(home, sentence):
    """The nursery that a sentence cancels without saying so: its task ends, or its body, with nothing but `Cancelled`."""
    ends = re.fullmatch(r"ends: (?:raised )?(.*)", sentence)
    if ends and home and is_cancellation(ends[1].replace("cancelled", "Cancelled")):
        return home
    waits = re.fullmatch(r"waits for nursery (\S+) after (.*)", sentence)
    return waits[1] if waits and is_cancellation(waits[2]) else None


def bars_of(events, delay):
    """The tasks of a story by their labels, each with its scopes and nurseries. A cancellation is seen so many ticks later."""
    tasks, blocks, homes = {}, {}, {}
    for tick, task, sentence in events:
        word = sentence.split(" ", 1)[0].rstrip(":")
        if word == "starts":
            tasks[task] = Bar("task", task, tick)
            homes[task] = sentence.removeprefix("starts").removeprefix(" in nursery ")
            continue
        bar = tasks[task]
        if word == "sets":
            bar.pluses.append(tick)
        elif word == "enters" and not sentence.startswith("enters event "):
            kind, label = sentence.split(" ")[1:3]
            block = blocks[label] = Bar(kind, label, tick)
            bar.blocks.append(block)
            deadline = re.search(r"\(deadline (\d+)", sentence)
            if deadline:
                block.cancelled = block.deadline = int(deadline[1])
        elif word == "leaves":
            label, _, how = sentence.split(" ", 2)[2].partition(": ")
            blocks[label].end = tick
            blocks[label].outcome = "caught" if how.startswith("cancellation caught") else "passed"
        elif word == "ends":
            bar.end, bar.outcome = tick, sentence[6:].split("; nursery ")[0]
        elif sentence.startswith("is cancelled"):
            bar.crosses.append(tick)
        elif word == "raises" or sentence.startswith("finds no line and raises "):
            bar.dots.append(tick)
        found = re.search(r"(?:^cancels (?:scope |nursery )(\S+) from|; nursery (\S+) is cancelled from) (\d+)$", sentence)
        if found:
            blocks[found[1] or found[2]].cancel(int(found[3]))
        left = left_by_cancellation(homes[task], sentence)
        if left:
            blocks[left].cancel(tick + delay)
    return tasks


def gap(tick, following):
    return len(str(tick)) + 1 + (following - tick).bit_length() - 1


def narrowed(less, tick, following):
    """The gap with so many characters less, but at least one."""
    return max(1, gap(tick, following) - less)


def span(less, ticks):
    return sum(narrowed(less, a, b) for a, b in zip(ticks, ticks[1:])) + len(str(ticks[-1]))


def layout_of(room, ticks):
    """By how much the gaps are narrowed, and the ticks of each panel: all of them, if they fit at some number."""
    for less in range(84):
        if span(less, ticks) <= room:
            return less, [ticks]
    size = max(10, room - len(str(ticks[-1])))
    return 83, [ticks[at : at + size] for at in range(0, len(ticks), size)]


def columns_of(less, ticks):
    """Each tick with its column."""
    columns, at = {}, 0
    for tick, following in zip(ticks, [*ticks[1:], None]):
        columns[tick] = at
        at += 1 if following is None else narrowed(less, tick, following)
    return columns


def header_of(columns):
    """The numbers above the columns: each in the first of four lines in which a blank can stand before it, or nowhere."""
    lines = ["", "", "", ""]
    for tick, at in columns.items():
        for place, line in enumerate(lines):
            if line == "" or len(line) < at:
                lines[place] = line.ljust(at) + str(tick)
                break
    return [line for line in lines if line]


def line_of(columns, last, bar, names):
    """The line of a bar in a panel with these columns, or None if the bar has no part there."""
    first, line, end_mark = "|-|" if bar.kind == "task" else "(=)"
    end = last if bar.end is None else bar.end
    ticks = list(columns)
    if bar.start > ticks[-1] or end < ticks[0]:
        return None
    crosses = set(bar.crosses)
    if bar.is_cancelled():
        crosses.add(bar.cancelled)
    drawn = [" "] * (columns[ticks[-1]] + 1)
    for at in range(columns[max(bar.start, ticks[0])], columns[min(end, ticks[-1])] + 1):
        drawn[at] = line
    if bar.end in columns:
        drawn[columns[bar.end]] = end_mark
    if bar.start in columns:
        drawn[columns[bar.start]] = first
    for mark, where in (("+", bar.pluses), ("!", bar.dots), ("x", crosses)):
        for tick in where:
            if tick in columns:
                drawn[columns[tick]] = mark
    after = "~" if end > ticks[-1] else f" {bar.outcome or ('running' if bar.kind == 'task' else 'open')}"
    return bar.name().ljust(names) + (" ~" if bar.start < ticks[0] else "  ") + "".join(drawn).rstrip(" ") + after


def ticks_of(events, limit):
    return sorted({tick for tick, _, _ in events} | ({limit} if limit is not None else set()))


def room_of(width, rows):
    """The room for columns in a width, beside names and outcomes."""
    names = max(len(bar.name()) for bar in rows)
    outcomes = max(len(bar.outcome or ("running" if bar.kind == "task" else "open")) for bar in rows)
    return max(width - names - 2 - min(MOST_OUTCOME, outcomes) - 1, 0)


def chart_of(width, events, limit, rows):
    ticks = ticks_of(events, limit)
    names = max(len(bar.name()) for bar in rows)
    less, panels = layout_of(room_of(width, rows), ticks)
    lines = []
    for panel in panels:
        columns = columns_of(less, panel)
        lines += [" " * (names + 2) + line for line in header_of(columns)]
        lines += filter(None, (line_of(columns, ticks[-1], bar, names) for bar in rows))
    if limit is not None:
        lines.append(f"limit {limit}")
    return "".join((line if len(line) <= width else line[: width - 2] + "..") + "\n" for line in lines)


class Program:
    """The program, with a folder for its files."""

    def __init__(self, program, folder):
        self.program = os.path.abspath(program)
        self.job, self.input = os.path.join(folder, "job"), os.path.join(folder, "input")

    def call(self, command, *words):
        run = subprocess.run([self.program, command, self.job, self.input, "--limit", str(LIMIT), *words], capture_output=True, timeout=600)
        return run.returncode, run.stdout.decode()


def rows_of(program, tasks):
    """The rows in the order of the report; of a job that does not end by the limit, in that of the chart."""
    status, report = program.call("run")
    if status in (0, 1):
        order = [line.split(" ")[1] for line in report.splitlines() if line.startswith("task ")]
    else:
        _, chart = program.call("chart", "--width", "1000")
        order = list(dict.fromkeys(line.split(" ")[0] for line in chart.splitlines() if line.split(" ")[0] in tasks))
    if sorted(order) != sorted(tasks):
        raise Wrong(f"the rows are those of {order}")
    return [bar for label in order for bar in (tasks[label], *tasks[label].blocks)]


def settle_rounds(program, rows):
    """In format 3 a story does not say in which rounds of one tick a block is entered, cancelled and left. The widest chart says whether the
    cancellation comes between."""
    _, chart = program.call("chart", "--width", "1000")
    names = max(len(bar.name()) for bar in rows)
    for line, bar in zip((line for line in chart.splitlines() if line[: names + 2].strip()), rows):
        if bar.kind != "task" and bar.cancelled in (bar.start, bar.end) and "x" not in line[names + 2 :]:
            bar.cancelled = None


def check_axis(root, ticks, rows):
    """The ticks have to be there, as far apart as gaps and numbers say, with a note where they are not to scale."""
    numbers = [it for it in root.iter(f"{SVG}text") if it.get("class") == "tick"]
    if [int(it.text) for it in numbers] != ticks:
        raise Wrong(f"the SVG has the ticks {[it.text for it in numbers]}")
    less = layout_of(room_of(SVG_WIDTH, rows), ticks)[0]
    rooms = [max(len(str(b)) // 2 + 1, narrowed(less, a, b)) for a, b in zip(ticks, ticks[1:])]
    places = [int(it.get("x")) for it in numbers]
    if [b - a for a, b in zip(places, places[1:])] != [14 * room for room in rooms]:
        raise Wrong(f"the SVG has its ticks at {places}")
    linear = len({(b - a, room) for a, b, room in zip(ticks, ticks[1:], rooms)}) <= 1
    noted = any("not to scale" in it.text for it in root.iter(f"{SVG}text") if it.get("class") == "note")
    if noted == linear:
        raise Wrong(f"the SVG says {'that' if noted else 'nothing of it that'} its axis is not to scale")


def check_svg(text, ticks, rows):
    root = xml.etree.ElementTree.fromstring(text)
    check_axis(root, ticks, rows)
    width, height = int(root.get("width")), int(root.get("height"))
    texts = {kind: [it.text.strip() for it in root.iter(f"{SVG}text") if it.get("class") == kind] for kind in ("name", "outcome")}
    if texts["name"] != [bar.name().strip() for bar in rows]:
        raise Wrong(f"the SVG has the names {texts['name']}")
    if texts["outcome"] != [bar.outcome or ("running" if bar.kind == "task" else "open") for bar in rows]:
        raise Wrong(f"the SVG has the outcomes {texts['outcome']}")
    if len({it.get("x") for it in root.iter(f"{SVG}text") if it.get("class") == "outcome"}) > 1:
        raise Wrong("the outcomes of the SVG are not in one column")
    flags = sum(bar.is_cancelled() and bar.cancelled == bar.deadline for bar in rows)
    crosses, dots = sum(len(bar.crosses) for bar in rows), sum(len(bar.dots) for bar in rows)
    # the legend has one of each
    marks = [it.get("href") for it in root.iter(f"{SVG}use")] + ["dot" for _ in root.iter(f"{SVG}circle")]
    for mark, wanted in (("#cross", crosses), ("#deadline", flags), ("dot", dots)):
        if marks.count(mark) != wanted + 1:
            raise Wrong(f"the SVG has {marks.count(mark)} marks {mark}, and its rows {wanted}")
    for it in root.iter():
        for name, most in (("x", width), ("x1", width), ("x2", width), ("cx", width), ("y", height), ("y1", height), ("y2", height), ("cy", height)):
            if it.get(name) is not None and not 0 <= int(it.get(name)) <= most:
                raise Wrong(f"{it.tag} has {name} = {it.get(name)}")


def compare(program, text, data):
    with open(program.job, "w", encoding="ascii") as file:
        file.write(text)
    with open(program.input, "wb") as file:
        file.write(data)
    status, story = program.call("explain")
    if status not in (0, 1, 3):
        return 0
    events, limit = story_of(story)
    tasks = bars_of(events, 0 if text.startswith("trio-job 3") else 1)
    for bar in tasks.values():
        for block in bar.blocks:
            if block.end is None and block.cancelled is not None and limit is not None and block.cancelled > limit:
                block.cancelled = None
    rows = rows_of(program, tasks)
    if text.startswith("trio-job 3"):
        settle_rounds(program, rows)
    charts = 0
    for width in (20, 33, 50, 80, 200):
        wanted = chart_of(width, events, limit, rows)
        got_status, got = program.call("chart", "--width", str(width))
        if (got_status, got) != (status, wanted):
            raise Wrong(f"with --width {width}, status {got_status}:\n{got}wanted, status {status}:\n{wanted}")
        charts += 1
    for workers in ("3", "64"):
        if program.call("chart", "--width", "80", "--workers", workers) != (status, chart_of(80, events, limit, rows)):
            raise Wrong(f"with {workers} workers the chart is another")
    got_status, svg = program.call("chart", "--svg")
    if got_status != status:
        raise Wrong(f"with --svg the status is {got_status}")
    check_svg(svg, ticks_of(events, limit), rows)
    return charts + 1


def one(program, seed):
    with tempfile.TemporaryDirectory() as folder:
        text, data = job_of_any_format(seed)[1], b"error\nok\nan er\nlast ok"
        try:
            return compare(Program(program, folder), text, data)
        except Wrong as wrong:
            raise Wrong(f"seed {seed}: {wrong}\nof the job\n{text}") from None


def main():
    program, jobs, seed = sys.argv[1], int((sys.argv[2:] or ["200"])[0]), int((sys.argv[3:] or ["1"])[0])
    with ThreadPoolExecutor(os.cpu_count()) as pool:
        charts = sum(pool.map(lambda n: one(program, random.Random(f"{seed} {n}").getrandbits(32)), range(jobs)))
    print(f"random_charts.py: {charts} charts of {jobs} jobs are as drawn from their stories")


if __name__ == "__main__":
    try:
        main()
    except Wrong as wrong:
        sys.exit(f"random_charts.py: {wrong}")
