#!/usr/bin/env python3
"""Compares the reports of random jobs of format 3 with limiters and channels with those of the model in sharing.py, byte by byte, and what
their stories say of queues.

    python3 tests/random/random_sharing.py PROGRAM [JOBS [SEED]]

PROGRAM is the built executable. It wants Python 3.11. Each job is run over an input of some lines, by 1, 3 or 64 workers. A job that does not end by the
limit has its report, the limit, too. Of each story the lines about who joins a queue, in which place, and who goes on by whose doing are compared. Its
drawing has to have an arrow for each wait in a queue that another task ended, from what that task did. The last line says how many jobs were granted
something, how many ended late, how many waits and grants their stories told, and how many arrows were looked for.
"""

import random
import re
import subprocess
import sys
import xml.etree.ElementTree
from concurrent.futures import ThreadPoolExecutor

from jobs import random_job
from sharing import run_of_text

LINES = [b"error one\n", b"ok\n", b"\n", b"warning: error\n", b"last line"]
GRANTED = (b"\n  acquire ", b"\n  send ", b"\n  receive ")
OF_QUEUES = re.compile(r"  (\S+) +((?:waits for a token|waits to|gets a token|sends to|receives from|finds \S+ closed).*)")
JOINS = re.compile(r"waits (?:for a token of|to send to|to receive from) (\S+)")
ENDS = re.compile(r"(?:gets a token of|receives from|finds) (\S+).*\((given back|sent|closed) by (\S+)\)")
ACTS = {"given back": "gives its token of {} back", "sent": "sends to {}", "closed": "closes {}"}
SVG = "{http://www.w3.org/2000/svg}"
LIMIT = 1_000_000


def case_of(number):
    """The text of a job, and an input."""
    dice = random.Random(number)
    return random_job(number, 3, True)[1], b"".join(dice.choice(LINES) for _ in range(dice.randrange(8)))


def told_in(story):
    """What a story says of queues: ticks, tasks and sentences."""
    told, tick = [], 0
    for line in story.splitlines():
        if line.startswith("tick "):
            tick = int(line[len("tick ") :])
        elif line.startswith("limit "):
            break
        elif found := OF_QUEUES.fullmatch(line):
            told.append((tick, *found.groups()))
    return told


def ended_waits(story):
    """The waits in queues that another task ended: the tick, the task that ended it, and what it did."""
    waiting, tick = {}, 0
    for line in story.splitlines():
        if line.startswith("tick "):
            tick = int(line[len("tick ") :])
        elif found := re.fullmatch(r"  (\S+) +(.*)", line):
            task, sentence = found.groups()
            ends = ENDS.match(sentence)
            if ends and waiting.get(task) == ends[1] and ends[3] != task:
                yield tick, ends[3], ACTS[ends[2]].format(ends[1])
            joins = JOINS.match(sentence)
            waiting[task] = joins and joins[1]


def arrows_missing(story, drawing):
    """How many waits in queues were ended by another task, and how many of these have no arrow from what ended them."""
    lines = xml.etree.ElementTree.fromstring(drawing).iter(SVG + "line")
    titles = [line.findtext(SVG + "title", "").splitlines() for line in lines if line.get("class") == "arrow"]
    acts = list(ended_waits(story))
    drawn = {(title[0], *line.split(None, 1)) for title in titles if title for line in title[1:]}
    return len(acts), sum((f"tick {tick}", task, act) not in drawn for tick, task, act in acts)


def compared(given):
    """The number of a job, its report, how much its story says of queues, the arrows, and whether all is as the model says."""
    program, number = given
    text, data = case_of(number)
    feed = text.encode().rstrip(b"\n") + b"\n%input\n" + data
    workers = ["--workers", random.Random(number).choice(["1", "3", "64"])]
    found, story, drawing = (
        subprocess.run([program, *words, "-", *workers], input=feed, capture_output=True, check=False).stdout
        for words in (["run"], ["explain"], ["chart", "--svg"])
    )
    told = told_in(story.decode())
    arrows, missing = arrows_missing(story.decode().partition("\nlimit ")[0], drawing.decode())
    run = run_of_text(text, data)
    is_same = run.report().encode() == found and sorted(told) == sorted(it for it in run.told if it[0] <= LIMIT)
    return number, found, len(told), arrows, is_same and not missing


def main():
    program = sys.argv[1]
    jobs = int(sys.argv[2]) if len(sys.argv) > 2 else 300
    seed = int(sys.argv[3]) if len(sys.argv) > 3 else 1
    with ThreadPoolExecutor() as pool:
        found = list(pool.map(compared, [(program, seed * 1_000_000 + n) for n in range(jobs)]))
    wrong = [number for number, *_, same in found if not same]
    granted = sum(any(word in report for word in GRANTED) for _, report, *_ in found)
    told = sum(lines for _, _, lines, *_ in found)
    arrows = sum(number for _, _, _, number, _ in found)
    late = sum(report.startswith(b"limit ") for _, report, *_ in found)
    print(f"{jobs} jobs with limiters and channels: {granted} were granted something, {late} do not end by the limit, {told} lines of their stories say so", end="")
    print(f", {arrows} waits have an arrow from what ended them, {len(wrong)} differ from the model")
    for number in wrong[:3]:
        print(f"job {number}:\n{case_of(number)[0]}")
    return 1 if wrong else 0


if __name__ == "__main__":
    sys.exit(main())
