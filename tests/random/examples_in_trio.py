#!/usr/bin/env python3
"""Compares the reports that are kept beside feeds of format 3 with plain Trio, tick for tick.

    python3 tests/random/examples_in_trio.py [FEED..]

It wants Python 3.11 and Trio 0.22 or later, and no program: tests/pages/examples.sh compares the kept reports with it. The feeds are those of
examples/ and tests/rounds unless some are given. Each job is run as a plain Trio program (against_trio.py) under 40 seeds of Trio's scheduler. The
kept report has to be among the outcomes, and the only one, unless the `.races` kept beside the feed shows a race.
"""

import collections
import glob
import os
import sys

import trio
import trio._core._run as scheduler
import trio.testing

import against_trio
import trio_export  # the end of a nursery as Trio 0.23 has it
from reading import Reader

assert trio_export
ROOT = os.path.join(os.path.dirname(os.path.abspath(__file__)), "..", "..")
SEEDS = 40
FIRST_LINE = "trio-job 3\n"


def run_once(name, steps, length):
    async def main():
        root = against_trio.PlainTask(name, [], (0, length))
        await root.run(steps, {}, lambda: None)
        return root

    root = trio.run(main, clock=trio.testing.MockClock(rate=0, autojump_threshold=0), strict_exception_groups=True)
    return "\n".join([f"job {name} {root.end}", *root.report()]) + "\n"


def outcomes(text, input_):
    """The outcomes of a job in plain Trio, and how often each was seen."""
    name, steps = Reader(text).job()
    against_trio.INPUT = input_
    scheduler._ALLOW_DETERMINISTIC_SCHEDULING = True
    found = collections.Counter()
    for seed in range(SEEDS):
        scheduler._r.seed(seed)
        found[against_trio.comparable(run_once(name, steps, len(input_)))] += 1
    return found


def content_of(path):
    with open(path, encoding="ascii") as file:
        return file.read()


def has_race(feed):
    path = feed.removesuffix(".feed") + ".races"
    return os.path.exists(path) and not content_of(path).endswith("no race\n")


def is_right(feed):
    text, _, input_ = content_of(feed).partition("%input\n")
    if not text.startswith(FIRST_LINE):
        sys.exit(f"{feed} is not of format 3")
    kept = against_trio.comparable(content_of(feed.removesuffix(".feed") + ".report"))
    found = outcomes(text.removeprefix(FIRST_LINE), input_.encode())
    right = kept in found and (len(found) == 1 or has_race(feed))
    print(f"{os.path.relpath(feed, ROOT)}: outcomes in plain Trio: {len(found)}, and {'one' if kept in found else 'none'} of them is the report")
    if not right:
        print("\n".join(f"-- {times} of {SEEDS}\n{told}" for told, times in found.items()))
    return right


def main():
    feeds = sys.argv[1:] or [path for folder in ("examples", "tests/rounds", "tests/events") for path in sorted(glob.glob(f"{ROOT}/{folder}/*.feed"))]
    return 0 if all([is_right(feed) for feed in feeds]) else 1


if __name__ == "__main__":
    sys.exit(main())
