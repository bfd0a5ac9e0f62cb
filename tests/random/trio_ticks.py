#!/usr/bin/env python3
"""Compares what the Python programs of examples print with `--ticks` with the task lines of `nursery run`, line by line.

    python3 tests/random/trio_ticks.py PROGRAM [FEED..]

PROGRAM is the built executable. It wants Python 3.11 and Trio 0.22 or newer. The feeds are those of examples/ unless some are given. The program
that `nursery trio` writes for the job of a feed is run on the feed's input under eight seeds of Trio's scheduler. Each time it has to print the task
lines of the report, with the exceptions as such a program prints them: without labels and ticks, and sorted. If the `.races` kept beside
the feed shows a race, one of 200 seeds has to. The end of a nursery is that of Trio 0.23 (trio_export.py), but for one run of each program by its own
command line.
"""

import glob
import os
import subprocess
import sys
import tempfile

from examples_in_trio import ROOT, has_race
from trio_export import SEEDS, Exported, call, is_version, plain_outcome


RACE_SEEDS = 200


def task_lines(report):
    """The lines that a program prints with `--ticks`, by the report of its job."""
    for line in report.splitlines():
        if line.startswith("task "):
            word, label, start, end, outcome = line.split(" ", 4)
            yield f"{word} {label} {start} {end} {plain_outcome(outcome)}\n"


def run_file(text, input_):
    """Runs a program by its command line, under the Trio that is installed. Returns what it wrote."""
    with tempfile.TemporaryDirectory() as folder:
        program, lines = os.path.join(folder, "program.py"), os.path.join(folder, "input")
        with open(program, "w", encoding="ascii") as file:
            file.write(text)
        with open(lines, "wb") as file:
            file.write(input_)
        return subprocess.run([sys.executable, program, lines, "--ticks"], capture_output=True, text=True)


def fault_of(program, feed):
    """What is wrong with what the program of a feed's job prints, or None."""
    with open(feed, "rb") as file:
        job, _, input_ = file.read().partition(b"%input\n")
    exported = Exported(program, job)
    wanted = "".join(task_lines(call(program, "run", job, input_)[1]))
    seeds = range(RACE_SEEDS if has_race(feed) else SEEDS)
    found = {exported.names["run_once"](exported.root(), input_, seed, True) + "\n" for seed in seeds}
    if wanted not in found or (len(found) > 1 and not has_race(feed)):
        return "".join(f"prints\n{told}" for told in sorted(found)) + f"instead of\n{wanted}"
    run = run_file(exported.text, input_)
    if run.returncode != 0 or not is_version(run.stderr) or run.stdout.count("\n") != wanted.count("\n"):
        return f"does not run: {run.stderr}{run.stdout}"
    return None


def main():
    program, *feeds = sys.argv[1:]
    feeds = feeds or sorted(glob.glob(os.path.join(ROOT, "examples", "*.feed")))
    faults = {feed: fault_of(program, feed) for feed in feeds}
    for feed, fault in faults.items():
        if fault is not None:
            print(f"{os.path.relpath(feed, ROOT)} {fault}")
    wrong = sum(fault is not None for fault in faults.values())
    print(f"{len(feeds) - wrong} of {len(feeds)} programs print the task lines of the report")
    return 1 if wrong else 0


if __name__ == "__main__":
    # Runs that are stuck have threads that never end.
    status = main()
    sys.stdout.flush()
    os._exit(status)
