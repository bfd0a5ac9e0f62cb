#!/usr/bin/env python3
"""Compares what `nursery races` says of random jobs with what plain Trio does.

    python3 tests/random/races_in_trio.py PROGRAM [JOBS [SEED]]
    python3 tests/random/races_in_trio.py PROGRAM --job JOB

PROGRAM is the built executable. It wants Python 3.11 and Trio 0.22, and is no part of the gate. Each job is run as a Trio program, as
against_trio.py does, but with Trio's own cancellation: a `cancel`, or a member that fails, cancels at once. Eight seeds of Trio's scheduler
give up to eight outcomes: how each task ends, its lines and its exits, without ticks. Counted are the jobs with several outcomes, which all
should have a race; and those without a race, whose only outcome should be that of `nursery run`. The program that `nursery trio` writes for
the job is run under the same seeds (trio_export.py), and where both have one outcome these have to be the same. The second form shows the
outcomes of one job, given as this script makes jobs, by its number.
"""

import collections
import os
import re
import subprocess
import sys
import tempfile
from concurrent.futures import ProcessPoolExecutor

import trio
import trio._core._run as scheduler

import against_trio
from against_trio import INPUT, LIMIT, by_trio
from jobs import random_job

SEEDS = 8


def cancelled_at_once(scope):
    scope.cancel()


def outcome(report):
    """A report without ticks, or the limit."""
    if report.startswith("limit"):
        return "limit"
    lines = []
    for line in report.splitlines()[1:]:
        words = line.split(" ", 4) if line.startswith("task ") else line.split(" ")
        if line.startswith("task "):
            lines.append(f"{words[1]} {re.sub('@[0-9]+', '', words[4])}")
        elif line.startswith("  line "):
            lines.append(line)
        else:
            lines.append(" ".join([*words[:4], *words[5:]]))
    return "\n".join(lines)


def in_trio(steps):
    """The outcomes of a job under the seeds, and how often each was seen."""
    scheduler._ALLOW_DETERMINISTIC_SCHEDULING = True
    against_trio.lower = cancelled_at_once
    found = collections.Counter()
    for seed in range(SEEDS):
        scheduler._r.seed(seed)
        found[outcome(by_trio(steps))] += 1
    return found


def call(program, command, text, *words):
    with tempfile.TemporaryDirectory() as folder:
        job, input_ = os.path.join(folder, "job"), os.path.join(folder, "input")
        with open(job, "w", encoding="ascii") as file:
            file.write(text)
        with open(input_, "wb") as file:
            file.write(INPUT)
        run = subprocess.run([program, command, job, input_, "--limit", str(LIMIT), *words], capture_output=True)
        return run.returncode, run.stdout.decode()


def compared(given):
    """Of a job: whether Trio has several outcomes, whether there is a race, whether an only outcome is ours, and what is wrong with its program."""
    from trio_export import compared_with

    program, number = given
    steps, text = random_job(number)
    status, told = call(program, "races", text)
    if status != 0:
        return number, None
    found = in_trio(steps)
    if "limit" in found:
        return number, None
    race = not told.splitlines()[-1].split(",")[0].endswith("no race")
    ours = outcome(call(program, "run", text)[1])
    _, fault = compared_with(program, text.encode(), found)
    return number, (len(found) > 1, race, len(found) == 1 and ours in found, fault)


def main():
    if sys.argv[2:3] == ["--job"]:
        steps, text = random_job(int(sys.argv[3]))
        print(text)
        print(call(sys.argv[1], "races", text)[1], call(sys.argv[1], "run", text)[1], sep="\n")
        for shown, times in in_trio(steps).items():
            print(f"{times} of {SEEDS}\n{shown}\n")
        return 0
    jobs = int(sys.argv[2]) if len(sys.argv) > 2 else 1000
    seed = int(sys.argv[3]) if len(sys.argv) > 3 else 1
    with ProcessPoolExecutor(os.cpu_count()) as pool:
        all_of_them = list(pool.map(compared, [(sys.argv[1], seed * 1_000_000 + n) for n in range(jobs)], chunksize=20))
    found = [(number, of) for number, of in all_of_them if of]
    several = [(number, race) for number, (many, race, _, _) in found if many]
    calm = [(number, many, ours) for number, (many, race, ours, _) in found if not race]
    missed = [number for number, race in several if not race]
    other = [number for number, many, ours in calm if not many and not ours]
    print(f"{jobs} jobs, {jobs - len(found)} do not end by the limit")
    print(f"{len(several)} have several outcomes in Trio, of which {len(several) - len(missed)} have a race; without one: {missed}")
    print(f"{len(calm)} have no race; in Trio {len(calm) - len(missed)} of them have one outcome, but for {len(other)} ours; these: {other}")
    wrong = [f"{number} {fault}" for number, (_, _, _, fault) in found if fault]
    print(f"{len(found) - len(wrong)} programs of `nursery trio` do what the job does in Trio; not these: {wrong}")
    return 1 if missed or wrong else 0


if __name__ == "__main__":
    sys.exit(main())
