#!/usr/bin/env python3
"""Compares what `nursery sweep` prints for random jobs with runs of texts that this script changes itself.

    python3 tests/random/random_sweeps.py PROGRAM [JOBS [SEED]]

PROGRAM is the built executable. It wants Python 3.10 or later. One number of each job takes some values: each text is changed here and run
with `nursery run`, and what is to be noted is read from `nursery explain`, as random_faults.py does. Each byte that `sweep` writes has
to be what comes of that, with 1, 3 and 64 workers, and for a deadline the same by its name and by its place.
"""

import os
import random
import re
import sys
import tempfile
from concurrent.futures import ThreadPoolExecutor

from jobs import job_of_any_format
from random_faults import LIMIT, Runs, Wrong, replaced, tokens_of


def told(runs, text):
    """The outcome of a text without ticks, and the tick at which its job ends, or None."""
    fate = runs.fate(text, None)
    if "refused" in fate.kinds:
        return "refused", "", None
    if "stuck" in fate.kinds:
        return fate.text(), "", None
    end, _, outcome = fate.outcome.partition(" ")
    return re.sub(r"@\d+", "", outcome), fate.notes, int(end)


def span(first, last):
    return str(first) if first == last else f"{first}..{last}"


def line(what, notes, ends):
    return what + (f", ends {span(min(ends), max(ends))}" if ends else "") + notes


def wanted_of(runs, text, at, size, values):
    """The lines of a sweep over the number of that many digits at a place."""
    groups = []
    counts = {"stuck": 0, "cut": 0, "refused": 0}
    for value in values:
        what, notes, end = told(runs, replaced(text, (at, at + size, str(value))))
        counts["stuck"] += what.startswith("stuck at")
        counts["cut"] += "cleanup cut: " in what + notes
        counts["refused"] += what == "refused"
        if not groups or groups[-1][2:4] != [what, notes]:
            groups.append([value, value, what, notes, []])
        groups[-1][1] = value
        groups[-1][4] += [end] * (end is not None)
    what, notes, end = told(runs, text)
    rows = [("as it is", line(what, notes, [end] * (end is not None)))]
    rows += [(span(first, last), line(what, notes, ends)) for first, last, what, notes, ends in groups]
    width = max(len(place) for place, _ in rows)
    refused = f", {counts['refused']} refused" if counts["refused"] else ""
    title = "value" if len(values) == 1 else "values"
    last = f"{len(values)} {title}: {counts['stuck']} stuck, {counts['cut']} cut a cleanup{refused}\n"
    return "".join(f"{place:<{width}}  {row}\n" for place, row in rows) + last


def names_of(tokens, n):
    """The name of the scope or nursery whose deadline the nth token is, if it is one."""
    words = [token for token, _ in tokens[max(n - 3, 0) : n]]
    return words[1:2] if len(words) == 3 and words[0] in ("scope", "nursery") and words[2] in ("after", "at") else []


def compared(program, seed):
    """Compares a sweep over one number of a random job. Gives the number of values."""
    dice = random.Random(seed)
    text = job_of_any_format(seed)[1]
    tokens = tokens_of(text)
    numbers = [n for n, (token, _) in enumerate(tokens) if token.isdigit()]
    if not numbers:
        return 0
    n = dice.choice(numbers)
    token, at = tokens[n]
    first, step = dice.randint(0, int(token) % 20 + 2), dice.choice([1, 1, 1, 2, 5])
    values = range(first, first + dice.randint(0, 12) * step + 1, step)
    place = f"{text.count(chr(10), 0, at) + 1}:{at - text.rfind(chr(10), 0, at)}"
    with tempfile.TemporaryDirectory() as folder:
        runs = Runs(program, folder, LIMIT)
        with open(runs.input, "w", encoding="ascii") as file:
            file.write("\n".join(dice.choice(["error one", "ok", "", "all"]) for _ in range(dice.randint(0, 6))))
        targets = [["--at", place]] + [["--of", name] for name in names_of(tokens, n)]
        words = ["--values", f"{values[0]}..{values[-1]}:{step}"]
        answers = {runs.call("sweep", text, *target, *words, "--workers", workers) for target in targets for workers in ("1", "3", "64")}
        status, out = answers.pop()
        wanted = wanted_of(runs, text, at, len(token), values)
        if answers or status != 0 or out != wanted:
            raise Wrong(f"status {status}\n{out}-- wanted\n{wanted}-- seed\n{seed}\n-- text\n{text}\n-- place\n{place}")
        return len(values)


def main():
    jobs = int(sys.argv[2]) if len(sys.argv) > 2 else 100
    seed = int(sys.argv[3]) if len(sys.argv) > 3 else random.randrange(1_000_000)
    print(f"random_sweeps.py: {jobs} jobs, seed {seed}", flush=True)
    with ThreadPoolExecutor(os.cpu_count()) as pool:
        try:
            values = sum(pool.map(lambda n: compared(sys.argv[1], seed * 1_000_000 + n), range(jobs)))
        except Wrong as wrong:
            print(wrong)
            pool.shutdown(cancel_futures=True)
            return 1
    print(f"random_sweeps.py: {values} values, none differs")
    return 0


if __name__ == "__main__":
    sys.exit(main())
