#!/usr/bin/env python3
"""Formats random jobs here, and compares each with what `nursery fmt` writes.

    python3 tests/random/random_formats.py PROGRAM [JOBS [SEED]]

PROGRAM is the built executable. The job's text is laid out at random first. Its formatted text has to be the same to the byte as the one that is made
here from its tokens; it has to be formatted (`fmt --check`), and to have the canonical text of the job (`nursery check --canonical`).
"""

import os
import random
import subprocess
import sys
import tempfile
from concurrent.futures import ThreadPoolExecutor

from formats import formatted, pieces_of
from jobs import COMMENTS, job_of_any_format

MOST_BYTES = 65536
BLANKS = [" ", "  ", "\n", "\t", "\r\n", "\n\n  "]


class Wrong(Exception):
    """What was found, in one sentence."""


def laid_out(text, choices):
    """The same tokens with other blanks between them, and in format 3 sometimes comments: none is needed where one of two neighbours is no word or
    number."""
    first, _, rest = text.partition("\n")
    comments = COMMENTS if first.endswith("3") and choices.random() < 0.7 else []
    out, before = [first + "\n"], False
    for token in pieces_of(rest)[0]:
        is_word = token[0].isalnum()
        if before and is_word or choices.random() < 0.5:
            out.append(choices.choice(BLANKS))
        if comments and choices.random() < 0.1:
            out.append(choices.choice(comments))
        out.append(token)
        before = is_word
    return "".join(out) + choices.choice(["", "\n", *comments])


def run(program, *words):
    done = subprocess.run([program, *words], capture_output=True, text=True)
    return done.returncode, done.stdout, done.stderr


def try_job(program, folder, seed):
    choices = random.Random(seed)
    text = laid_out(job_of_any_format(seed)[1], choices)
    path = os.path.join(folder, f"{seed}.job")
    with open(path, "w", newline="") as file:
        file.write(text)
    wanted = formatted(text)
    if len(wanted) > MOST_BYTES:
        return try_too_long(program, path, text, len(wanted))
    status, out, err = run(program, "fmt", path)
    if (status, out, err) != (0, wanted, ""):
        raise Wrong(f"job {seed}: status {status}, {err[:200]}: the formatted text is not the one that is made here")
    differs = run(program, "fmt", path, "--check")[0]
    if differs != (text != wanted):
        raise Wrong(f"job {seed}: `fmt --check` has status {differs}")
    canonical = run(program, "check", path, "--canonical")
    if run(program, "fmt", path, "--write") != (0, "", ""):
        raise Wrong(f"job {seed}: `fmt --write` failed")
    with open(path, newline="") as file:
        if file.read() != wanted:
            raise Wrong(f"job {seed}: `fmt --write` wrote something else")
    if run(program, "fmt", path, "--check") != (0, "", ""):
        raise Wrong(f"job {seed}: the formatted text is not formatted")
    if run(program, "check", path, "--canonical") != canonical:
        raise Wrong(f"job {seed}: the formatted text spells another job")


def try_too_long(program, path, text, size):
    message = f"error: the formatted text would have {size} bytes: a job text has at most {MOST_BYTES}\n"
    for words in [[], ["--check"], ["--write"]]:
        answer = run(program, "fmt", path, *words)
        if answer != (2, "", message):
            raise Wrong(f"{path}: a formatted text of {size} bytes gives status {answer[0]}, {answer[2][:200]}")
    with open(path, newline="") as file:
        if file.read() != text:
            raise Wrong(f"{path}: the text was written, though its formatted text is too long")


def main():
    program = os.path.abspath(sys.argv[1])
    jobs = int(sys.argv[2]) if len(sys.argv) > 2 else 200
    first = int(sys.argv[3]) if len(sys.argv) > 3 else 1
    with tempfile.TemporaryDirectory() as folder, ThreadPoolExecutor(4) as pool:
        tried = [pool.submit(try_job, program, folder, seed) for seed in range(first, first + jobs)]
        try:
            for attempt in tried:
                attempt.result()
        except Wrong as wrong:
            sys.exit(f"random_formats.py: {wrong}")
        left = [name for name in os.listdir(folder) if not name.endswith(".job")]
    if left:
        sys.exit(f"random_formats.py: files were left beside the jobs: {left}")
    print(f"random_formats.py: {jobs} jobs formatted as here")


if __name__ == "__main__":
    main()
