#!/usr/bin/env python3
"""Doubles jobs of many shapes and the inputs of other commands, and prints how their time grows.

    python3 bench/growth.py PROGRAM [ROUNDS]
    python3 bench/growth.py PROGRAM --most TIMES    # exit status 1 if a doubled job takes more than so many times the instructions

PROGRAM is the built executable. Each shape is a job whose size is a number of parts: it is run with so many and with twice as many,
ROUNDS times each (3 without the word), and the least times are compared, each without that of an empty job. A time in proportion to
the size doubles; one that goes with the square of the size has four times. A text of a job has at most 65,536 bytes and a format 2 job
1,000,000 steps, so the sizes are as large as the shape allows. The inputs of other commands are doubled five times, and each
time is divided by the one before it.

With `--most` jobs of a SHARE of these sizes are doubled, and the instructions that valgrind counts are compared in the place of times:
they do not depend on what else the machine does, nor on its caches.
"""

import argparse
import os
import re
import shutil
import subprocess
import sys
import tempfile
import time
from concurrent.futures import ThreadPoolExecutor


def job(body):
    return b"trio-job 2\njob main {" + body + b"}\n"


def newest(body):
    """A job of format 3, which has events and starts in loops."""
    return b"trio-job 3\njob main {" + body + b"}\n"


def each(part, count):
    """The part so many times, with its number in the place of each `#`: names are given once in a job."""
    return b"".join(part.replace(b"#", b"%d" % i) for i in range(count))


def children(body, count, nursery=b"nursery n"):
    """Tasks of one nursery, 64 for each `start`."""
    return job(nursery + b"{" + each(b"start r# over 64{" + body + b"}", count) + b"}")


def waiting(last, count):
    """Tasks that wait for one event, 64 for each `start`, and another task after them."""
    return newest(b"event e{nursery n{" + each(b"start r# over 64{wait e;}", count) + last + b"}}")


def handled(parts, count):
    """A handler around a nursery."""
    return job(b"try{nursery n{" + each(parts, count) + b"}}except A{}")


# What stands in the rows, how many parts the smaller job has, and the job of so many parts.
AFTER = b"nursery n after 5"
SHAPES = [
    ("children of one nursery that end at once", 1500, lambda n: children(b"", n)),
    ("children that sleep", 1000, lambda n: children(b"sleep 1;", n)),
    ("children that sleep until ticks of their own", 1000, lambda n: children(b"sleep #;", n)),
    ("children that each raise", 1000, lambda n: children(b"raise A;", n)),
    ("children cancelled by a sibling's exception", 900, lambda n: children(b"sleep 9;", n).replace(b"}}", b"}start z{sleep 1;raise A;}}")),
    ("children cancelled by a deadline", 900, lambda n: children(b"sleep 9;", n, AFTER)),
    ("children that cancel their nursery", 700, lambda n: children(b"cancel n;sleep 1;", n)),
    ("children in a scope each", 600, lambda n: children(b"scope s# after 1{sleep 9;}", n)),
    ("children in a shield each, cancelled", 600, lambda n: children(b"scope s# shield{sleep 9;}", n, AFTER)),
    ("children in a scope each, cancelled from outside", 600, lambda n: children(b"scope s# after 8{sleep 9;}", n, AFTER)),
    ("children with a nursery each, cancelled", 500, lambda n: children(b"nursery m#{start c#{sleep 9;}}", n, AFTER)),
    ("children that catch what they raise", 600, lambda n: children(b"try{raise A;}except A{}", n)),
    ("children with a cleanup, cancelled", 600, lambda n: children(b"try{sleep 9;}finally{}", n, AFTER)),
    ("a handler around children that raise", 900, lambda n: handled(b"start r# over 64{raise A;}", n)),
    ("a handler that takes half of a group", 450, lambda n: handled(b"start a# over 64{raise A;}start b# over 64{raise B;}", n)),
    ("passes that sleep, thousands", 240, lambda n: job(b"repeat %d{repeat 1000{sleep 1;}}" % n)),
    ("passes with a scope each, thousands", 240, lambda n: job(b"repeat %d{repeat 1000{scope s{}}}" % n)),
    ("passes with a nursery each, thousands", 120, lambda n: job(b"repeat %d{repeat 1000{nursery n{start c{}}}}" % n)),
    ("passes with a handler each, thousands", 120, lambda n: job(b"repeat %d{repeat 1000{try{raise A;}except A{}}}" % n)),
    ("scopes in a row", 1000, lambda n: job(b"repeat 100{" + each(b"scope s# after 1{sleep 9;}", n) + b"}")),
    ("steps in a row, thousands", 240, lambda n: job(b"repeat %d{" % n + b"checkpoint;" * 1000 + b"}")),
    ("nurseries in a row", 1500, lambda n: job(b"repeat 100{" + each(b"nursery n#{}", n) + b"}")),
    ("starts in a row", 2000, lambda n: job(b"repeat 100{nursery n{" + each(b"start r#{}", n) + b"}}")),
    ("children that wait for one event", 900, lambda n: waiting(b"start z{sleep 1;set e;}", n)),
    ("children that wait for an event, cancelled", 900, lambda n: waiting(b"start z{sleep 1;cancel n;}", n)),
    ("children with an event each", 600, lambda n: newest(b"nursery n{" + each(b"start r# over 64{event e#{set e#;wait e#;}}", n) + b"}")),
    ("sets of one event in a row, thousands", 240, lambda n: newest(b"event e{repeat %d{repeat 1000{set e;}}}" % n)),
    ("passes with an event that a child waits for, thousands", 60, lambda n: newest(b"repeat %d{repeat 1000{event e{nursery n{start c{wait e;}set e;}}}}" % n)),
    ("starts in a loop, thousands", 120, lambda n: newest(b"nursery n{repeat %d{repeat 1000{start c{}}}}" % n)),
    ("starts in a loop whose tasks wait for one event, thousands", 60, lambda n: newest(b"event e{nursery n{repeat %d{repeat 1000{start c{wait e;}}}set e;}}" % n)),
]


DOUBLINGS = 5


def pattern_and_line(folder, n):
    """A feed whose report has a line of so many words, and an expectation of every other word with a `*` between."""
    words = [b"w%d" % i for i in range(n)]
    write(folder, "a.feed", b"trio-job 2\njob main{longest;}\n%input\n" + b" ".join(words) + b"\n")
    write(folder, "a.expect", b"line * " + b" * ".join(words[::2]) + b" *\n")
    return ["test", "a.feed"]


def lines(words):
    """The words on a job that borrows so many lines."""
    def made(folder, n):
        write(folder, "a.job", job(b'find "e";'))
        write(folder, "in", b"an e\n" * n)
        return words
    return made


def text_of(words, make):
    """The words on a job text of so many parts."""
    def made(folder, n):
        write(folder, "a.job", make(n))
        return words
    return made


# a label that no task has, as long as a label may be
UNKNOWN = "a" * 384
CANCELLED = b"nursery n{start a over %d{repeat %d{sleep 1;}cancel n;}start b{sleep 2;}}"
COMMANDS = [
    ("`test`: words of a pattern and of the line that it matches", 125, pattern_and_line),
    ("`run`: borrowed lines", 60000, lines(["run", "a.job", "in"])),
    ("`run --json`: borrowed lines", 60000, lines(["run", "a.job", "in", "--json"])),
    ("`explain --json`: borrowed lines", 60000, lines(["explain", "a.job", "in", "--json"])),
    ("`lint`: scopes, each on its line", 60, text_of(["lint", "a.job"], lambda n: job(each(b"\nscope s# after 5{sleep 1;}", n)))),
    ("`lint`: handlers, each on its line", 60, text_of(["lint", "a.job"], lambda n: job(each(b"\ntry{raise A#;}except A#{}", n)))),
    ("`lint`: cleanups that wait, each on its line", 50, text_of(["lint", "a.job"], lambda n: job(each(b"\ntry{sleep 1;}finally{sleep 1;}", n)))),
    ("`explain --task`: tasks", 25, text_of(["explain", "a.job", "--task", "r0.5"], lambda n: children(b"", n))),
    ("`explain --task`: tasks, none with that label of 384 bytes", 25, text_of(["explain", "a.job", "--task", UNKNOWN], lambda n: children(b"", n))),
    ("`races`: copies", 2, text_of(["races", "a.job"], lambda n: job(CANCELLED % (n, 3)))),
    ("`races`: passes", 30, text_of(["races", "a.job"], lambda n: job(CANCELLED % (2, n)))),
]


def write(folder, name, data):
    with open(os.path.join(folder, name), "wb") as file:
        file.write(data)


def seconds(program, folder, words, rounds):
    """The least time of some runs on the words in the folder."""
    least = float("inf")
    for _ in range(rounds):
        with open(os.path.join(folder, "out"), "wb") as to:
            begin = time.perf_counter()
            status = subprocess.run([program, *words], cwd=folder, stdout=to, stderr=subprocess.PIPE).returncode
            least = min(least, time.perf_counter() - begin)
        if status not in ((2,) if UNKNOWN in words else (0, 1)):
            raise SystemExit(f"{words}: status {status}")
    return least


# Under valgrind a program takes fifty times as long.
SHARE = 10


def instructions(program, text):
    """How many instructions the program takes for a job."""
    with tempfile.TemporaryDirectory() as folder:
        write(folder, "a.job", text)
        words = ["valgrind", "--tool=cachegrind", "--cache-sim=no", "--cachegrind-out-file=/dev/null", program, "run", "a.job", os.devnull]
        run = subprocess.run(words, cwd=folder, stdout=subprocess.DEVNULL, stderr=subprocess.PIPE, text=True)
    counted = re.search(r"I +refs: +([0-9,]+)", run.stderr)
    if run.returncode not in (0, 1) or not counted:
        raise SystemExit(f"growth.py: {run.stderr}")
    return int(counted[1].replace(",", ""))


def check_growth(program, most):
    """Doubles each shape, and returns the exit status."""
    if not shutil.which("valgrind"):
        print("growth.py: valgrind is not installed: no job is doubled")
        return 0
    texts = [job(b"")] + [make(n * size // SHARE) for _, size, make in SHAPES for n in (1, 2)]
    with ThreadPoolExecutor(os.cpu_count()) as pool:
        empty, *counts = pool.map(lambda text: instructions(program, text), texts)
    found = [((twice - empty) / (once - empty), shape[0]) for once, twice, shape in zip(counts[::2], counts[1::2], SHAPES)]
    for times, name in found:
        if times > most:
            print(f"growth.py: {name}: {times:.2f} times the instructions when doubled, and at most {most} is expected")
    times, name = max(found)
    print(f"growth.py: {len(found)} shapes doubled, at most {times:.2f} times the instructions ({name})")
    return 1 if times > most else 0


def print_growth(program, folder, rounds):
    """Prints how the time of each shape and of each command grows."""

    def timed(text):
        write(folder, "a.job", text)
        return seconds(program, folder, ["run", "a.job", os.devnull], rounds)

    empty = timed(job(b""))
    print("| Shape | ms | ms, twice as large | times |\n|---|---|---|---|")
    for name, size, make in SHAPES:
        once, twice = timed(make(size)) - empty, timed(make(2 * size)) - empty
        print(f"| {name} | {once * 1000:.1f} | {twice * 1000:.1f} | {twice / max(once, 1e-9):.1f} |", flush=True)

    print(f"\n| Command | from | ms at {2 ** DOUBLINGS} times as much | each doubling |\n|---|---|---|---|")
    for name, size, files in COMMANDS:
        sizes = [size << k for k in range(DOUBLINGS + 1)]
        times = [seconds(program, folder, files(folder, n), rounds) - empty for n in sizes]
        steps = " ".join(f"{after / max(before, 1e-3):.1f}" for before, after in zip(times, times[1:]))
        print(f"| {name} | {size} | {times[-1] * 1000:.1f} | {steps} |", flush=True)
    return 0


def main():
    parser = argparse.ArgumentParser(description=__doc__, formatter_class=argparse.RawDescriptionHelpFormatter)
    parser.add_argument("program")
    parser.add_argument("rounds", nargs="?", type=int, default=3)
    parser.add_argument("--most", type=float)
    asked = parser.parse_args()
    program = os.path.abspath(asked.program)
    if asked.most is not None:
        return check_growth(program, asked.most)
    with tempfile.TemporaryDirectory() as folder:
        return print_growth(program, folder, asked.rounds)


if __name__ == "__main__":
    sys.exit(main())
