#!/usr/bin/env python3
"""Runs random texts through nursery with each number of workers, and compares the answers.

    python3 tests/random/random_jobs.py PROGRAM [TEXTS [SEED]]

PROGRAM is the built executable. It wants Python 3.10 or later. Of each text: the bytes and the status are the same with
1, 3 and 64 workers, and as a feed; each line shown is the input's slice at its place; a job's canonical
text is its own canonical text and has the same report; its story starts and ends each task as the report does; the status fits what was written. Three texts in four are jobs, the
others jobs with a few bytes changed, or bytes. Before them come the jobs of examples/, cut after each of their bytes: none
of those is a job but the whole one, and none is refused at a place after its end.
"""

import glob
import os
import random
import re
import subprocess
import sys
import tempfile
from collections import Counter
from concurrent.futures import ThreadPoolExecutor

from jobs import job_of_any_format

FIRST_LINES = [b"trio-job 1\n", b"trio-job 2\n", b"trio-job 3\n"]
WORKERS = ["1", "3", "64"]
LIMIT = 1_000_000
LINE = re.compile(rb"  line (\d+)\+(\d+) (.*)")
TASK = re.compile(rb"task (\S+) (\d+) (\d+) (.*)")
START = re.compile(rb"  (\S+) +starts( in nursery \S+)?")
END = re.compile(rb"  (\S+) +ends: ([^;]*)(; .*)?")
REFUSED = re.compile(rb"refused J([1-9]|1[01]) (\w+) at (\d+)\n")
# What every sixteenth input has besides: the program starts a thread for each 262,144 bytes that it searches.
LONG = b"\n".join(b"." * (n % 200) for n in range(11_000)) + b"\n"
KINDS = "TooLong NotAscii Version Token Number Syntax Depth Twice NotEnclosing Reserved TooLarge".split()


class Wrong(Exception):
    """What was found, in one sentence."""


# ---- texts and inputs at random ----


def job_text(seed):
    return job_of_any_format(seed)[1].encode()


def nearly(dice, text):
    """A few bytes of the text changed, taken out, given twice, or cut off."""
    text = bytearray(text)
    for _ in range(dice.randint(1, 3)):
        place = dice.randrange(len(text) + 1)
        pick = dice.randrange(5)
        if pick == 0:
            text[place : place + 1] = bytes([dice.choice(b'{};" \n0a_\\\xff')])
        elif pick == 1:
            text[place:place] = dice.choice([b"}", b"{", b";", b" 0", b" forever;", b' find "\\x0a";', b" over 65", b" repeat 2 {", b" repeat 1001", b" shield"])
        elif pick == 2:
            del text[place : place + dice.randint(1, 8)]
        elif pick == 3:
            text[place:place] = text[max(0, place - 20) : place]
        elif pick == 4 and dice.random() < 0.3:
            del text[place:]
    return bytes(text)


def text_of(dice, seed):
    pick = dice.random()
    if pick < 0.75:
        return job_text(seed)
    if pick < 0.95:
        return nearly(dice, job_text(seed))
    return dice.choice([b"", *FIRST_LINES]) + dice.randbytes(dice.randint(0, 60))


def input_of(dice):
    if dice.random() < 0.3:
        return dice.randbytes(dice.randint(0, 300))
    lines = [dice.choice([b"error one", b"ok", b"", b"warning: error", b"a\\b \x7f\x00\xff", b"l" * 40]) for _ in range(dice.randint(0, 12))]
    return b"\n".join(lines)


# ---- what must hold of an answer ----


def shown(line):
    """Bytes as a report shows them."""
    return b"".join(b"\\\\" if b == 92 else bytes([b]) if 32 <= b <= 126 else b"\\x%02x" % b for b in line)


def check_lines(report, data):
    """Each line shown is a line of the input: the slice at its place, whole."""
    for line in report.split(b"\n"):
        found = LINE.fullmatch(line)
        if not found:
            continue
        at, length = int(found[1]), int(found[2])
        piece = data[at : at + length]
        if len(piece) != length or b"\n" in piece or shown(piece) != found[3]:
            raise Wrong(f"no slice of the input: {line!r}")
        if (at and data[at - 1 : at] != b"\n") or data[at + length : at + length + 1] not in (b"", b"\n"):
            raise Wrong(f"no whole line of the input: {line!r}")


def tasks_reported(report):
    """Each task of a report with its start, its end and its outcome."""
    return sorted((found[1], int(found[2]), int(found[3]), found[4]) for line in report.split(b"\n") if (found := TASK.fullmatch(line)))


def tasks_told(story):
    """The same of a story."""
    starts, tasks, tick = {}, [], 0
    for line in story.split(b"\n"):
        if line.startswith(b"tick "):
            tick = int(line[5:])
        elif found := START.fullmatch(line):
            starts[found[1]] = tick
        elif found := END.fullmatch(line):
            tasks.append((found[1], starts[found[1]], tick, found[2]))
    return sorted(tasks)


def check_status(status, out, err, text):
    """The status fits what was written. Gives whether the text is a job."""
    if status in (0, 1):
        root = out.split(b"\n")[1].split(b" ")
        ended_well = root[-1] == b"done"
        if not out.startswith(b"job ") or not out.endswith(b"\n") or err or ended_well != (status == 0):
            raise Wrong(f"status {status} beside {out!r}, {err!r}")
        return True
    if status == 3:
        if out != b"limit %d\n" % LIMIT or not err.startswith(b"these tasks have not ended:\n  "):
            raise Wrong(f"status 3 beside {out!r}, {err!r}")
        return True
    refused = REFUSED.fullmatch(out)
    if status != 2 or not refused or not err:
        raise Wrong(f"status {status} beside {out!r}, {err!r}")
    if KINDS[int(refused[1]) - 1].encode() != refused[2] or int(refused[3]) > len(text):
        raise Wrong(f"no refusal: {out!r}")
    return False


class Program:
    """The program, with a folder for its files."""

    def __init__(self, path, folder):
        self.path = os.path.abspath(path)
        self.job, self.input = os.path.join(folder, "job"), os.path.join(folder, "input")

    def call(self, words, feed=b""):
        run = subprocess.run([self.path, *words], input=feed, capture_output=True, timeout=600)
        return run.returncode, run.stdout, run.stderr

    def run(self, text, *words):
        with open(self.job, "wb") as file:
            file.write(text)
        return self.call(["run", self.job, self.input, *words])

    def check(self, text):
        return self.call(["check", "-", "--canonical"], text)

    def upgrade(self, text, *words):
        return self.call(["upgrade", "-", "--canonical", *words], text)

    def examine(self, text, data):
        """Raises Wrong where something does not hold. Gives the status."""
        with open(self.input, "wb") as file:
            file.write(data)
        status, out, err = self.run(text)
        is_job = check_status(status, out, err, text)
        check_lines(out, data)
        for workers in WORKERS:
            if self.run(text, "--workers", workers) != (status, out, err):
                raise Wrong(f"another answer with --workers {workers}")
        lines = text + b"\n"
        if b"%input" not in text and self.call([], lines + b"%input\n" + data)[:2] != self.run(lines)[:2]:
            raise Wrong("another answer to the feed")
        self.examine_story(text, (status, out))
        self.examine_check(text, (status, out), is_job)
        self.examine_upgrade(text, (status, out), is_job)
        return status

    def examine_story(self, text, answer):
        """The story has the status of the run, with each number of workers, and its tasks start and end as in the report."""
        self.run(text)
        status, story, _ = self.call(["explain", self.job, self.input])
        for workers in ("3", "64"):
            other = self.call(["explain", self.job, self.input, "--workers", workers])
            if status != answer[0] or other[:2] != (status, story):
                raise Wrong(f"the story has status {status}, and {other[0]} with --workers {workers}")
        if status in (0, 1) and tasks_told(story) != tasks_reported(answer[1]):
            raise Wrong(f"the story's tasks start or end otherwise than the report's: {story!r}")
        if status == 2 and story != answer[1]:
            raise Wrong("explain and run refuse differently")

    def examine_check(self, text, answer, is_job):
        status, out, _ = self.check(text)
        if not is_job:
            if (status, out) != answer:
                raise Wrong("check and run refuse differently")
            return
        if status != 0 or len(out) > len(text) + 1:
            raise Wrong(f"check gives status {status} and {out!r}")
        canonical = out.removesuffix(b"\n")
        if self.check(canonical) != (0, out, b""):
            raise Wrong("the canonical text is not its own canonical text")
        if self.run(canonical)[:2] != answer:
            raise Wrong("the canonical text has another report")


    def examine_upgrade(self, text, answer, is_job):
        status, out, _ = self.upgrade(text, "--to", "2")
        if not is_job:
            if (status, out) != answer or self.upgrade(text)[:2] != answer:
                raise Wrong("upgrade and run refuse differently")
            return
        if status != 0 or not out.startswith(max(text[:11], b"trio-job 2\n")):
            raise Wrong(f"upgrade --to 2 gives status {status} and {out!r}")
        if self.upgrade(out, "--to", "2")[:2] != (0, out) or self.check(out)[:2] != (0, out):
            raise Wrong("what was upgraded to format 2 is not its own upgrade")
        if self.run(out)[:2] != answer:
            raise Wrong("what was upgraded to format 2 has another report")
        status, newest, _ = self.upgrade(text)
        if status != 0 or newest != b"trio-job 3\n" + out[11:] or self.upgrade(newest) != (0, newest, b""):
            raise Wrong(f"upgrade gives status {status} and {newest!r}")


def cut_texts():
    """The job of each example, cut after each of its bytes."""
    for path in sorted(glob.glob(os.path.join(os.path.dirname(os.path.abspath(__file__)), "..", "..", "examples", "*.feed"))):
        with open(path, "rb") as file:
            text = file.read().split(b"%input\n")[0].rstrip()
        for end in range(len(text) + 1):
            yield text[:end], end == len(text)


def examined_cut(path, cut):
    """The status of one cut text."""
    text, is_whole = cut
    with tempfile.TemporaryDirectory() as folder:
        try:
            status = Program(path, folder).examine(text, b"GET /a\nERROR\n")
            if (status == 2) == is_whole:
                raise Wrong(f"status {status}")
            return status
        except Wrong as wrong:
            raise Wrong(f"{wrong}\n-- text\n{text!r}") from wrong


def examined(path, seed):
    """The status of one text. What is wrong is printed with the text and its input."""
    dice = random.Random(seed)
    text, data = text_of(dice, seed), input_of(dice) + b"\n" + LONG if seed % 16 == 0 else input_of(dice)
    with tempfile.TemporaryDirectory() as folder:
        try:
            return Program(path, folder).examine(text, data)
        except Wrong as wrong:
            raise Wrong(f"{wrong}\n-- seed\n{seed}\n-- text\n{text!r}\n-- input\n{data[:2000]!r}") from wrong


def main():
    texts = int(sys.argv[2]) if len(sys.argv) > 2 else 1000
    seed = int(sys.argv[3]) if len(sys.argv) > 3 else random.randrange(1_000_000)
    print(f"random_jobs.py: {texts} texts, seed {seed}", flush=True)
    with ThreadPoolExecutor(os.cpu_count()) as pool:
        try:
            cut = Counter(pool.map(lambda text: examined_cut(sys.argv[1], text), cut_texts()))
            seen = Counter(pool.map(lambda i: examined(sys.argv[1], seed * 1_000_000 + i), range(texts)))
        except Wrong as wrong:
            print(wrong)
            pool.shutdown(cancel_futures=True)
            return 1
    print(f"random_jobs.py: {cut[2]} cut texts refused, {sum(cut.values()) - cut[2]} whole ones not")
    print("random_jobs.py: " + ", ".join(f"{n} of status {status}" for status, n in sorted(seen.items())) + ", none wrong")
    return 0


if __name__ == "__main__":
    sys.exit(main())
