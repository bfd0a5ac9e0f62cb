#!/usr/bin/env python3
"""Times nursery, whole programs, beside native programs and Trio.

    python3 bench/bench.py PROGRAM [ROUNDS]

PROGRAM is the built executable. It wants Python 3.10 or later. Inputs and jobs are made from a fixed seed, in a folder that is
taken away at the end. Each row is the least time of ROUNDS runs (5 without the word), the runs of one row one after the other
in turn, so that a ratio compares times of the same minutes; and the most memory that a run held. A native program stands beside
a row where `rustc` is there; `grep -F`, `rg`, `wc -l` and Trio where they are installed.
"""

import filecmp
import glob
import os
import random
import shutil
import subprocess
import sys
import tempfile
import time

HERE = os.path.dirname(os.path.abspath(__file__))
MIB = 1024 * 1024


# ---- inputs and jobs ----


def words_of(dice, count):
    return b" ".join(dice.choice([b"accept", b"read", b"write", b"close", b"retry", b"queue", b"flush"]) for _ in range(count))


def log(size, share):
    """Lines of about 80 bytes, a share of which hold `ERROR`."""
    dice = random.Random(1)
    pool = []
    for i in range(1000):
        head = b"ERROR " if i < share * 1000 else b"info  "
        pool.append(b"%08d " % dice.randrange(10**8) + head + words_of(dice, 11) + b"\n")
    lines, length = [], 0
    while length < size:
        line = dice.choice(pool)
        lines.append(line)
        length += len(line)
    return b"".join(lines)[:size]


def job(body):
    return b"trio-job 1\njob main { " + body + b" }\n"


def job_of_format_2(body):
    return b"trio-job 2\njob main { " + body + b" }\n"


def job_of_format_3(body):
    return b"trio-job 3\njob main { " + body + b" }\n"


def started_in_one(inner, starts):
    """The body of a job whose tasks are all children of one nursery, 64 for each `start`."""
    return b"nursery n{" + b"".join(b"start r%d over 64{%s}" % (i, inner) for i in range(starts)) + b"}"


def grid_steps(inner, outer=64, middle=64):
    return b"nursery n { start a over %d { nursery m { start b over %d { %s } } } }" % (outer, middle, inner)


def grid(inner, outer=64, middle=64):
    return job(grid_steps(inner, outer, middle))


# ---- one run ----


class Run:
    """A command with its standard input from nowhere: its least time, and the most memory of one run.

    Standard output is a file, for all alike: into nowhere `grep` stops at its first line.
    """

    out = os.devnull

    def __init__(self, name, *words):
        self.name, self.words = name, [str(word) for word in words]
        self.seconds, self.memory = float("inf"), 0

    def write_to(self, path):
        with open(path, "wb") as out:
            subprocess.run(self.words, stdin=subprocess.DEVNULL, stdout=out, stderr=subprocess.DEVNULL)
        return path

    def once(self):
        with open(Run.out, "wb") as out:
            begin = time.perf_counter()
            child = subprocess.Popen(self.words, stdin=subprocess.DEVNULL, stdout=out, stderr=subprocess.DEVNULL)
            _, status, used = os.wait4(child.pid, 0)
            self.seconds = min(self.seconds, time.perf_counter() - begin)
        self.memory = max(self.memory, used.ru_maxrss)
        child.returncode = status
        return status


def measure(runs, rounds):
    for _ in range(rounds):
        for run in runs:
            run.once()


def milliseconds(seconds):
    return f"{seconds * 1000:.1f}"


class Table:
    """Rows of a table in Markdown."""

    def __init__(self, *heads):
        print("| " + " | ".join(heads) + " |")
        print("|" + "---|" * len(heads))

    def row(self, *cells):
        print("| " + " | ".join(str(cell) for cell in cells) + " |", flush=True)


# ---- the tables ----


class Bench:
    def __init__(self, program, rounds, folder):
        self.program, self.rounds, self.folder = program, rounds, folder
        self.native = self.build_native()

    def file(self, name, data):
        path = os.path.join(self.folder, name)
        with open(path, "wb") as file:
            file.write(data)
        return path

    def made(self, name, make):
        """A file whose bytes are made in a process of their own: a child's peak of memory begins at its parent's."""
        path = os.path.join(self.folder, name)
        child = os.fork()
        if child == 0:
            self.file(name, make())
            os._exit(0)
        os.waitpid(child, 0)
        return path

    def write_the_same(self, one, other):
        paths = [run.write_to(os.path.join(self.folder, name)) for run, name in [(one, "one.out"), (other, "other.out")]]
        return filecmp.cmp(*paths, shallow=False)

    def build_native(self):
        """The native program, built, or None."""
        if not shutil.which("rustc"):
            return None
        path = os.path.join(self.folder, "native")
        source = os.path.join(HERE, "native.rs")
        built = subprocess.run(["rustc", "--edition", "2021", "-O", "-o", path, source], capture_output=True)
        return path if built.returncode == 0 else None

    def lines(self):
        """Searches of lines in whole programs, beside native programs."""
        errors = self.made("errors.txt", lambda: log(16 * MIB, 0.03))
        every = self.made("every.txt", lambda: log(16 * MIB, 1.0))
        short = self.made("short.txt", lambda: b"a line\n" * (2 * MIB))
        one = self.made("one.txt", lambda: b"x" * (16 * MIB - 5) + b"ERROR")
        last = self.made("last.txt", lambda: log(16 * MIB, 0.0)[: 16 * MIB - 6] + b"ERROR\n")
        table = Table("Work", "nursery ms", "MB", "native ms", "MB", "ratio", "others ms")
        errors_by = [("grep -F", "grep", "-F", "ERROR", errors), ("rg", "rg", "-F", "ERROR", errors)]
        for name, step, native_step, path, others in [
            ("find in 16 MiB, 3 % of the lines", b'find "ERROR";', ["find", "ERROR"], errors, errors_by),
            ("find that every line meets", b'find "ERROR";', ["find", "ERROR"], every, [("grep -F", "grep", "-F", "ERROR", every)]),
            ("find in 2 million short lines, each", b'find "a";', ["find", "a"], short, [("grep -F", "grep", "-F", "a", short)]),
            ("head of 2 million short lines", b"head 1000000000;", ["head", ""], short, []),
            ("need at the last line", b'need "ERROR" Missing;', ["need", "ERROR"], last, [("grep -F", "grep", "-F", "-m1", "ERROR", last)]),
            ("find in one line of 16 MiB", b'find "ERROR";', ["find", "ERROR"], one, []),
            ("pace: lines counted", b"pace 1000000;", ["pace", ""], every, [("wc -l", "wc", "-l", every)]),
        ]:
            text = self.file("lines.job", job(step))
            ours = Run(name, self.program, "run", text, path)
            native = [Run("native", self.native, *native_step, path)] if self.native else []
            if native and not self.write_the_same(ours, native[0]):
                raise SystemExit(f"{name}: the native program writes something else")
            beside = [Run(*words) for words in others if shutil.which(words[1])]
            measure([ours, *native, *beside], self.rounds)
            cells = ["-", "-", "-"]
            if native:
                cells = [milliseconds(native[0].seconds), native[0].memory // 1024, f"{ours.seconds / native[0].seconds:.2f}"]
            told = ", ".join(f"{run.name} {milliseconds(run.seconds)}" for run in beside) or "-"
            table.row(name, milliseconds(ours.seconds), ours.memory // 1024, *cells, told)

    def turns(self):
        """Time per turn at growing sizes. A turn's cost is the run's time without that of an empty job."""
        empty = Run("empty", self.program, "run", self.file("empty.job", job(b"")), os.devnull)
        measure([empty], self.rounds)
        table = Table("Tasks", "turns", "ms", "ns a turn", "MB")
        sleeps = b"sleep 1; sleep 1; sleep 1;"
        for outer, middle in [(16, 64), (64, 64)]:
            self.turns_row(table, empty, grid(sleeps, outer, middle), 1 + outer + outer * middle, 2 * (1 + outer) + 4 * outer * middle)
        for inner in [2, 4, 5]:
            text = job(
                b"nursery n { start a over 64 { nursery m { start b over 64 { nursery k { start c over %d { sleep 1; sleep 1; } } } } } }" % inner
            )
            tasks = 1 + 64 + 64 * 64 * (1 + inner)
            self.turns_row(table, empty, text, tasks, 2 * (1 + 64 + 64 * 64) + 3 * 64 * 64 * inner)

    def turns_row(self, table, empty, text, tasks, turns):
        path = self.file("turns.job", text)
        run = Run("turns", self.program, "run", path, os.devnull)
        measure([run], self.rounds)
        table.row(tasks, turns, milliseconds(run.seconds), f"{(run.seconds - empty.seconds) * 1e9 / turns:.0f}", run.memory // 1024)

    def large(self):
        """Jobs of a million steps, in format 2."""
        empty = Run("empty", self.program, "run", self.file("empty.job", job(b"")), os.devnull)
        measure([empty], self.rounds)
        table = Table("Work", "turns or steps", "ms", "ns each", "MB")
        ends = b" ".join(b"start r%d over 64 { }" % i for i in range(15))
        started = b"nursery n { start p over %d { nursery m { start q over 64 { nursery k { " + ends + b" } } } } }"
        for name, body, turns in [
            ("499,000 sleeps in one task", b"repeat 499 { repeat 1000 { sleep 1; } }", 499_001),
            ("998,000 checkpoints in one task, each a step", b"repeat 1000 { " + b"checkpoint;" * 998 + b" }", 998_000),
            ("246,021 tasks that end at once, up to 256 in a nursery", started % 4, 246_282),
            ("922,576 tasks that end at once, up to 960 in a nursery", started % 15, 923_552),
            ("192,001 tasks that end at once, all in one nursery", started_in_one(b"", 3000), 192_002),
            ("128,001 tasks that sleep once, all in one nursery", started_in_one(b"sleep 1;", 2000), 256_002),
        ]:
            run = Run(name, self.program, "run", self.file("large.job", job_of_format_2(body)), os.devnull)
            measure([run], min(self.rounds, 3))
            each = (run.seconds - empty.seconds) * 1e9 / turns
            table.row(name, turns, milliseconds(run.seconds), f"{each:.0f}", run.memory // 1024)

    def by_rounds(self):
        """The same jobs in formats 2 and 3, whose ticks have rounds."""
        table = Table("Work", "format 2 ms", "format 3 ms", "ratio", "MB")
        ends = b" ".join(b"start r%d over 64 { }" % i for i in range(15))
        started = b"nursery n { start p over 15 { nursery m { start q over 64 { nursery k { " + ends + b" } } } } }"
        for name, body in [
            ("499,000 sleeps in one task", b"repeat 499 { repeat 1000 { sleep 1; } }"),
            ("922,576 tasks that end at once, up to 960 in a nursery", started),
            ("128,001 tasks that sleep once, all in one nursery", started_in_one(b"sleep 1;", 2000)),
            ("64 x 64 tasks, three sleeps each", grid_steps(b"sleep 1; sleep 1; sleep 1;")),
        ]:
            runs = [
                Run(str(number), self.program, "run", self.file(f"format{number}.job", make(body)), os.devnull)
                for number, make in [(2, job_of_format_2), (3, job_of_format_3)]
            ]
            self.ratio_row(table, name, runs)
        body = [b"repeat 1000 { " + step * 998 + b" }" for step in (b"sleep 1;", b"checkpoint;")]
        runs = [Run(str(n), self.program, "run", self.file(f"steps{n}.job", job_of_format_3(of)), os.devnull, "--limit", "1000000") for n, of in enumerate(body)]
        self.ratio_row(table, "998,000 sleeps, and as many checkpoints in one tick, both in format 3", runs)

    def ratio_row(self, table, name, runs):
        measure(runs, self.rounds)
        one, other = runs
        table.row(name, milliseconds(one.seconds), milliseconds(other.seconds), f"{other.seconds / one.seconds:.2f}", other.memory // 1024)

    def stories(self):
        """Stories of large jobs, in format 2."""
        table = Table("Work", "events", "ms", "ns an event", "MB", "bytes an event")
        cancelled = started_in_one(b"sleep 9;", 2000).replace(b"nursery n{", b"nursery n after 5 {")
        for name, body in [
            ("499,000 sleeps in one task", b"repeat 499 { repeat 1000 { sleep 1; } }"),
            ("333,000 scopes with a sleep each", b"repeat 333 { repeat 1000 { scope s { sleep 1; } } }"),
            ("128,000 tasks that are cancelled together", cancelled),
        ]:
            run = Run(name, self.program, "explain", self.file("story.job", job_of_format_2(body)))
            measure([run], min(self.rounds, 3))
            with open(Run.out, "rb") as out:
                events = sum(line.startswith(b"  ") for line in out)
            table.row(name, events, milliseconds(run.seconds), f"{run.seconds * 1e9 / events:.0f}", run.memory // 1024, run.memory * 1024 // events)

    def beside_run(self):
        """Each command of 64 x 64 tasks with three sleeps each, beside their run."""
        table = Table("Command", "ms", "of the run's time", "MB")
        path = self.file("beside.job", grid(b"sleep 1; sleep 1; sleep 1;"))
        words = [["run"], ["run", "--json"], ["explain"], ["explain", "--json"], ["chart"], ["chart", "--svg"]]
        runs = [Run(" ".join(it), self.program, *it, path) for it in words]
        measure(runs, self.rounds)
        for run in runs:
            table.row(run.name, milliseconds(run.seconds), f"{run.seconds / runs[0].seconds:.2f}", run.memory // 1024)

    def asking(self):
        """100,000 tasks that ask a limiter in one tick, beside as many that sleep, and as many that wait until a deadline."""
        table = Table("100,000 tasks", "ms", "of the time of sleeping tasks", "MB")
        tasks = b"repeat 1000 { repeat 100 { start t { %s } }"
        ask = b"acquire l { }"
        jobs = [("each sleeps a tick", b"nursery n { " + tasks % b"sleep 1;" + b" } }")]
        for tokens in [1, 2, 10, 100]:
            jobs.append((f"each asks for a token of {tokens}", b"limiter l %d { nursery n { " % tokens + tasks % ask + b" } } }"))
        jobs.append(("each sleeps until a deadline", b"nursery n after 5 { " + tasks % b"sleep 9;" + b" } }"))
        jobs.append(("each waits in a queue until a deadline", b"limiter l 1 { acquire l { nursery n after 5 { " + tasks % ask + b" } } } }"))
        runs = [Run(name, self.program, "run", self.file(f"asking{n}.job", job_of_format_3(body))) for n, (name, body) in enumerate(jobs)]
        measure(runs, 3 * self.rounds)
        for run in runs:
            beside = runs[-2] if run in runs[-2:] else runs[0]
            table.row(run.name, milliseconds(run.seconds), f"{run.seconds / beside.seconds:.2f}", run.memory // 1024)

    def charts(self):
        """Charts of jobs with many tasks, as text and as SVG."""
        table = Table("Work", "form", "ms", "MB", "bytes")
        for name, starts in [("500 tasks that sleep and are cancelled", 10), ("20,000 tasks that sleep and are cancelled", 400)]:
            steps = b"repeat %d { nursery n after 3 { start a over 50 { sleep 9; } } }" % starts
            path = self.file("chart.job", job_of_format_2(steps))
            for form, words in [("text", ["--width", "80"]), ("text of 1,000 columns", ["--width", "1000"]), ("SVG", ["--svg"])]:
                run = Run(form, self.program, "chart", path, *words)
                measure([run], min(self.rounds, 3))
                table.row(name, form, milliseconds(run.seconds), run.memory // 1024, os.path.getsize(Run.out))

    def faults(self):
        """Faults, races and sweeps, by several threads."""
        table = Table("Work", "runs", "threads", "ms", "ms a run")
        for feed in sorted(glob.glob(os.path.join(HERE, "..", "examples", "*.feed"))):
            with open(feed, "rb") as file:
                text, _, data = file.read().partition(b"%input\n")
            words = ["faults", self.file("faulty.job", text), self.file("faulty.txt", data)]
            self.faults_row(table, "all faults of " + os.path.basename(feed), words, 1)
        steps = b"sleep 1; " + b'find "er"; ' * 15
        large = self.file("faulty.job", job_of_format_2(steps * 125))
        for threads in [1, 2, 4]:
            self.faults_row(table, "all faults of a job of 2,000 steps", ["faults", large], threads)
        for threads in [1, 2, 4]:
            words = ["sweep", large, "--at", "2:18", "--values", "1..500"]
            self.faults_row(table, "500 values in a job of 2,000 steps", words, threads)
        mixed = self.file("hairy.job", job_of_format_2((b"sleep 1; " + b'find "er"; ' * 4) * 100))
        for threads in [1, 2, 4]:
            self.faults_row(table, "200 hairs of a job of 500 steps", ["races", mixed], threads)
        small = self.file("swept.job", job(b"scope s after 1 fail { sleep 50000; }"))
        for threads in [1, 4]:
            self.faults_row(table, "100,000 values in a job of 2 steps", ["sweep", small, "--of", "s", "--values", "1..100000"], threads)

    def faults_row(self, table, name, words, threads):
        run = Run(name, self.program, *words, "--workers", threads)
        measure([run], min(self.rounds, 3))
        with open(Run.out, "rb") as out:
            count = int(out.read().splitlines()[-1].split()[0])
        table.row(name, count, threads, milliseconds(run.seconds), f"{run.seconds * 1000 / max(count, 1):.2f}")

    def workers(self):
        """Workers beside one another: 64 searches of the whole input, its 64 parts, and many small requests."""
        data = self.made("all.txt", lambda: log(16 * MIB, 0.03))
        small = self.made("small.txt", lambda: b"a line of 15 b.\n" * 4096)
        table = Table("Work", "workers", "ms", "of one worker's time")
        whole = b"nursery n { " + b"".join(b'start t%d { need "absent" Missing; }' % i for i in range(64)) + b" }"
        for name, body, path in [
            ("64 searches of 16 MiB each", b"try { " + whole + b" } except Missing { }", data),
            ("the 64 parts of 16 MiB", b'nursery n { start p over 64 { find "absent"; } }', data),
            ("4,096 requests of 16 bytes", b'nursery n { start a over 64 { nursery m { start b over 64 { find "z"; } } } }', small),
        ]:
            text = self.file("workers.job", job(body))
            runs = [Run(workers, self.program, "run", text, path, "--workers", workers) for workers in [1, 2, 4, 16, 64]]
            measure(runs, self.rounds)
            for run in runs:
                table.row(name, run.name, milliseconds(run.seconds), f"{run.seconds / runs[0].seconds:.2f}")

    def trio(self):
        """Trio's MockClock on 64 x 64 tasks with three sleeps each."""
        if subprocess.run([sys.executable, "-c", "import trio"], capture_output=True).returncode:
            return
        run = Run("Trio", sys.executable, os.path.join(HERE, "sleeps_in_trio.py"))
        measure([run], min(self.rounds, 3))
        ours = Run("nursery", self.program, "run", self.file("sleeps.job", grid(b"sleep 1; sleep 1; sleep 1;")), os.devnull)
        measure([ours], self.rounds)
        print(f"64 x 64 tasks, three sleeps each: nursery {milliseconds(ours.seconds)} ms, Trio {milliseconds(run.seconds)} ms")


def main():
    program = os.path.abspath(sys.argv[1])
    rounds = int(sys.argv[2]) if len(sys.argv) > 2 else 5
    with tempfile.TemporaryDirectory() as folder:
        Run.out = os.path.join(folder, "out")
        bench = Bench(program, rounds, folder)
        tables = [bench.lines, bench.turns, bench.large, bench.by_rounds, bench.asking]
        tables += [bench.beside_run, bench.stories, bench.charts, bench.faults, bench.workers, bench.trio]
        for table in tables:
            print(f"\n{table.__doc__.splitlines()[0]}\n")
            table()
    return 0


if __name__ == "__main__":
    sys.exit(main())
