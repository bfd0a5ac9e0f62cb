#!/usr/bin/env python3
"""Refuses each growth of memory in turn, and compares what nursery answers then.

    python3 tests/shortage/refused_growths.py PROGRAM [CRATES]

PROGRAM is the built executable, CRATES the folder of the crates with their built tests. It wants a C compiler for the shim that
refuses (tests/shortage/refuse_growth.c), and Python 3.10. Of each job, with 1 and with 3 workers, the growth 0, 1, 2 and so on is
refused until a run meets none: each time the program gives the job's own bytes and status, or `no memory`, status 5 and nothing on
standard output. Where the growth that is refused is one of the system's for a thread, the others do its work, and the answer is the
job's own; where it is one for the sentence that explains a refused text on standard error, the refusal is printed without it.

With CRATES the same is done with each crate's tests, each growth of each but one test's: each time a test passes, or ends with want of
memory. The growths of a test are refused by several processes beside one another.
"""

import glob
import os
import subprocess
import sys
import tempfile
import time
from concurrent.futures import ProcessPoolExecutor

HERE = os.path.dirname(os.path.abspath(__file__))
sys.path.insert(0, os.path.join(HERE, "..", "random"))

from formats import formatted  # noqa: E402: it is in the folder of the random jobs

TEN_BYTES = b"aa\nb\ncccc\n"

# Each job's name, its steps or whole text, its input, its status and its bytes.
ROWS = [
    ("a search", b'find "er";', b"error\nok\n", 0, b"job main 0\ntask main 0 0 done\n  line 0+5 error\n"),
    (
        "a member that fails",
        b"nursery n { start a { sleep 2; raise Boom; } start b { sleep 10; } start c { sleep 2; } }",
        b"",
        1,
        b"job main 3\ntask main 0 3 raised n[Boom(a@2)]\n  nursery n 3 caught\n"
        b"task a 0 2 raised Boom(a@2)\ntask b 0 3 cancelled\ntask c 0 2 done\n",
    ),
    (
        "a cleanup with a shield",
        b"scope s after 4 { try { forever; } finally { scope g shield { sleep 3; } sleep 1; } }",
        b"",
        0,
        b"job main 7\ntask main 0 7 done\n  scope g 7 passed\n  scope s 7 caught\n",
    ),
    (
        "kernels on parts",
        b"nursery n { start p over 2 { longest; head 1; } }",
        TEN_BYTES,
        0,
        b"job main 0\ntask main 0 0 done\n  nursery n 0 passed\ntask p.0 0 0 done\n  line 0+2 aa\n  line 0+2 aa\n"
        b"task p.1 0 0 done\n  line 5+4 cccc\n  line 5+4 cccc\n",
    ),
    (
        "a handler's group",
        b"try { nursery n { start a { raise A; } start b { raise B; } } } except A { raise C; }",
        b"",
        1,
        b"job main 0\ntask main 0 0 raised *[C(main@0), n[B(b@0)]]\n  nursery n 0 passed\n"
        b"task a 0 0 raised A(a@0)\ntask b 0 0 raised B(b@0)\n",
    ),
    ("a job past its limit", b"sleep 101;", b"", 3, b"limit 100\n"),
    ("a refused text", b"cancel x;", b"", 2, b"refused J9 NotEnclosing at 29\n"),
]

# What `check` writes of a row.
CHECKS = {
    "a search": b'trio-job 1\njob main{find"er";}\n',
    "a refused text": b"refused J9 NotEnclosing at 29\n",
}


class Wrong(Exception):
    """What was found, in one sentence."""


class Shim:
    """The built shim, in a folder with room for files."""

    def __init__(self, folder):
        self.folder = folder
        self.path = os.path.join(folder, "refuse_growth.so")
        source = os.path.join(HERE, "refuse_growth.c")
        subprocess.run([os.environ.get("CC", "cc"), "-shared", "-fPIC", "-O1", "-o", self.path, source], check=True)

    def run(self, words, growth, folder=None):
        """Runs the words in a folder while that growth is refused. Gives whether it was, and the status, output and error."""
        told, tells = os.pipe()
        variables = dict(os.environ, LD_PRELOAD=self.path, REFUSED_GROWTH=str(growth), REFUSAL_TOLD=str(tells))
        run = subprocess.run(words, stdin=subprocess.DEVNULL, capture_output=True, env=variables, pass_fds=[tells], cwd=folder)
        os.close(tells)
        with os.fdopen(told, "rb") as pipe:
            was_refused = pipe.read() != b""
        return was_refused, (run.returncode, run.stdout, run.stderr)


def refuse_each(shim, words, status, right, told):
    """Refuses each growth of one run, which prints something on standard error or not. Returns how many were refused, and how many of
    those runs had no memory."""
    growth, without = 0, 0
    while True:
        was_refused, (got, out, err) = shim.run(words, growth)
        if got == 5 and was_refused:
            if out != b"" or err != b"no memory\n":
                raise Wrong(f"growth {growth}: {out!r}, {err!r}")
            without += 1
        elif (got, out) != (status, right) or (err and not told) or (told and not err and not was_refused):
            raise Wrong(f"growth {growth}: status {got}, {out!r}, {err!r}")
        if not was_refused:
            return growth, without
        growth += 1


# The stories of some of them.
STORIES = {
    "a search": b"tick 0\n  main  starts\n  main  finds 1 line\n  main  ends: done\n",
    "a member that fails": b"tick 0\n  main  starts\n  main  enters nursery n\n  a     starts in nursery n\n  a     sleeps until 2\n"
    b"  b     starts in nursery n\n  b     sleeps until 10\n  c     starts in nursery n\n  c     sleeps until 2\n  main  waits for nursery n\n"
    b"tick 2\n  a     raises Boom\n  a     ends: raised Boom(a@2); nursery n is cancelled from 3\n  c     ends: done\n"
    b"tick 3\n  b     is cancelled while sleeping since 0 by nursery n (a failed at 2)\n  b     ends: cancelled\n"
    b"  main  leaves nursery n: cancellation caught, n[Boom(a@2)] propagates\n  main  ends: raised n[Boom(a@2)]\n",
    "a cleanup with a shield": b"tick 0\n  main  starts\n  main  enters scope s (deadline 4)\n  main  sleeps forever\n"
    b"tick 4\n  main  is cancelled while sleeping since 0 by scope s (deadline)\n  main  runs cleanup after Cancelled\n"
    b"  main  enters scope g (shielded)\n  main  sleeps until 7\ntick 7\n  main  leaves scope g: completed\n"
    b"  main  is cancelled during cleanup at a checkpoint by scope s (deadline)\n  main  replaces Cancelled with Cancelled\n"
    b"  main  leaves scope s: cancellation caught\n  main  ends: done\n",
    "a job past its limit": b"tick 0\n  main  starts\n  main  sleeps until 101\nlimit 100\n  main  sleeping until 101 since 0\n",
}

# The charts of some of them.
CHARTS = {
    "a search": b"      0\nmain  | done\n",
    "a member that fails": b"             0  2 3\nmain         |----| raised n[Boom(a@2)]\n  nursery n  (====x caught\na            |--! raised Boom(a@2)\n"
    b"b            |----x cancelled\nc            |--| done\n",
    "a cleanup with a shield": b"           0   4  7\nmain       |---x--x done\n  scope s  (===x==) caught\n  scope g      (==) passed\n",
    "a job past its limit": b"      0       100\nmain  |-------- running\nlimit 100\n",
}

# What becomes of some of them with each fault.
FAULTS = {
    "a cleanup with a shield": b"               as it is    7 done; cleanup cut: main\n"
    b"2:36  forever  fails       4 done; cleanup cut: main; fault lost\n"
    b"2:36  forever  cancelled   4 done; cleanup cut: main\n"
    b"2:74  sleep 3  fails       4 raised Fault(main@4)\n"
    b"2:74  sleep 3  fails late  7 raised Fault(main@7)\n"
    b"2:74  sleep 3  hangs       stuck at 100; sleeping forever: main\n"
    b"2:74  sleep 3  cancelled   7 done; cleanup cut: main\n"
    b"2:85  sleep 1  fails       7 raised Fault(main@7)\n"
    b"2:85  sleep 1  fails late  7 done; not reached; cleanup cut: main\n"
    b"2:85  sleep 1  hangs       7 done; cleanup cut: main\n"
    b"2:85  sleep 1  cancelled   7 done; cleanup cut: main\n"
    b"10 faults: 1 stuck, 0 cut a cleanup, 1 lost, 1 not reached\n",
    "a job past its limit": b"                 as it is    stuck at 100\n2:12  sleep 101  fails       0 raised Fault(main@0)\n"
    b"2:12  sleep 101  fails late  stuck at 100; not reached\n2:12  sleep 101  hangs       stuck at 100; sleeping forever: main\n"
    b"2:12  sleep 101  cancelled   1 done\n4 faults: 2 stuck, 0 cut a cleanup, 0 lost, 1 not reached\n",
}

# Jobs with races. The start of copies has its story explained, too.
RACES = {
    "kernels on parts": b"1 hairs: no race\n",
    "a handler's group": b"2:30  start a  later  main: raised *[C(main), n[B(b)]] -> raised n[B(b)]; a: raised A(a) -> cancelled\n"
    b"2:51  start b  later  main: raised *[C(main), n[B(b)]] -> raised C(main); b: raised B(b) -> cancelled\n2 hairs: 2 races\n",
}

# What becomes of them for each value from 99 to 101 of the number at a place.
SWEEPS = {
    "a job past its limit": ("2:18", b"as it is  stuck at 100\n99..100   done, ends 99..100\n101       stuck at 100\n"
    b"3 values: 1 stuck, 0 cut a cleanup\n"),
}

# What a test says that ends for want of memory.
WANT_OF_MEMORY = [b"AllocError", b"AllocFailed", b"NoMemory"]

# What a test says that wants two threads at once, where the second could not be started.
ALONE = b"assertion failed: gate."

# Into how many lanes the growths of a test are dealt, so that several processes share them.
LANES = 8


def tests_of(crates):
    """The built tests of each crate: its folder, the executable, and a test's name."""
    for built in sorted(glob.glob(os.path.join(os.path.abspath(crates), "*", "out", "*_tests"))):
        folder = os.path.dirname(os.path.dirname(built))
        listed = subprocess.run([built, "--list"], cwd=folder, capture_output=True, check=True).stdout.decode()
        for line in listed.splitlines():
            name, colon, kind = line.rpartition(": ")
            if kind == "test":
                yield folder, built, name


def is_excused(name, status, told):
    """Whether a test ended for want of the memory that was refused."""
    if name.endswith("_at_once") and ALONE in told:
        return True
    return status == 101 and any(word in told for word in WANT_OF_MEMORY)


def refuse_in_test(shim, test, lane):
    """Refuses the growths of one test that fall to a lane, until a run meets none. Gives how many, and the seconds."""
    folder, built, name = test
    growth, began = lane, time.monotonic()
    while True:
        was_refused, (status, out, err) = shim.run([built, name], growth, folder)
        if status != 0 and not (was_refused and is_excused(name, status, out + err)):
            raise Wrong(f"{os.path.basename(folder)} {name}, growth {growth}: status {status}, {out + err!r}")
        if not was_refused:
            return growth // LANES, time.monotonic() - began
        growth += LANES


def refuse_in_tests(shim, crates, pool):
    """Refuses each growth of all tests, several at a time."""
    tests = list(tests_of(crates))
    lanes = [[pool.submit(refuse_in_test, shim, test, lane) for lane in range(LANES)] for test in tests]
    total = 0
    for (folder, _, name), runs in zip(tests, lanes):
        counts, seconds = zip(*(run.result() for run in runs))
        print(f"{os.path.basename(folder)} {name}: {sum(counts)} growths refused, {sum(seconds):.1f} s")
        total += sum(counts)
    print(f"{len(tests)} tests: {total} growths refused")


def written(folder, name, content):
    """The path of a file with that content."""
    path = os.path.join(folder, name)
    with open(path, "wb") as file:
        file.write(content)
    return path


def content_of(path):
    with open(path, newline="") as file:
        return file.read()


def own_answer(program, words):
    """What the program answers with ample memory: its status and its bytes."""
    done = subprocess.run([program, *words], stdin=subprocess.DEVNULL, capture_output=True)
    return done.returncode, done.stdout


def documents_of(program, name, job, data):
    """The runs that write JSON documents, warnings and Python programs, whose bytes are those with ample memory: they are compared with others elsewhere."""
    options = ["--limit", "100"]
    words = [["run", job, data, *options, "--json"], ["explain", job, data, *options, "--json"]]
    if name in FAULTS:
        words += [["faults", job, data, *options, "--json"], ["races", job, data, *options, "--json"]]
    if name in SWEEPS:
        words.append(["sweep", job, data, "--at", SWEEPS[name][0], "--values", "99..101", *options, "--json"])
    if name in CHECKS:
        words += [["lint", job], ["lint", job, "--json"], ["trio", job]]
    for run in words:
        wanted, right = own_answer(program, run)
        shown = run[0] + (" --json" if "--json" in run else "")
        yield f"{name}, {shown}", run, wanted, right, wanted == 2 or (wanted == 3 and run[0] != "explain")


def runs_of_program(program, folder):
    """The runs of the program: what is shown of each, its words, its status, its bytes, and whether it prints something."""
    for number, (name, steps, buffer, status, right) in enumerate(ROWS):
        job = written(folder, f"job_{number}", b"trio-job 1\njob main { " + steps + b" }")
        data = written(folder, f"input_{number}", buffer)
        for workers in ["1", "3"]:
            words = ["run", job, data, "--limit", "100", "--workers", workers]
            yield f"{name}, run with {workers} workers", words, status, right, status in (2, 3)
        if name in STORIES:
            yield f"{name}, explain", ["explain", job, data, "--limit", "100"], status, STORIES[name], status == 2
        if name in CHARTS:
            yield f"{name}, chart", ["chart", job, data, "--limit", "100", "--width", "80"], status, CHARTS[name], status in (2, 3)
        if name in FAULTS:
            for workers in ["1", "3"]:
                words = ["faults", job, data, "--limit", "100", "--workers", workers]
                yield f"{name}, faults with {workers} workers", words, 0, FAULTS[name], False
        if name in RACES:
            for workers in ["1", "3"]:
                words = ["races", job, data, "--limit", "100", "--workers", workers]
                yield f"{name}, races with {workers} workers", words, 0, RACES[name], False
        if name in SWEEPS:
            place, told = SWEEPS[name]
            for workers in ["1", "3"]:
                words = ["sweep", job, data, "--at", place, "--values", "99..101", "--limit", "100", "--workers", workers]
                yield f"{name}, sweep with {workers} workers", words, 0, told, False
        if name in CHECKS:
            yield f"{name}, check --canonical", ["check", job, "--canonical"], status, CHECKS[name], status == 2
            text = formatted(content_of(job))
            yield f"{name}, fmt", ["fmt", job], status, CHECKS[name] if status == 2 else text.encode(), status == 2
        yield from documents_of(program, name, job, data)


def refuse_in_program(shim, program, pool):
    """Refuses each growth of all runs of the program, several at a time."""
    runs = list(runs_of_program(program, shim.folder))
    found = [pool.submit(refuse_each, shim, [program, *words], *answer) for _, words, *answer in runs]
    for (shown, *_), counts in zip(runs, found):
        try:
            growths, without = counts.result()
        except Wrong as wrong:
            raise Wrong(f"{shown}: {wrong}")
        print(f"{shown}: {growths} growths refused, {without} times no memory")


def main():
    program = os.path.abspath(sys.argv[1])
    with tempfile.TemporaryDirectory() as folder, ProcessPoolExecutor(os.cpu_count()) as pool:
        shim = Shim(folder)
        try:
            refuse_in_program(shim, program, pool)
            if len(sys.argv) > 2:
                refuse_in_tests(shim, sys.argv[2], pool)
        except Wrong as wrong:
            print(wrong)
            pool.shutdown(cancel_futures=True)
            return 1
    return 0


if __name__ == "__main__":
    sys.exit(main())
