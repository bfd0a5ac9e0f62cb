#!/usr/bin/env python3
"""Runs the Python programs that `nursery trio` writes, and compares what they tell with Trio and with `nursery run`.

    python3 tests/random/trio_export.py PROGRAM [JOBS [SEED]] [--exporter EXPORTER]
    python3 tests/random/trio_export.py PROGRAM --job JOB [--exporter EXPORTER]

PROGRAM is the built executable. It wants Python 3.11 and Trio 0.22 or newer, and is no part of the gate. The jobs are those of examples/, jobs
that are nested as deep as they may be, jobs whose names are those that a program uses, and random ones. Each program has to be one of Python 3.8
too. It is run under eight seeds of Trio's scheduler, and no run may raise what the job does not name. What it prints, how each task ends and
the lines that it shows, has to be what races_in_trio.py sees of a random job in Trio, where each has one outcome; and what `nursery run`
reports of the others. Counted are the random jobs without a race, which should have one outcome too, and how often it is that
of `nursery run`. The second form shows one random job with its program and outcomes, by its number.
"""

import argparse
import ast
import collections
import glob
import keyword
import os
import re
import subprocess
import sys
import tempfile
from concurrent.futures import ProcessPoolExecutor

import outcome
import trio
import trio._core._run as scheduler

from against_trio import INPUT, LIMIT
from jobs import random_job
from races_in_trio import in_trio

SEEDS = 8
ROOT = os.path.join(os.path.dirname(os.path.abspath(__file__)), "..", "..")


# ---- Trio 0.22 ----


async def nested_child_finished(self, error):
    """The end of a nursery as Trio has it from 0.23 on: no cancel point."""
    if error is not None:
        self._add_exc(error)
    self._nested_child_running = False
    self._check_nursery_closed()

    def aborted(raise_cancel):
        raised = outcome.capture(raise_cancel).error
        if not isinstance(raised, trio.Cancelled):
            self._add_exc(raised)
        return trio.lowlevel.Abort.FAILED

    if self._closed:
        await trio.lowlevel.cancel_shielded_checkpoint()
    else:
        self._parent_waiting_in_aexit = True
        await trio.lowlevel.wait_task_rescheduled(aborted)
    self._parent_task._child_nurseries.pop()
    if self._pending_excs:
        return BaseExceptionGroup("", self._pending_excs)
    return None


if trio.__version__.startswith("0.22."):
    scheduler.Nursery._nested_child_finished = nested_child_finished


# ---- outcomes ----


def parts_of(text):
    """The parts of a group's text, between commas that are in no other group."""
    depth, part = 0, ""
    for c in text:
        depth += (c == "[") - (c == "]")
        if c == "," and depth == 0:
            yield part.strip()
            part = ""
        else:
            part += c
    yield part.strip()


def plain(exc):
    """An exception of a report as programs tell it: without labels and ticks, its parts sorted, and `Cancelled` for nothing but `Cancelled`."""
    if "[" not in exc:
        return exc
    parts = sorted(plain(part) for part in parts_of(exc[exc.index("[") + 1 : -1]))
    return "Cancelled" if set(parts) == {"Cancelled"} else f"[{', '.join(parts)}]"


def plain_outcome(outcome):
    """The outcome of a task as programs print it: an exception has no labels and ticks, and nothing but `Cancelled` is `cancelled`."""
    if not outcome.startswith("raised "):
        return outcome
    exception = plain(re.sub(r"\([^()]*\)", "", outcome[7:]))
    return "cancelled" if exception == "Cancelled" else f"raised {exception}"


def row(label, outcome):
    return f"task {label.split('.')[0]} {plain_outcome(outcome)}"


def line(text):
    return "  line " + repr(text.encode().decode("unicode_escape"))


def of_report(report):
    """What a report says that a program prints too."""
    for told in report.splitlines()[1:]:
        if told.startswith("task "):
            _, label, _, _, ending = told.split(" ", 4)
            yield row(label, ending)
        elif told.startswith("  line "):
            yield line(told.split(" ", 4)[4])


def of_program(rows):
    """The same of what a program prints."""
    for told in rows.splitlines():
        if told.startswith("task "):
            yield row(*told.split(" ", 2)[1:])
        elif told.startswith("  line "):
            yield line(told[7:])
        else:
            yield told


def of_trio(rows):
    """The same of what races_in_trio.py sees in Trio."""
    for told in rows.splitlines():
        if told.startswith("  line "):
            yield line(told.split(" ", 4)[4])
        elif not told.startswith("  "):
            yield row(*told.split(" ", 1)) if " " in told else told


# ---- one job ----


def call(program, command, text, input_, *words):
    with tempfile.TemporaryDirectory() as folder:
        job, lines = os.path.join(folder, "job"), os.path.join(folder, "input")
        with open(job, "wb") as file:
            file.write(text)
        with open(lines, "wb") as file:
            file.write(input_)
        files = [job] if command == "trio" else [job, lines]
        run = subprocess.run([program, command, *files, *words], capture_output=True)
        return run.returncode, run.stdout.decode()


class Exported:
    """The program of a job."""

    def __init__(self, exporter, text):
        status, self.text = call(exporter, "trio", text, b"")
        assert status == 0, f"status {status} of {text}"
        self.tree = ast.parse(self.text, feature_version=(3, 8))
        self.names = {}
        exec(compile(self.text, "exported", "exec"), self.names)

    def root(self):
        return self.names[self.tree.body[-1].body[0].value.args[0].id]

    def outcomes(self, input_):
        """Its outcomes under the seeds, and how often each was seen."""
        found = collections.Counter()
        for seed in range(SEEDS):
            found["\n".join(of_program(self.names["run_once"](self.root(), input_, seed)))] += 1
            if any("limit" in told for told in found):
                break
        return found


def strangers(text, found):
    """The exceptions in outcomes that the job does not name."""
    words = set(re.findall(r"\w+", text.decode())) | {"raised", "TooSlow", "Cancelled"}
    for told in found:
        for ending in re.findall(r"^task \w+ (raised .*)$", told, re.MULTILINE):
            yield from (word for word in re.findall(r"\w+", ending) if word not in words)


def reported(program, text, input_):
    """What `nursery run` reports of a job."""
    return "\n".join(of_report(call(program, "run", text, input_, "--limit", str(LIMIT))[1]))


def fault_of(program, exporter, text, input_):
    """What is wrong with the program of a job that is not random: it may have several outcomes, but one is that of `nursery run`."""
    found = Exported(exporter, text).outcomes(input_)
    for stranger in strangers(text, found):
        return f"raises {stranger}"
    return None if reported(program, text, input_) in found else "has another outcome"


# ---- jobs that are not random ----


def examples():
    for name in sorted(glob.glob(os.path.join(ROOT, "examples", "*.feed"))):
        with open(name, "rb") as file:
            job, _, input_ = file.read().partition(b"\n%input\n")
        yield os.path.basename(name), job, input_


def deep_jobs():
    """Jobs whose blocks are nested as deep as they may be."""
    forms = {
        "scopes": lambda n, inner: f"scope s{n} after 9 {{ {inner} }}",
        "passes": lambda n, inner: f"repeat 1 {{ {inner} }}",
        "passes over cuts": lambda n, inner: f"repeat over 1 {{ {inner} }}",
        "bodies": lambda n, inner: f"try {{ {inner} }} except A {{ }} finally {{ }}",
        "handlers": lambda n, inner: f"try {{ raise A; }} except A {{ {inner} }} finally {{ }}",
        "cleanups": lambda n, inner: f"try {{ raise A; }} except A {{ }} finally {{ {inner} }}",
        "handlers in a cleanup": lambda n, inner: f"try {{ raise A; }} except A {{ {inner if n < 30 else ''} }} finally {{ {inner if n == 30 else ''} }}",
        "bodies in a cleanup": lambda n, inner: f"try {{ {inner if n < 30 else ''} }} finally {{ {inner if n == 30 else ''} }}",
        "nurseries": lambda n, inner: f"nursery n{n} {{ {inner} }}",
        "cancels": lambda n, inner: f"scope s{n} {{ {inner} cancel s{n}; sleep 1; }}",
        "tasks": lambda n, inner: f"nursery n{n} {{ start t{n} {{ {inner} }} }}" if n % 2 else inner,
    }
    for name, form in forms.items():
        inner = 'sleep 1; find "ok"; need "absent" B;'
        for n in range(31):
            inner = form(n, inner)
        yield f"deep {name}", f"trio-job {3 if 'over' in name else 2}\njob main {{ {inner} }}".encode(), INPUT


KEYWORDS = (
    "job sleep checkpoint forever pace find head longest need raise cancel scope after at shield fail nursery start over try except "
    "finally repeat Cancelled TooSlow"
).split()


def names_of(tree):
    """The names that a program uses."""
    for node in ast.walk(tree):
        if isinstance(node, ast.Name):
            yield node.id
        elif isinstance(node, (ast.FunctionDef, ast.AsyncFunctionDef, ast.ClassDef)):
            yield node.name
        elif isinstance(node, ast.arg):
            yield node.arg
        elif isinstance(node, ast.alias):
            yield node.name.split(".")[0]


ALL_STEPS = b"""trio-job 3
job main {
  nursery n after 9 shield {
    start t over 2 { pace 1; find "e"; head 1; longest; }
    start u { cancel n; forever; }
  }
  scope s at 99 shield { checkpoint; }
  scope f fail { } scope g after 1 fail { } scope h shield { }
  try { need "absent" E; } except E { repeat 2 { sleep 1; } repeat over 2 { longest; } } finally { }
}"""


def named_jobs(exporter):
    """Jobs whose names are those that a program uses, and words of Python."""
    words = {*names_of(Exported(exporter, ALL_STEPS).tree), *keyword.kwlist, "each_part", "nested_block", "nested_cleanup", "A", "A_", "A__", "print_", "print__"}
    words = sorted(word for word in words if re.fullmatch("[A-Za-z][A-Za-z0-9_]{0,31}", word) and word not in KEYWORDS)
    handled = "".join(f"try {{ raise {word}; }} except {word} {{ sleep 1; }} " for word in words)
    for start in range(0, len(words), 20):
        some = words[start : start + 20]
        tasks = "".join(f'start {word} over 2 {{ scope {word}_s {{ sleep 1; find "ok"; cancel {word}_s; sleep 1; }} }} ' for word in some)
        yield f"tasks {some}", f"trio-job 1\njob a_job {{ nursery a_nursery {{ {tasks} }} {handled} }}".encode(), INPUT
        scopes = "".join(f'scope {word} {{ nursery {word}_n {{ start {word}_t {{ pace 1; cancel {word}; forever; }} }} }} ' for word in some)
        yield f"scopes {some}", f"trio-job 1\njob a_job {{ {scopes} {handled} }}".encode(), INPUT
        nurseries = "".join(f"nursery {word} {{ start {word}_t {{ longest; cancel {word}; forever; }} }} " for word in some)
        yield f"nurseries {some}", f"trio-job 1\njob a_job {{ {nurseries} {handled} raise {some[0]}; }}".encode(), INPUT
    for word in words:
        steps = f'nursery a_nursery {{ start a_task over 2 {{ head 1; longest; find "o"; need "e" {word}; pace 1; raise {word}; }} }}'
        yield f"job {word}", f"trio-job 1\njob {word} {{ try {{ {steps} }} except A {{ }} }}".encode(), INPUT


def fixed(program, exporter):
    """How many of the jobs that are not random have a fault. Of examples the command line of the program is tried too."""
    faults = 0
    for name, text, input_ in [*examples(), *deep_jobs(), *named_jobs(exporter)]:
        fault = fault_of(program, exporter, text, input_)
        if fault is None and name.endswith(".feed"):
            fault = fault_of_words(Exported(exporter, text).text, input_, name == "race.feed")
        if fault is not None:
            faults += 1
            print(f"{name} {fault}:\n{text.decode()}")
    return faults


def is_version(told):
    """Whether a program printed to standard error its version of Trio, and a warning if that is older than 0.23, and nothing else."""
    lines = told.splitlines()
    is_old = trio.__version__.startswith("0.22.")
    return lines[:1] == [f"Trio {trio.__version__}"] and [line.split(":")[0] for line in lines[1:]] == ["warning"] * is_old


def fault_of_words(text, input_, several):
    """What is wrong with how a program answers its command line."""
    with tempfile.TemporaryDirectory() as folder:
        program, lines = os.path.join(folder, "program.py"), os.path.join(folder, "input")
        with open(program, "w", encoding="ascii") as file:
            file.write(text)
        with open(lines, "wb") as file:
            file.write(input_)
        run = subprocess.run([sys.executable, program, lines], capture_output=True, text=True)
        if run.returncode != 0 or not is_version(run.stderr) or not run.stdout.startswith("task "):
            return f"does not run: {run.stderr}"
        run = subprocess.run([sys.executable, program, lines, "--seeds", "8"], capture_output=True, text=True)
        last = run.stdout.splitlines()[-1]
        if not re.fullmatch("8 seeds: (1 outcome|[2-8] outcomes)", last) or (not several and last != "8 seeds: 1 outcome"):
            return f"does not run with seeds: {last} {run.stderr}"
    return None


# ---- random jobs ----


def compared_with(exporter, text, theirs):
    """The outcomes of the program of a random job, and what is wrong with it beside those that races_in_trio.py sees in Trio."""
    found = Exported(exporter, text).outcomes(INPUT)
    theirs = {"\n".join(of_trio(rows)) for rows in theirs}
    for stranger in strangers(text, found):
        return found, f"raises {stranger}"
    ends = not any("limit" in told for told in [*found, *theirs])
    if ends and len(found) == 1 and len(theirs) == 1 and theirs != set(found):
        return found, "has another outcome than in Trio"
    return found, None


def tried(given):
    """Of a random job: what is wrong with its program, whether it has several outcomes, whether the job has a race, and whether an only
    outcome is that of `nursery run`."""
    program, exporter, number = given
    steps, text = random_job(number)
    text = text.encode()
    theirs = in_trio(steps)
    found, fault = compared_with(exporter, text, theirs)
    several = len(found) > 1
    if fault is not None or any("limit" in told for told in [*found, *theirs]):
        return number, fault, several, None, False
    status, told = call(program, "races", text, INPUT, "--limit", str(LIMIT))
    if status != 0:
        return number, None, several, None, False
    race = not told.splitlines()[-1].split(",")[0].endswith("no race")
    fault = "has several outcomes, but no race" if several and not race else None
    return number, fault, several, race, set(found) == {reported(program, text, INPUT)}


def random_jobs(program, exporter, jobs, seed):
    """How many of the random jobs have a fault."""
    given = [(program, exporter, seed * 1_000_000 + n) for n in range(jobs)]
    with ProcessPoolExecutor(os.cpu_count()) as pool:
        results = list(pool.map(tried, given, chunksize=10))
    faults = [(number, fault) for number, fault, _, _, _ in results if fault is not None]
    calm = [(number, ours) for number, _, _, race, ours in results if race is False]
    racing = [several for _, _, several, race, _ in results if race]
    for number, fault in faults:
        print(f"job {number} {fault}")
    print(f"{jobs} jobs, {jobs - len(calm) - len(racing)} do not end by the limit")
    print(f"{len(racing)} have a race, of which {sum(racing)} have several outcomes")
    other = [number for number, ours in calm if not ours]
    print(f"{len(calm)} have no race; {len(calm) - len(other)} have the outcome of `nursery run`, and these another: {other}")
    print(f"{len(faults)} have a fault")
    return len(faults)


def show(program, exporter, number):
    text = random_job(number)[1].encode()
    exported = Exported(exporter, text)
    print(text.decode(), exported.text.partition("# What follows")[0], call(program, "races", text, INPUT)[1], sep="\n")
    print("\n".join(of_report(call(program, "run", text, INPUT)[1])), end="\n\n")
    for told, times in exported.outcomes(INPUT).items():
        print(f"{times} of {SEEDS}\n{told}\n")


def main():
    words = argparse.ArgumentParser()
    words.add_argument("program")
    words.add_argument("jobs", type=int, nargs="?", default=1000)
    words.add_argument("seed", type=int, nargs="?", default=1)
    words.add_argument("--exporter")
    words.add_argument("--job", type=int)
    given = words.parse_args()
    exporter = given.exporter or given.program
    if given.job is not None:
        show(given.program, exporter, given.job)
        return 0
    faults = fixed(given.program, exporter)
    faults += random_jobs(given.program, exporter, given.jobs, given.seed)
    return 1 if faults else 0


if __name__ == "__main__":
    # Runs that are stuck have threads that never end.
    status = main()
    sys.stdout.flush()
    os._exit(status)
