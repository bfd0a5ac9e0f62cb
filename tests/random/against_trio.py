#!/usr/bin/env python3
"""Runs random jobs by nursery and by Trio itself, and compares the reports.

    python3 tests/random/against_trio.py PROGRAM [JOBS [SEED]]
    python3 tests/random/against_trio.py PROGRAM [JOBS [SEED]] --format 3
    python3 tests/random/against_trio.py PROGRAM --format 3 --job JOB
    python3 tests/random/against_trio.py PROGRAM [JOBS [SEED]] --format 3 --objects

PROGRAM is the built executable (crates/nursery/out/nursery after `rt run`). It wants Python 3.11 and Trio 0.22 or later. Each job is
also run as a Trio program under MockClock: its scopes, shields, deadlines and levels of cancellation are Trio's, its splits of
groups Python's.

Without `--format` the jobs are of formats 1 and 2. What is different there (docs/RULES.md, "Formats 1 and 2") is put on top of
Trio: a cancellation by `cancel` or by a member that failed sets the scope's deadline to the next tick, and waiting at a nursery's end
is shielded.

With `--format 3` the program is plain: `cancel` is Trio's, a nursery is Trio's, with its own scope, an event is Trio's. It is run under
eight seeds of Trio's scheduler, and where these have one outcome, it has to be the report, tick for tick. The parts of groups are
compared sorted, since Trio has them in the order in which tasks ended; and the end of a nursery is no cancel point, as from Trio 0.23
on. These jobs have no `pace`, which has a rule of its own for no tick. A task that cancels a scope and then sets an event, in one round,
has another outcome in Trio (docs/RULES.md, "Differences from Trio"): a job with an event may differ if `nursery races` has a line for it.
The third form shows the outcomes of one job, by its number.

With `--objects` the jobs have limiters and channels too, which are Trio's. PROGRAM may be tests/random/sharing.py, which is then run in this
process. A job may differ from the model if it has several outcomes under more seeds, or if a task goes on in the round in which it is cancelled.
"""

import argparse
import collections
import contextlib
import math
import os
import re
import subprocess
import sys
import tempfile
from concurrent.futures import ProcessPoolExecutor

import trio
import trio._core._run as scheduler
import trio.testing

from jobs import random_job
from parts import cuts_of, lines_of
from sharing import run_of_text

LIMIT = 1_000_000
FOREVER = 2**40
MANY = 200
MODEL = "sharing.py"
INPUT = b"error one\nok\nwarning: error\n\nlast line"


# ---- the same job in Trio ----


class Named(Exception):
    """A raised name, or a TooSlow."""

    def __init__(self, name, label, tick):
        super().__init__(name)
        self.name, self.label, self.tick = name, label, tick


def text_of_exc(exc):
    if isinstance(exc, trio.Cancelled):
        return "Cancelled"
    if isinstance(exc, BaseExceptionGroup):
        return f"{exc.message}[" + ", ".join(text_of_exc(part) for part in exc.exceptions) + "]"
    if isinstance(exc, Named):
        return f"{exc.name}({exc.label}@{exc.tick})"
    raise exc


def split(exc, name):
    """Leaves of that name, and the others."""

    def matches(leaf):
        return isinstance(leaf, Named) and leaf.name == name

    if isinstance(exc, BaseExceptionGroup):
        return exc.split(matches)
    return (exc, None) if matches(exc) else (None, exc)


def now():
    return int(trio.current_time())


class Task:
    """One task: its record, and what its steps see."""

    def __init__(self, label, indices, part):
        self.label, self.indices, self.part = label, indices, part
        self.entries, self.children = [], []
        self.start = self.end = now()
        self.exc = None
        self.ended = trio.Event()

    def label_of(self, name):
        return ".".join([name, *map(str, self.indices)])

    def lines(self):
        return lines_of(INPUT, self.part)

    def show(self, lines):
        for at, line in lines:
            self.entries.append(f"line {at}+{len(line)} {line.decode()}")

    async def run(self, steps, scopes, failed):
        self.start = now()
        try:
            await self.block(steps, scopes)
        except BaseException as exc:
            self.exc = exc
            failed()
        self.end = now()
        self.ended.set()

    async def block(self, steps, scopes):
        for step in steps:
            await self.step(step, scopes)

    async def step(self, step, scopes):
        match step:
            case ("sleep", ticks):
                await trio.sleep(ticks)
            case ("checkpoint",):
                await trio.lowlevel.checkpoint()
            case ("forever",):
                await trio.sleep_until(max(FOREVER, now()))
            case ("pace", lines):
                await trio.sleep(math.ceil(len(list(self.lines())) / lines))
            case ("find", needle):
                self.show([l for l in self.lines() if needle.encode() in l[1]])
            case ("head", count):
                self.show(list(self.lines())[:count])
            case ("longest",):
                self.show([max(self.lines(), key=lambda l: len(l[1]))] if list(self.lines()) else [])
            case ("need", needle, name):
                found = [l for l in self.lines() if needle.encode() in l[1]]
                if not found:
                    raise Named(name, self.label, now())
                self.show(found[:1])
            case ("raise", name):
                raise Named(name, self.label, now())
            case ("cancel", name):
                self.cancel(scopes[name])
            case ("event", name, body):
                await self.block(body, {**scopes, name: (self.label_of(name), trio.Event())})
            case ("set", name):
                scopes[name][1].set()
            case ("wait", name):
                label, event = scopes[name]
                with trio.move_on_at(max(FOREVER, now())):
                    await event.wait()
                self.entries.append(f"wait {label} {now()}")
            case ("limiter", name, tokens, body):
                await self.block(body, {**scopes, name: (self.label_of(name), trio.CapacityLimiter(tokens))})
            case ("channel", name, places, body):
                await self.block(body, {**scopes, name: (self.label_of(name), trio.open_memory_channel(places))})
            case ("acquire", name, body):
                await self.acquire(*scopes[name], body, scopes)
            case ("send", name):
                label, channel = scopes[name]
                await self.used("send", label, channel, channel[0].send, self.part)
            case ("receive", name, body):
                await self.receive(*scopes[name], body, scopes)
            case ("close", name):
                scopes[name][1][0].close()
            case ("scope", name, deadline, shield, fail, body):
                await self.scope(name, deadline, shield, fail, body, scopes)
            case ("nursery", name, after, shield, items):
                await self.nursery(name, after, shield, items, scopes)
            case ("repeat", count, body):
                await self.repeat(count, body, scopes)
            case ("repeat over", count, body):
                await self.repeat_over(count, body, scopes)
            case ("try", body, handler, cleanup):
                await self.handled(body, handler, cleanup, scopes)

    async def asked(self, word, label, ask, *of):
        """Asks something of a limiter or channel. Gives what is granted."""
        with trio.move_on_at(max(FOREVER, now())):
            granted = await ask(*of)
            self.entries.append(f"{word} {label} {now()}")
            return granted
        raise Named("Deadlock", self.label, now())

    async def used(self, word, label, channel, ask, *of):
        """The same for a channel."""
        was_closed = channel[0].statistics().open_send_channels == 0
        try:
            return await self.asked(word, label, ask, *of)
        except (trio.ClosedResourceError, trio.EndOfChannel) as exc:
            if was_closed:
                await self.found_closed()
            raise Named(type(exc).__name__.removesuffix("Error"), self.label, now()) from None

    async def found_closed(self):
        """Trio raises at once."""

    async def acquire(self, label, limiter, body, scopes):
        holder = object()
        await self.asked("acquire", label, limiter.acquire_on_behalf_of, holder)
        try:
            await self.block(body, scopes)
        finally:
            limiter.release_on_behalf_of(holder)

    async def receive(self, label, channel, body, scopes):
        part = self.part
        self.part = await self.used("receive", label, channel, channel[1].receive)
        try:
            await self.block(body, scopes)
        finally:
            self.part = part

    def cancel(self, scope):
        lower(scope)

    def child(self, label, indices, part):
        return type(self)(label, indices, part)

    async def scope(self, name, deadline, shield, fail, body, scopes):
        label = self.label_of(name)
        scope = trio.CancelScope(deadline=math.inf, shield=shield)
        if deadline:
            scope.deadline = deadline[1] + (now() if deadline[0] == "after" else 0)
        try:
            with scope:
                await self.block(body, {**scopes, name: scope})
        finally:
            self.entries.append(f"scope {label} {now()} {'caught' if scope.cancelled_caught else 'passed'}")
        if fail and scope.cancelled_caught:
            raise Named("TooSlow", label, now())

    async def repeat(self, count, body, scopes, run=None):
        around = self.indices
        try:
            for number in range(count):
                self.indices = [*around, number]
                await (run or self.block)(body, scopes)
        finally:
            self.indices = around

    async def repeat_over(self, count, body, scopes):
        part, cuts = self.part, iter(cuts_of(INPUT, self.part, count))

        async def on_its_cut(body, scopes):
            self.part = next(cuts)
            await self.block(body, scopes)

        try:
            await self.repeat(count, body, scopes, on_its_cut)
        finally:
            self.part = part

    async def nursery(self, name, after, shield, items, scopes):
        label = self.label_of(name)
        own = trio.CancelScope(deadline=math.inf if after is None else now() + after, shield=shield)
        try:
            with own:
                await self.members(label, items, {**scopes, name: own}, own)
        finally:
            self.entries.append(f"nursery {label} {now()} {'caught' if own.cancelled_caught else 'passed'}")

    async def members(self, label, items, scopes, own):
        started, excs = [], []
        with unheard():
            async with trio.open_nursery() as spawner:
                try:
                    for item in items:
                        if item[0] != "start":
                            await self.step(item, scopes)
                            continue
                        for child in self.children_of(item):
                            started.append(child)
                            spawner.start_soon(child.run, item[3], scopes, lambda: lower(own))
                except BaseException as exc:
                    excs.append(exc)
                    lower(own)
                with trio.CancelScope(shield=True):
                    for child in started:
                        await child.ended.wait()
        excs += [child.exc for child in started if child.exc is not None]
        if excs:
            raise BaseExceptionGroup(label, excs)

    def children_of(self, item):
        _, name, over, _ = item
        if over is None:
            children = [self.child(self.label_of(name), self.indices, self.part)]
        else:
            cuts = cuts_of(INPUT, self.part, over)
            children = [self.child(f"{self.label_of(name)}.{i}", [*self.indices, i], cuts[i]) for i in range(over)]
        self.children += children
        return children

    async def handled(self, body, handler, cleanup, scopes):
        try:
            try:
                await self.block(body, scopes)
            except BaseException as exc:
                if handler is None:
                    raise
                matched, rest = split(exc, handler[0])
                if matched is None:
                    raise
                await self.handler(handler[1], rest, scopes)
        finally:
            if cleanup is not None:
                await self.block(cleanup, scopes)

    async def handler(self, steps, rest, scopes):
        try:
            await self.block(steps, scopes)
        except BaseException as exc:
            if rest is None:
                raise
            raise BaseExceptionGroup("*", [exc, rest])
        if rest is not None:
            raise rest

    def report(self):
        if self.exc is None:
            outcome = "done"
        elif isinstance(self.exc, trio.Cancelled):
            outcome = "cancelled"
        else:
            outcome = "raised " + text_of_exc(self.exc)
        yield f"task {self.label} {self.start} {self.end} {outcome}"
        yield from ("  " + entry for entry in self.entries)
        for child in self.children:
            yield from child.report()


class PlainTask(Task):
    """A task of a plain Trio program."""

    def cancel(self, scope):
        scope.cancel()

    async def spawned(self, steps, scopes):
        """What a nursery starts: its exception is the nursery's."""
        await self.run(steps, scopes, lambda: None)
        if self.exc is not None:
            raise self.exc

    async def nursery(self, name, after, shield, items, scopes):
        label, own = self.label_of(name), None
        try:
            async with trio.open_nursery() as spawner:
                own = spawner.cancel_scope
                own.deadline, own.shield = math.inf if after is None else now() + after, shield
                await self.items(items, {**scopes, name: own}, spawner)
        except BaseExceptionGroup as group:
            raise BaseExceptionGroup(label, group.exceptions)
        finally:
            self.entries.append(f"nursery {label} {now()} {'caught' if own.cancelled_caught else 'passed'}")


    async def items(self, items, scopes, spawner):
        """The steps and starts of a nursery, or of one pass of a loop in it."""
        for item in items:
            match item:
                case ("start", _, _, body):
                    for child in self.children_of(item):
                        spawner.start_soon(child.spawned, body, scopes)
                case ("repeat", count, body):
                    await self.repeat(count, body, scopes, lambda body, scopes: self.items(body, scopes, spawner))
                case _:
                    await self.step(item, scopes)


class PatientTask(PlainTask):
    """A task of a plain Trio program, but for a channel that is closed already, which raises in the next round."""

    async def found_closed(self):
        await trio.lowlevel.cancel_shielded_checkpoint()


@contextlib.contextmanager
def unheard():
    """Waiting at the end of a nursery is no cancel point: up to Trio 0.22 it was one."""
    try:
        yield
    except* trio.Cancelled:
        pass


def lower(scope):
    """A cancellation is seen from the next tick on."""
    scope.deadline = min(scope.deadline, now() + 1)


def by_trio(steps, root_of=Task):
    async def main():
        root = root_of("main", [], (0, len(INPUT)))
        await root.run(steps, {}, lambda: None)
        return root

    clock = trio.testing.MockClock(rate=0, autojump_threshold=0)
    root = trio.run(main, clock=clock, strict_exception_groups=True)
    if root.end > LIMIT:
        return f"limit {LIMIT}\n"
    return "\n".join([f"job main {root.end}", *root.report()]) + "\n"


def by_nursery(program, text):
    if program.endswith(MODEL):
        return run_of_text(text, INPUT).report()
    feed = text.encode() + b"\n%input\n" + INPUT
    run = subprocess.run([program], input=feed, capture_output=True)
    return run.stdout.decode()


# ---- format 3 and plain Trio ----


def parts_of(text):
    """The parts of a group's text, between commas that are in no other group."""
    depth, part = 0, ""
    for c in text:
        depth += (c == "[") - (c == "]")
        if c == "," and depth == 0:
            yield part.strip()
            part = ""
        else:
            part += c
    yield part.strip()


def with_sorted_parts(exc):
    if "[" not in exc:
        return exc
    name, _, inside = exc.partition("[")
    return f"{name}[{', '.join(sorted(map(with_sorted_parts, parts_of(inside[:-1]))))}]"


def comparable(report):
    """A report, with the parts of its groups sorted."""
    lines = []
    for line in report.splitlines():
        before, raised, exc = line.partition(" raised ")
        lines.append(before + raised + with_sorted_parts(exc) if line.startswith("task ") else line)
    return "\n".join(lines) + "\n"


def in_plain_trio(steps, seeds=8, root_of=PlainTask):
    """The outcomes of a job in plain Trio, and how often each was seen."""
    import trio_export  # the end of a nursery as Trio 0.23 has it

    assert trio_export
    scheduler._ALLOW_DETERMINISTIC_SCHEDULING = True
    found = collections.Counter()
    for seed in range(seeds):
        scheduler._r.seed(seed)
        found[comparable(by_trio(steps, root_of))] += 1
    return found


def compared_by_rounds(given):
    """Of a job of format 3: its number, its text, the report, its outcomes in plain Trio, and why the report may be another one."""
    program, objects, number = given
    steps, text = random_job(number, 3, objects)
    ours, found = comparable(by_nursery(program, text)), in_plain_trio(steps)
    excuse = excuse_for(program, steps, text, ours) if len(found) == 1 and ours not in found else None
    return number, text, ours, found, excuse


def excuse_for(program, steps, text, ours):
    """Why a report may differ from the one outcome that eight seeds show, or None."""
    if not program.endswith(MODEL):
        uses = re.search(" (set|acquire|send|receive|close) ", text)
        return "it has a race" if uses and has_race(program, text) else None
    if len(in_plain_trio(steps, MANY)) > 1:
        return f"it has several outcomes under {MANY} seeds"
    if ours in in_plain_trio(steps, MANY, PatientTask):
        return "a closed channel raises a round earlier in Trio"
    return "a task goes on in the round in which it is cancelled" if run_of_text(text, INPUT).ties else None


def has_race(program, text):
    """Whether `nursery races` has a line for a job."""
    with tempfile.TemporaryDirectory() as folder:
        job, data = os.path.join(folder, "job"), os.path.join(folder, "input")
        with open(job, "w", encoding="ascii") as file:
            file.write(text)
        with open(data, "wb") as file:
            file.write(INPUT)
        return subprocess.run([program, "races", job, data, "--deny"], capture_output=True).returncode == 1


def by_rounds(program, jobs, seed, objects, processes):
    """How many jobs of format 3 have another report than the one outcome in plain Trio, without an excuse."""
    given = [(program, objects, seed * 1_000_000 + n) for n in range(jobs)]
    with ProcessPoolExecutor(processes) as pool:
        results = list(pool.map(compared_by_rounds, given, chunksize=20))
    single = [(ours, found, excuse) for _, _, ours, found, excuse in results if len(found) == 1]
    ending = sum(not ours.startswith("limit") for ours, _, _ in single)
    excuses = [excuse for ours, found, excuse in single if ours not in found]
    for number, text, ours, found, excuse in results:
        if len(found) == 1 and ours not in found:
            print(f"job {number} differs{f', and {excuse}' if excuse else ''}:\n{text}\n-- nursery\n{ours}-- Trio\n{next(iter(found))}")
    among = sum(ours in found for _, _, ours, found, _ in results if len(found) > 1)
    print(f"{jobs} jobs: {len(single)} have one outcome in plain Trio under eight seeds, of which {ending} end by the limit")
    print(f"{len(excuses)} of them differ, {excuses.count(None)} without an excuse")
    print(*(f"{excuses.count(excuse)} of them: {excuse}\n" for excuse in sorted({*excuses} - {None})), sep="", end="")
    print(f"{jobs - len(single)} have several outcomes, and the report of {among} is one of them")
    return excuses.count(None)


def show(program, number, objects):
    _, text, ours, found, excuse = compared_by_rounds((program, objects, number))
    print(f"{text}\n-- nursery\n{ours}")
    for told, times in found.items():
        print(f"-- Trio, {times} of 8\n{told}")
    if excuse:
        print(excuse)
    return 0


# ---- formats 1 and 2 ----


def by_ticks(program, jobs, seed):
    """How many jobs of formats 1 and 2 have another report than in Trio with their differences put on top of it."""
    differ = 0
    for i in range(jobs):
        steps, text = random_job(seed * 1_000_000 + i)
        ours, theirs = by_nursery(program, text), by_trio(steps)
        if ours != theirs:
            differ += 1
            print(f"job {i} differs:\n{text}\n-- nursery\n{ours}-- Trio\n{theirs}")
    print(f"{jobs} jobs, {differ} differ")
    return differ


def main():
    words = argparse.ArgumentParser()
    words.add_argument("program")
    words.add_argument("jobs", type=int, nargs="?", default=1000)
    words.add_argument("seed", type=int, nargs="?", default=1)
    words.add_argument("--format", type=int, choices=[3])
    words.add_argument("--job", type=int)
    words.add_argument("--objects", action="store_true")
    words.add_argument("--processes", type=int, default=os.cpu_count())
    given = words.parse_args()
    if given.job is not None:
        return show(given.program, given.job, given.objects)
    if given.format == 3:
        return 1 if by_rounds(given.program, given.jobs, given.seed, given.objects, given.processes) else 0
    return 1 if by_ticks(given.program, given.jobs, given.seed) else 0


if __name__ == "__main__":
    sys.exit(main())
