#!/usr/bin/env python3
"""A model of what jobs of format 3 do, short enough to be read: a scheduler by rounds, with limiters and channels.

    python3 tests/random/sharing.py FEED [--limit T]

Prints the report of a feed whose job is known to be one. It is an evaluator of its own: nothing in it comes from the program or from its
definitions. In each round all tasks that are due go on, in any order, since what one does to others is seen in the next round. Then what
they did to limiters and channels is carried out, one act after the other, in the order of records. A wait that nothing ends is endless here:
no limit reaches the tick in which it would end.
"""

import argparse
import contextlib
import dataclasses
import math
import sys
from collections import deque

from parts import cuts_of, lines_of
from reading import Reader, feed_of

FIRST_LINE = "trio-job 3\n"
LIMIT = 1_000_000


# ---- moments: a tick, and a round of it ----

NEVER = (math.inf, 0)


def after(moment):
    """The next round."""
    tick, number = moment
    return tick, number + 1


def start_of(tick):
    """The round in which deadlines and timers act."""
    return tick, 0


# ---- exceptions ----


@dataclasses.dataclass(frozen=True)
class Leaf:
    name: str
    label: str = ""
    tick: int = 0

    def __str__(self):
        return f"{self.name}({self.label}@{self.tick})" if self.label else self.name


@dataclasses.dataclass(frozen=True)
class Group:
    label: str
    parts: list

    def __str__(self):
        return f"{self.label}[{', '.join(map(str, self.parts))}]"


CANCELLED = Leaf("Cancelled")


class Raised(Exception):
    """Carries a leaf or a group to where it is handled."""

    def __init__(self, exc):
        super().__init__(exc)
        self.exc = exc


def reraise(exc):
    if exc is not None:
        raise Raised(exc)


def group_of(label, excs):
    """The exceptions that there are, as a group, or None."""
    parts = [exc for exc in excs if exc is not None]
    return Group(label, parts) if parts else None


def split(exc, name):
    """The leaves of that name, and the others: None where there are none."""
    if isinstance(exc, Leaf):
        return (exc, None) if exc.name == name else (None, exc)
    halves = [split(part, name) for part in exc.parts]
    return group_of(exc.label, [half[0] for half in halves]), group_of(exc.label, [half[1] for half in halves])


# ---- what tasks share ----


class Event:
    def __init__(self, label):
        self.label = label
        self.since = NEVER  # from when on it is set

    def set(self, now):
        self.since = min(self.since, after(now))


class Scope:
    """The cancel scope of a `scope` or nursery."""

    def __init__(self, label, outer, deadline, shield):
        self.label, self.outer, self.shield = label, outer, shield
        self.since = deadline  # from when on it is cancelled

    def cancel(self, now):
        self.since = min(self.since, after(now))


def levels(scope):
    """The scopes whose cancellation is seen from inside a scope: this one and those around it, up to the first with a shield."""
    while scope is not None:
        yield scope
        scope = None if scope.shield else scope.outer


def sight(scope):
    """The moment from which a cancellation is seen inside a scope."""
    return min((level.since for level in levels(scope)), default=NEVER)


class Ask:
    """A task asks for a token, to send its part, or for a part, in a moment."""

    def __init__(self, word, part, who, since):
        self.word, self.part, self.who, self.since = word, part, who, since
        self.answer = None  # the moment in which its task goes on, with a part or the name of an exception or nothing
        self.by = None  # the task whose doing that is
        self.has_left = False

    def grant(self, now, what=None, by=None):
        self.answer, self.by = (after(now), what), by

    def is_at_once(self):
        return self.answer is not None and self.answer[0] == after(self.since)

    def waits_in(self, moment):
        return not self.has_left and (self.answer is None or self.answer[0] > moment)


class Limiter:
    def __init__(self, label, tokens):
        self.label, self.tokens, self.free = label, tokens, tokens
        self.queue = deque()

    def acquire(self, now, ask):
        if self.free:
            self.free -= 1
            ask.grant(now)
        else:
            self.queue.append(ask)

    def give_back(self, now, who):
        if self.queue:
            self.queue.popleft().grant(now, by=who)
        else:
            self.free += 1

    def leave(self, ask):
        self.queue.remove(ask)


class Channel:
    def __init__(self, label, places):
        self.label, self.places = label, places
        self.buffer, self.closed_by = deque(), None
        self.senders, self.receivers = deque(), deque()

    def send(self, now, ask):
        if self.closed_by is not None:
            ask.grant(now, "ClosedResource", self.closed_by)
        elif self.receivers:
            self.receivers.popleft().grant(now, ask.part, ask.who)
            ask.grant(now)
        elif len(self.buffer) < self.places:
            self.buffer.append((ask.part, ask.who))
            ask.grant(now)
        else:
            self.senders.append(ask)

    def receive(self, now, ask):
        if self.buffer:
            ask.grant(now, *self.buffer.popleft())
            if self.senders:
                self.buffer.append(self.sent_by_first(now))
        elif self.senders:
            ask.grant(now, *self.sent_by_first(now))
        elif self.closed_by is not None:
            ask.grant(now, "EndOfChannel", self.closed_by)
        else:
            self.receivers.append(ask)

    def sent_by_first(self, now):
        """The part of the first sender in the queue, who goes on, and its task."""
        first = self.senders.popleft()
        first.grant(now)
        return first.part, first.who

    def close(self, now, who):
        self.closed_by = self.closed_by or who
        while self.senders:
            self.senders.popleft().grant(now, "ClosedResource", self.closed_by)
        while self.receivers:
            self.receivers.popleft().grant(now, "EndOfChannel", self.closed_by)

    def leave(self, ask):
        (self.senders if ask in self.senders else self.receivers).remove(ask)


# ---- waits: by the moment from which a cancellation is seen, when a wait ends and with what, as far as is known by now ----


def pause(moment):
    """A wait that nothing ends earlier."""
    return lambda seen: (moment, None)


def sleep(now, until):
    """Where it is due and cancelled in one round, it is cancelled."""
    return lambda seen: (max(after(now), seen), CANCELLED) if seen <= until else (until, None)


def checkpoint(now):
    """It takes a round, and another one where it is cancelled."""
    return lambda seen: (after(after(now)), CANCELLED) if seen <= after(now) else (after(now), None)


def wait(now, event):
    """Where the event is set and the wait cancelled in one round, it was set."""

    def ends(seen):
        if event.since <= after(now):
            return checkpoint(now)(seen)
        return (max(after(now), seen), CANCELLED) if seen < event.since else (event.since, None)

    return ends


def answered(ask):
    """What is granted in the round of a cancellation counts."""
    return lambda seen: ask.answer or (seen, CANCELLED)


def nursery_end(body_end, members):
    """One round after the last of all."""
    return lambda seen: (NEVER if any(it.end is None for it in members) else after(max([body_end, *(it.end for it in members)])), None)


# ---- what a story says of them ----

PLACES = ["first", "second", "third", "fourth", "fifth", "sixth", "seventh", "eighth", "ninth", "tenth"]


def waits(of, ask, place):
    """The sentence of a task that joins a queue."""
    there = (PLACES[place - 1] if place <= len(PLACES) else f"number {place}") + " in the queue"
    later = f", {there}" if place > 1 else ""
    match ask.word:
        case "acquire":
            return f"waits for a token of {of.label} ({of.tokens} of {of.tokens} in use, {there})"
        case "send":
            return f"waits to send to {of.label} (full{later})"
        case "receive":
            return f"waits to receive from {of.label} (empty{later})"


def goes_on(of, ask):
    """The sentence of a task that goes on."""
    if isinstance(ask.answer[1], str):
        return f"finds {of.label} closed{' and empty' if ask.word == 'receive' else ''} (closed by {ask.by})"
    match ask.word:
        case "acquire":
            return f"gets a token of {of.label} " + ("at once" if ask.is_at_once() else f"(given back by {ask.by})")
        case "send":
            return f"sends to {of.label}"
        case "receive":
            return f"receives from {of.label} (sent by {ask.by})"


# ---- tasks ----


@contextlib.contextmanager
def having(task, **values):
    """Inside, a task has other values."""
    before = {name: getattr(task, name) for name in values}
    vars(task).update(values)
    try:
        yield
    finally:
        vars(task).update(before)


class Task:
    """A task: its record, what its steps see, and its wait. Its walk is a generator of waits, to which is sent what each ended with."""

    def __init__(self, run, name, indices, part, nursery, place):
        self.run, self.indices, self.part = run, indices, part
        self.label = self.label_of(name)
        self.nursery, self.scope = nursery, nursery  # the scope of the nursery that it is in, and the innermost scope around it
        self.members = None  # the tasks of the innermost nursery that it has open
        self.place = place  # in the order of records: the numbers of its ancestors and its own among the children of each one's starter
        self.own = set()  # the scopes that it has cancelled in this round
        self.start = self.end = self.exc = None
        self.entries, self.children = [], []

    def label_of(self, name):
        return ".".join([name, *map(str, self.indices)])

    def begin(self, steps, names, moment):
        self.walk, self.wait_ends = self.whole(steps, names), pause(moment)
        self.run.tasks.append(self)

    def whole(self, steps, names):
        self.start = self.run.now
        self.exc = yield from self.outcome(self.block(steps, names))
        self.end = self.run.now
        if self.exc is not None and self.nursery is not None:
            self.nursery.cancel(self.run.now)

    def go_on(self, what):
        """Runs up to the next wait."""
        self.own.clear()
        try:
            self.wait_ends = self.walk.send(what)
        except StopIteration:
            self.run.tasks.remove(self)

    # ---- what steps use

    def note(self, entry):
        self.entries.append(entry)

    def tick(self):
        return self.run.now[0]

    def fail(self, name):
        raise Raised(Leaf(name, self.label, self.tick()))

    def act(self, act, *of):
        """Does something to a limiter or channel, at the end of the round."""
        self.run.acts.append((self.place, act, of))

    def is_cancelled(self, scope):
        """Whether a scope is cancelled, as this task sees it."""
        return scope.since <= self.run.now or scope in self.own

    def is_let_go(self):
        """It goes on after a wait. It may be cancelled in the same round."""
        self.run.ties += sight(self.scope) == self.run.now

    def sees_cancellation(self, scope):
        """Whether it sees a cancellation inside a scope, its own of this round too."""
        return any(self.is_cancelled(level) for level in levels(scope))

    def wait(self, ends):
        what = yield ends
        if what is CANCELLED:
            raise Raised(CANCELLED)
        return what

    def outcome(self, walk):
        """The exception of a part of the walk, or None."""
        try:
            yield from walk
        except Raised as raised:
            return raised.exc

    # ---- steps

    def block(self, steps, names):
        """The steps of a block. Names are those of what encloses the task."""
        for step in steps:
            yield from self.step(step, names)

    def step(self, step, names):
        now = self.run.now
        match step:
            case ("sleep", 0) | ("checkpoint",):
                yield from self.wait(checkpoint(now))
            case ("sleep", ticks):
                yield from self.wait(sleep(now, start_of(now[0] + ticks)))
            case ("forever",):
                yield from self.wait(sleep(now, NEVER))
            case ("pace", lines):
                ticks = math.ceil(len(self.lines()) / lines)
                yield from self.wait(sleep(now, start_of(now[0] + ticks) if ticks else after(now)))
            case ("find" | "head" | "longest" | "need", *_):
                self.show(step)
            case ("raise", name):
                self.fail(name)
            case ("cancel", name):
                names[name].cancel(now)
                self.own.add(names[name])
            case ("set", name):
                names[name].set(now)
            case ("close", name):
                self.act(names[name].close, self.label)
            case ("wait", name):
                yield from self.wait(wait(now, names[name]))
                self.is_let_go()
                self.note(f"wait {names[name].label} {self.tick()}")
            case ("send", name):
                yield from self.ask("send", names[name], names[name].send)
            case _:
                yield from self.step_with_block(step, names)

    def step_with_block(self, step, names):
        match step:
            case ("acquire", name, body):
                yield from self.acquire(names[name], body, names)
            case ("receive", name, body):
                part = yield from self.ask("receive", names[name], names[name].receive)
                with having(self, part=part):
                    yield from self.block(body, names)
            case ("event", name, body):
                yield from self.block(body, {**names, name: Event(self.label_of(name))})
            case ("limiter", name, tokens, body):
                yield from self.block(body, {**names, name: Limiter(self.label_of(name), tokens)})
            case ("channel", name, places, body):
                yield from self.block(body, {**names, name: Channel(self.label_of(name), places)})
            case ("scope", name, deadline, shield, fail, body):
                yield from self.scope_step(name, deadline, shield, fail, body, names)
            case ("nursery", name, ticks, shield, body):
                yield from self.nursery_step(name, ticks, shield, body, names)
            case ("start", name, over, body):
                self.start_children(name, over, body, names)
            case ("repeat", count, body):
                yield from self.passes([self.part] * count, body, names)
            case ("repeat over", count, body):
                yield from self.passes(cuts_of(self.run.data, self.part, count), body, names)
            case ("try", body, handler, cleanup):
                yield from self.try_step(body, handler, cleanup, names)

    def lines(self):
        return list(lines_of(self.run.data, self.part))

    def show(self, step):
        """Answers a kernel."""
        lines = self.lines()
        match step:
            case ("find", text):
                lines = [line for line in lines if text.encode("latin-1") in line[1]]
            case ("need", text, name):
                lines = [line for line in lines if text.encode("latin-1") in line[1]][:1]
                if not lines:
                    self.fail(name)
            case ("head", count):
                lines = lines[:count]
            case ("longest",):
                lines = [max(lines, key=lambda line: len(line[1]))] if lines else []
        for at, line in lines:
            self.note(f"line {at}+{len(line)} {shown(line)}")

    def passes(self, parts, body, names):
        for number, part in enumerate(parts):
            with having(self, indices=[*self.indices, number], part=part):
                yield from self.block(body, names)

    def try_step(self, body, handler, cleanup, names):
        exc = yield from self.outcome(self.block(body, names))
        if exc is not None and handler is not None:
            matched, rest = split(exc, handler[0])
            if matched is not None:
                exc = yield from self.outcome(self.block(handler[1], names))
                exc = rest if exc is None else exc if rest is None else Group("*", [exc, rest])
        if cleanup is not None:
            yield from self.block(cleanup, names)
        reraise(exc)

    # ---- limiters and channels

    def ask(self, word, of, act):
        """Asks something of a limiter or channel, unless a cancellation is seen. Gives what is granted."""
        if self.sees_cancellation(self.scope):
            yield from self.wait(lambda seen, now=self.run.now: (after(after(now)), CANCELLED))
        ask = Ask(word, self.part, self.label, self.run.now)
        self.act(act, ask)
        self.run.asks.append((self.place, of, ask))
        try:
            what = yield from self.wait(answered(ask))
        except Raised:
            ask.has_left = True
            of.leave(ask)
            raise
        self.is_let_go()
        self.run.tell(self.label, goes_on(of, ask))
        if isinstance(what, str):
            self.fail(what)
        self.note(f"{word} {of.label} {self.tick()}")
        return what

    def acquire(self, limiter, body, names):
        yield from self.ask("acquire", limiter, limiter.acquire)
        exc = yield from self.outcome(self.block(body, names))
        self.act(limiter.give_back, self.label)
        reraise(exc)

    # ---- scopes and nurseries

    def scope_step(self, name, deadline, shield, fail, body, names):
        due = NEVER if deadline is None else start_of(deadline[1] + (self.tick() if deadline[0] == "after" else 0))
        scope = Scope(self.label_of(name), self.scope, due, shield)
        with having(self, scope=scope):
            exc = yield from self.outcome(self.block(body, {**names, name: scope}))
        caught, exc = self.left("scope", scope, exc)
        reraise(Leaf("TooSlow", scope.label, self.tick()) if fail and caught and exc is None else exc)

    def nursery_step(self, name, ticks, shield, body, names):
        due = NEVER if ticks is None else start_of(self.tick() + ticks)
        scope, members = Scope(self.label_of(name), self.scope, due, shield), []
        with having(self, scope=scope, members=members):
            exc = yield from self.outcome(self.block(body, {**names, name: scope}))
        if exc is not None:
            scope.cancel(self.run.now)
        yield from self.wait(nursery_end(self.run.now, members))
        reraise(self.left("nursery", scope, group_of(scope.label, [exc, *(it.exc for it in members)]))[1])

    def left(self, word, scope, exc):
        """Leaves a scope, which catches `Cancelled` if it is cancelled and nothing outside is. Gives what it caught, and the rest."""
        catches = self.is_cancelled(scope) and (scope.shield or not self.sees_cancellation(scope.outer))
        caught, rest = split(exc, CANCELLED.name) if catches and exc is not None else (None, exc)
        self.note(f"{word} {scope.label} {self.tick()} {'passed' if caught is None else 'caught'}")
        return caught, rest

    def start_children(self, name, over, body, names):
        parts = [self.part] if over is None else cuts_of(self.run.data, self.part, over)
        for number, part in enumerate(parts):
            indices = self.indices if over is None else [*self.indices, number]
            child = Task(self.run, name, indices, part, self.scope, (*self.place, len(self.children)))
            child.begin(body, names, after(self.run.now))
            self.children.append(child)
            self.members.append(child)


# ---- a run, and its report ----


class Run:
    """A run of a job over an input, up to a limit."""

    def __init__(self, name, steps, data, limit=LIMIT):
        self.data, self.limit, self.now = data, limit, start_of(0)
        self.tasks, self.acts = [], []
        self.asks, self.queued = [], []  # what was asked in this round, and all that waited: each with its task's place, and of what
        self.told = []  # what a story says of queues: ticks, tasks and sentences
        self.ties = 0  # how often a task was let go in the round in which it was cancelled
        self.root = Task(self, name, [], (0, len(data)), None, ())
        self.root.begin(steps, {}, self.now)
        while self.root.end is None and self.now[0] <= limit:
            self.round()

    def round(self):
        """The next round in which something happens."""
        ends = [(task, *task.wait_ends(sight(task.scope))) for task in self.tasks]
        self.now = min(moment for _, moment, _ in ends)
        for task, moment, what in ends:
            if moment == self.now:
                task.go_on(what)
        for _, act, of in sorted(self.acts, key=lambda it: it[0]):
            act(self.now, *of)
        self.acts = []
        self.queue()

    def tell(self, task, sentence):
        self.told.append((self.now[0], task, sentence))

    def queue(self):
        """Those who asked in this round and are granted nothing in it wait in a queue, in the order of records."""
        for _, of, ask in sorted(self.asks, key=lambda it: it[0]):
            if not ask.is_at_once():
                before = [it for it_of, it in self.queued if it_of is of and it.word == ask.word and it.waits_in(self.now)]
                self.queued.append((of, ask))
                self.told.append((self.now[0], ask.who, waits(of, ask, len(before) + 1)))
        self.asks = []

    def report(self):
        if self.root.end is None or self.root.end[0] > self.limit:
            return f"limit {self.limit}\n"
        return "\n".join([f"job {self.root.label} {self.root.end[0]}", *record(self.root)]) + "\n"


def record(task):
    """The lines of a task and of those that it started."""
    outcome = "done" if task.exc is None else "cancelled" if task.exc is CANCELLED else f"raised {task.exc}"
    yield f"task {task.label} {task.start[0]} {task.end[0]} {outcome}"
    yield from ("  " + entry for entry in task.entries)
    for child in task.children:
        yield from record(child)


def shown(line):
    """Bytes as a report shows them."""
    return "".join("\\\\" if byte == 92 else chr(byte) if 32 <= byte <= 126 else f"\\x{byte:02x}" for byte in line)


def run_of_text(text, data, limit=LIMIT):
    """A run of a job of format 3."""
    name, steps = Reader(text.removeprefix(FIRST_LINE)).job()
    return Run(name, steps, data, limit)


def report_of_feed(path, limit=LIMIT):
    with open(path, "rb") as file:
        text, data = feed_of(file.read())
    if not text.startswith(FIRST_LINE):
        sys.exit(f"{path} is not of format 3")
    return run_of_text(text, data, limit).report()


def main():
    words = argparse.ArgumentParser()
    words.add_argument("feed")
    words.add_argument("--limit", type=int, default=LIMIT)
    given = words.parse_args()
    print(report_of_feed(given.feed, given.limit), end="")


if __name__ == "__main__":
    main()
