#!/usr/bin/env python3
"""Compares what `nursery faults` prints for random jobs with runs of texts that this script changes itself.

    python3 tests/random/random_faults.py PROGRAM [JOBS [SEED]]
    python3 tests/random/random_faults.py PROGRAM --table JOB [INPUT]

Some jobs get one exception and some two, some also faults in single copies and passes, and of some only the lines that differ are printed.

PROGRAM is the built executable. It wants Python 3.10 or later. For each waiting step of a job, and each fault of it, the job text is
changed here and run with `nursery run`, and what is to be noted is read from `nursery explain`. Each line that `faults` writes has to
be the one that comes of that, and the counts have to be those of the lines; the bytes are the same with 1, 3 and 64 workers. The second
form writes the table that this script makes of a job.
"""

import os
import random
import re
import subprocess
import sys
import tempfile
from concurrent.futures import ThreadPoolExecutor

from jobs import job_of_any_format

LIMIT = 1000
PIECE = re.compile(r'[A-Za-z][A-Za-z0-9_]*|[0-9]+|"(?:[^"\\]|\\.)*"|[{};]|#[^\r\n]*')
KINDS = {
    "sleep": ["fails", "fails late", "hangs", "cancelled"],
    "pace": ["fails", "fails late", "hangs", "cancelled"],
    "checkpoint": ["fails", "hangs", "cancelled"],
    "forever": ["fails", "cancelled"],
    "need": ["misses"],
    "wait": ["fails", "fails late", "hangs", "cancelled"],
}


UNTRIED = "copies or passes that pace or need lines were not tried singly: each has its own part of the input\n"


class Wrong(Exception):
    """What was found, in one sentence."""


def fresh(word, tokens):
    """The word, or the word with the first number after it, that is no token."""
    words = {token[0] for token in tokens}
    if word not in words:
        return word
    return next(f"{word}_{n}" for n in range(1, len(words) + 2) if f"{word}_{n}" not in words)


def replaced(text, *changes):
    """The text with pieces in the place of (from, to), given from the last to the first."""
    for start, end, piece in changes:
        text = text[:start] + piece + text[end:]
    return text


def names(title, tasks):
    if not tasks:
        return ""
    more = f" and {len(tasks) - 3} more" if len(tasks) > 3 else ""
    return f"; {title}: {', '.join(tasks[:3])}{more}"


def first_part(what):
    """What a handler handles, if what it leaves is printed after that and a comma. There are commas between the parts of a group, too."""
    depth = 0
    for at, byte in enumerate(what):
        depth += (byte == "[") - (byte == "]")
        if depth == 0 and what.startswith(", ", at):
            return what[:at]
    return what


def events_in(story):
    """The task and the sentence of each line of a story."""
    return [line.split(maxsplit=1) for line in story.splitlines() if line.startswith("  ")]


def cut_in(events):
    """The tasks that were cancelled in a cleanup, each once."""
    return list(dict.fromkeys(task for task, what in events if what.startswith("is cancelled during cleanup")))


def has_leaf(raised, text):
    """Whether an exception, as it is printed, is or contains one of this name."""
    return bool(re.search(rf"(?<![A-Za-z0-9_]){raised}\(", text))


def is_handled(raised, events):
    """Whether a handler handles an exception of this name."""
    return any(has_leaf(raised, first_part(what.removeprefix("handles "))) for _, what in events if what.startswith("handles "))


def refusal_in(report):
    """The refusal that a report is, as a table names it."""
    words = report.split()
    return f"not tried: {words[1]} at {words[4]}"


class Fate:
    """What becomes of a text."""

    def __init__(self, outcome, notes, kinds, cut):
        self.outcome, self.notes, self.kinds, self.cut = outcome, notes, kinds, cut

    def text(self, reached=True):
        """As a line prints it."""
        return self.outcome + ("" if reached or "refused" in self.kinds else "; not reached") + self.notes


class Row:
    """A line of the table, and what is counted of it."""

    def __init__(self, place, step, kind, fate, before, reached):
        self.place, self.step, self.kind = place, step, kind
        self.fate, self.reached = fate.text(reached), reached
        self.differs = before is None or fate.text() != before.text()
        self.kinds = fate.kinds | ({"cut"} if before and set(fate.cut) - set(before.cut) else set())


class Runs:
    """The program, with a folder for its files."""

    def __init__(self, program, folder, limit):
        self.program, self.limit = os.path.abspath(program), str(limit)
        self.job, self.input = os.path.join(folder, "job"), os.path.join(folder, "input")

    def call(self, command, text, *words):
        with open(self.job, "w", encoding="ascii") as file:
            file.write(text)
        run = subprocess.run([self.program, command, self.job, self.input, "--limit", self.limit, *words], capture_output=True, timeout=600)
        return run.returncode, run.stdout.decode()

    def fate(self, text, raised):
        """What becomes of a text: its tick and outcome, the notes after that, the kinds that it is of, and the tasks whose cleanup is cut."""
        status, report = self.call("run", text)
        if status == 2:
            return Fate(refusal_in(report), "", {"refused"}, [])
        _, story = self.call("explain", text)
        if status == 3:
            told, running = story.split(f"limit {self.limit}\n")
            endless = ("sleeping forever", "waiting for event ")
            sleeping = [line.split()[0] for line in running.splitlines() if line.split(maxsplit=1)[1].startswith(endless)]
            events = events_in(told)
            cut, lost = cut_in(events), bool(raised) and self.is_replaced(raised, events)
            notes = names("sleeping forever", sleeping) + names("cleanup cut", cut) + ("; fault lost" if lost else "")
            return Fate(f"stuck at {self.limit}", notes, {"stuck"} | ({"lost"} if lost else set()), cut)
        tasks = [line.split(" ", 4) for line in report.splitlines() if line.startswith("task ")]
        outcome = tasks[0][4]
        cancelled = [task[1] for task in tasks if task[4] == "cancelled"]
        events = events_in(story)
        cut = cut_in(events)
        lost = raised and any(what == f"raises {raised}" for _, what in events) and not self.is_kept(raised, events, outcome)
        notes = names("cancelled", cancelled) + names("cleanup cut", cut) + ("; fault lost" if lost else "")
        return Fate(f"{tasks[0][3]} {outcome}", notes, {"lost"} if lost else set(), cut)

    def is_kept(self, raised, events, outcome):
        """Whether a handler handles an exception of this name, or the root ends with one."""
        return is_handled(raised, events) or has_leaf(raised, outcome)

    def is_replaced(self, raised, events):
        """Whether an exception of this name is raised and none is handled, and the exception of a cleanup replaces one."""
        if is_handled(raised, events) or not any(what == f"raises {raised}" for _, what in events):
            return False
        pairs = [what.removeprefix("replaces ").split(" with ") for _, what in events if what.startswith("replaces ")]
        return any(has_leaf(raised, lost) and not has_leaf(raised, fresh) for lost, fresh in pairs)

    def blocks_apart(self, tokens):
        """The blocks of which single copies and passes are tried."""
        return [block for block in blocks_of(tokens) if not (os.path.getsize(self.input) and is_divided(tokens, block))]

    def raises(self, text, name):
        """Whether an exception of a name is raised by the limit; where the text is refused, nothing is said of that."""
        status, story = self.call("explain", text)
        return status == 2 or any(line.endswith(f"  raises {name}") for line in story.splitlines())


def tokens_of(text):
    """The tokens after the first line, each with its place."""
    return [(found[0], found.start()) for found in PIECE.finditer(text, 11) if not found[0].startswith("#")]


def step_text(tokens, at):
    end = next(n for n in range(at, len(tokens)) if tokens[n][0] == ";")
    return " ".join(token[0] for token in tokens[at:end]), tokens[end][1]


def steps_of(tokens):
    """The number of each token with which a waiting step begins. (Where no step may begin, it is a name.)"""
    return [n for n, (token, _) in enumerate(tokens) if token in KINDS and tokens[n - 1][0] in "{};"]


def rows_of(runs, text, before, place, at, raising, shown, part=""):
    """The lines of one step of a text, which is the token with this number. `before` is what becomes of the text as it is."""
    tokens = tokens_of(text)
    outside, reached = fresh("outside", tokens), fresh("reached", tokens)
    start, end = next(at for token, at in tokens if token == "{"), tokens[-1][1]
    token, begin = tokens[at]
    step, to = step_text(tokens, at)
    missed = tokens[at + 2][0] if token == "need" else None
    rows = []
    for kind in KINDS[token]:
        for name in raising if kind in ("fails", "fails late") else [missed]:
            changed = {
                "fails": [(begin, to, f"raise {name}")],
                "fails late": [(to, to, f"; raise {name}")],
                "hangs": [(begin, to, "forever")],
                "cancelled": [(end, end, "}"), (begin, begin, f"cancel {outside}; "), (start, start, f"{{scope {outside} ")],
                "misses": [(begin, to, f"raise {missed}")],
            }[kind]
            probe = (to, to, f"; raise {reached}") if kind == "fails late" else (begin, to, f"raise {reached}")
            was_reached = runs.raises(replaced(text, probe), reached)
            raised = name if kind in ("fails", "fails late", "misses") else None
            what = kind + (f" {name}" if shown and kind in ("fails", "fails late") else "") + part
            rows.append(Row(place, step, what, runs.fate(replaced(text, *changed), raised), before, was_reached))
    return rows


def place_of(text, at):
    line = text.count("\n", 0, at) + 1
    return f"{line}:{at - (text.rfind(chr(10), 0, at) + 1) + 1}"


def blocks_of(tokens):
    """Each block that runs several times: the numbers of the tokens that are its keyword, its number and its braces, and its name or None."""
    found = []
    for n, (token, _) in enumerate(tokens):
        if tokens[n - 1][0] not in "{};":
            continue
        if token == "repeat":
            head, name = n + 1 + (tokens[n + 1][0] == "over"), None
        elif token == "start" and tokens[n + 2][0] == "over":
            head, name = n + 3, tokens[n + 1][0]
        else:
            continue
        depth, close = 0, head + 1
        while True:
            depth += (tokens[close][0] == "{") - (tokens[close][0] == "}")
            if depth == 0:
                break
            close += 1
        found.append((n, head, close, name))
    return found


def written_out(text, tokens, block, index):
    """The text in which one copy or pass of a block is a block of its own, and those after it are another one."""
    first, number, close, _ = block
    begin, end = tokens[first][1], tokens[close][1]
    heads = [n for n in range(first, close) if tokens[n - 1][0] in "{};"]
    given = {tokens[n + 1][0] for n in heads if tokens[n][0] in ("start", "scope", "nursery", "event")}
    named = [n + 1 for n in heads if tokens[n][0] in ("start", "scope", "nursery", "event", "cancel", "set", "wait") and tokens[n + 1][0] in given]

    def part(count, ending):
        changes = [(tokens[number][1], tokens[number][1] + len(tokens[number][0]), str(count))]
        changes += [(tokens[n][1] + len(tokens[n][0]),) * 2 + (ending,) for n in named]
        return replaced(text[:end], *sorted(changes, reverse=True))[begin:]

    left = int(tokens[number][0]) - index - 1
    earlier = part(index, "") + "} " if index else ""
    later = "} " + part(left, f"_after_{index}") if left else ""
    return text[:begin] + earlier + part(1, f"_{index}") + later + text[end:]


def is_divided(tokens, block):
    """Whether the copies or passes of a block have different parts of an input, and a `pace` or `need` is in it."""
    _, number, close, _ = block
    inside = any(token in ("pace", "need") and tokens[n - 1][0] in "{};" for n, (token, _) in enumerate(tokens) if number < n < close)
    return tokens[number - 1][0] == "over" and int(tokens[number][0]) > 1 and inside


def rows_in_parts(runs, text, raising):
    """The lines of faults in single copies and passes."""
    tokens, rows = tokens_of(text), []
    for at in steps_of(tokens):
        for block in runs.blocks_apart(tokens):
            first, number, close, name = block
            count = int(tokens[number][0])
            for index in range(count) if first < at < close else ():
                part = f" in {name}.{index}" if name else f" in pass {index + 1} of {count}"
                apart = written_out(text, tokens, block, index)
                before = runs.fate(apart, None)
                place = place_of(text, tokens[at][1])
                if "refused" in before.kinds:
                    rows += refused_rows(tokens, at, place, raising, part, before)
                    continue
                steps = steps_of(tokens)
                inside = sum(first < n < close for n in steps) if index else 0
                there = steps_of(tokens_of(apart))[steps.index(at) + inside]
                rows += rows_of(runs, apart, before, place, there, raising, len(raising) > 1, part)
    return rows


def refused_rows(tokens, at, place, raising, part, fate):
    """The lines of a step in a copy or pass that cannot be written out."""
    rows = []
    for kind in KINDS[tokens[at][0]]:
        for name in raising if kind in ("fails", "fails late") else [""]:
            shown = f" {name}" if len(raising) > 1 and name else ""
            rows.append(Row(place, step_text(tokens, at)[0], kind + shown + part, fate, None, True))
    return rows


def table(runs, text, raising=("Fault",), each=False, brief=False):
    """The table of a job."""
    tokens = tokens_of(text)
    first = runs.fate(text, None)
    rows = [
        row
        for at in steps_of(tokens)
        for row in rows_of(runs, text, first, place_of(text, tokens[at][1]), at, raising, len(raising) > 1)
    ]
    if each:
        rows += rows_in_parts(runs, text, raising)
    untried = each and len(runs.blocks_apart(tokens)) < len(blocks_of(tokens))
    return laid_out(first.text(), rows, brief) + counted(rows) + UNTRIED * untried


def laid_out(first, rows, brief):
    place = max((len(row.place) for row in rows), default=0)
    step = max((len(row.step) for row in rows), default=0)
    kind = max(8, max((len(row.kind) for row in rows), default=0))
    lines = [" " * (place + step + 4) + "as it is".ljust(kind) + "  " + first]
    lines += [f"{row.place:>{place}}  {row.step:<{step}}  {row.kind:<{kind}}  {row.fate}" for row in rows if row.differs or not brief]
    return "".join(line + "\n" for line in lines)


def counted(rows):
    count = lambda word: sum(word in row.kinds for row in rows)
    unreached = sum(not row.reached and "refused" not in row.kinds for row in rows)
    refused = f", {count('refused')} not tried" if count("refused") else ""
    faults = "fault" if len(rows) == 1 else "faults"
    return f"{len(rows)} {faults}: {count('stuck')} stuck, {count('cut')} cut a cleanup, {count('lost')} lost, {unreached} not reached{refused}\n"


def number_of_parts(text):
    """How many copies and passes the waiting steps of a text are in."""
    tokens = tokens_of(text)
    return sum(int(tokens[number][0]) for at in steps_of(tokens) for first, number, close, _ in blocks_of(tokens) if first < at < close)


def unnamed(report):
    """A report without the endings and indices of names, and without the lines of the input, which are those of a task's part."""
    return [re.sub(r"((_after)?_\d+)+\b|(\.\d+)+\b", "", line) for line in report.splitlines() if not line.startswith("  line ")]


def compare_parts(runs, text):
    """Compares the report of each text in which a copy or pass is written out with that of the text as it is."""
    tokens = tokens_of(text)
    _, report = runs.call("run", text)
    for block in runs.blocks_apart(tokens):
        for index in range(int(tokens[block[1]][0])):
            apart = written_out(text, tokens, block, index)
            status, other = runs.call("run", apart)
            if status != 2 and unnamed(other) != unnamed(report):
                raise Wrong(f"written out\n{other}-- as it is\n{report}-- text\n{text}\n-- written out\n{apart}")


def compared(program, seed):
    dice = random.Random(seed)
    text = job_of_any_format(seed)[1]
    data = "\n".join(dice.choice(["error one", "ok", "", "all"]) for _ in range(dice.randint(0, 6)))
    with tempfile.TemporaryDirectory() as folder:
        runs = Runs(program, folder, LIMIT)
        with open(runs.input, "w", encoding="ascii") as file:
            file.write(data)
        raising = dice.choice([["Fault"], ["Late"], ["Late", "Boom"]])
        each, brief = dice.random() < 0.5 and number_of_parts(text) <= 40, dice.random() < 0.3
        words = ["--name", ",".join(raising)] + ["--each"] * each + ["--brief"] * brief
        answers = {runs.call("faults", text, "--workers", workers, *words) for workers in ("1", "3", "64")}
        status, out = answers.pop()
        wanted = table(runs, text, raising, each, brief)
        if answers or status != 0 or out != wanted:
            raise Wrong(f"status {status}\n{out}-- wanted\n{wanted}-- seed\n{seed}\n-- words\n{words}\n-- text\n{text}\n-- input\n{data!r}")
        if each:
            compare_parts(runs, text)
        return int(re.search(r"^(\d+) faults?: ", wanted, re.M)[1])


def show(program, job, input_path):
    with tempfile.TemporaryDirectory() as folder:
        runs = Runs(program, folder, 1_000_000)
        with open(runs.input, "wb") as file:
            file.write(open(input_path, "rb").read() if input_path else b"")
        print(table(runs, open(job, encoding="ascii").read()), end="")


def main():
    if sys.argv[2:3] == ["--table"]:
        show(sys.argv[1], sys.argv[3], sys.argv[4] if len(sys.argv) > 4 else None)
        return 0
    jobs = int(sys.argv[2]) if len(sys.argv) > 2 else 100
    seed = int(sys.argv[3]) if len(sys.argv) > 3 else random.randrange(1_000_000)
    print(f"random_faults.py: {jobs} jobs, seed {seed}", flush=True)
    with ThreadPoolExecutor(os.cpu_count()) as pool:
        try:
            lines = sum(pool.map(lambda n: compared(sys.argv[1], seed * 1_000_000 + n), range(jobs)))
        except Wrong as wrong:
            print(wrong)
            pool.shutdown(cancel_futures=True)
            return 1
    print(f"random_faults.py: {lines} faults, none differs")
    return 0


if __name__ == "__main__":
    sys.exit(main())
