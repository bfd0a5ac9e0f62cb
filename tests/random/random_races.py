#!/usr/bin/env python3
"""Compares what `nursery races` prints for random jobs with runs of texts that this script changes itself.

    python3 tests/random/random_races.py PROGRAM [JOBS [SEED]]
    python3 tests/random/random_races.py PROGRAM --table JOB [INPUT]

PROGRAM is the built executable. It wants Python 3.10 or later. Each job text is put into finer ticks here, each of its places is moved by a
hair, and what `nursery run` reports of two texts is compared apart from ticks; which copies of a `start .. over`, or of a `start` in a
`repeat`, meet is read from `nursery explain`. Each byte that `races` writes has to be what comes of that, with 1, 3 and 64 workers. The second form writes the table that
this script makes of a job.
"""

import os
import random
import re
import sys
import tempfile
from concurrent.futures import ThreadPoolExecutor

from jobs import job_of_any_format
from random_faults import LIMIT, Runs, Wrong, fresh, refusal_in, tokens_of

MOST = 1_000_000_000
FOREVER = 1_099_511_627_776


def places_of(tokens):
    """Each place where time passes, or may: (token, kind, name or number, place of the number or of what is changed)."""
    for n, (token, at) in enumerate(tokens):
        after = [t for t, _ in tokens[n + 1 : n + 4]] + ["", "", ""]
        if token == "sleep":
            yield at, "number", f"sleep {after[0]}", tokens[n + 1]
        elif token in ("scope", "nursery") and after[1] in ("after", "at"):
            yield at, "number", f"{after[0]} {after[1]} {after[2]}", tokens[n + 3]
        elif token == "checkpoint":
            yield at, "checkpoint", "checkpoint", tokens[n + 1]
        elif token == "pace":
            yield at, "pace", f"pace {after[0]}", tokens[n + 2]
        elif token == "start":
            yield at, "start", f"start {after[0]}", next(t for t in tokens[n:] if t[0] == "{")
        elif token in ("set", "wait") and tokens[n - 1][0] in "{};":  # (where no step may begin they are names)
            yield at, token, f"{token} {after[0]}", (fresh("hair", tokens), at) if token == "set" else tokens[n + 2]


def changes_of(place, factor, moved):
    """The changes (from, to, piece) of a place: finer ticks, and moved by some of them."""
    at, kind, _, (token, where) = place
    if kind == "number":
        yield where, where + len(token), str(max(int(token) * factor + moved, 0))
    elif kind == "checkpoint" and moved:
        yield at, where, f"sleep {moved}"
    elif kind == "pace":
        yield at, at, f"repeat {factor} {{ "
        yield where + 1, where + 1, " }" + (f" sleep {moved};" if moved else "")
    elif kind in ("start", "wait") and moved:
        yield where + 1, where + 1, f" sleep {moved};"
    elif kind == "set" and moved:
        yield at, at, f"scope {token} shield {{ sleep {moved}; }} "


def is_by_rounds(text):
    return text.startswith("trio-job 3")


def finer(text, places, factor, which=None, moved=0):
    changes = [c for n, place in enumerate(places) for c in changes_of(place, factor, moved if n == which else 0)]
    for start, end, piece in sorted(changes, reverse=True):
        text = text[:start] + piece + text[end:]
    return text if is_by_rounds(text) else text[:9] + "2" + text[10:]


class Shown:
    """What a text shows by a limit: refused, or each task's outcome and entries without ticks; of a job that does not end, only that.
    The scope in which a `set` waits for a hair is left out."""

    def __init__(self, runs, text, limit, hair_scope):
        runs.limit = str(limit)
        status, report = runs.call("run", text)
        self.refused, self.stuck, self.tasks = refusal_in(report) if status == 2 else "", status == 3, {}
        for line in report.splitlines() if status in (0, 1) else []:
            words = line.split(" ", 4)
            if words[0] == "task":
                label = words[1]
                self.tasks[label] = [re.sub(r"@\d+", "", words[4])]
            elif line.startswith("  line "):
                self.tasks[label].append(line)
            elif line.startswith("  "):
                kind, name, _, *caught = line.split()
                if kind != "scope" or name.split(".")[0] != hair_scope:
                    self.tasks[label].append((kind, name, *caught))


def compared(before, after, root):
    """What a line says, or nothing if both show the same."""
    if before.refused or after.refused:
        return before.refused or after.refused
    if before.stuck or after.stuck:
        old, new = ("stuck" if shown.stuck else shown.tasks[root][0] for shown in (before, after))
        return f"{root}: {old} -> {new}" if before.stuck != after.stuck else ""
    found = []
    for task, old in before.tasks.items():
        new = after.tasks.get(task, ["not started"])
        if old[0] != new[0]:
            found.append(f"{task}: {old[0]} -> {new[0]}")
        elif old != new:
            found.append(f"{task}: other lines or scopes")
    found += [f"{task}: not started -> {new[0]}" for task, new in after.tasks.items() if task not in before.tasks]
    return "; ".join(found[:3]) + (f"; and {len(found) - 3} more" if len(found) > 3 else "")


def copies_of(tokens):
    """Each `start .. over`, and each `start` in a `repeat`: its place, its text, its name, how many indices come before those of its
    copies, and the tasks below it."""
    depth, loops, opened = 0, [], []
    repeats, is_repeat = [], False  # of each open block, whether it is that of a `repeat`; and of the next one
    found = []
    for n, (token, at) in enumerate(tokens):
        if token == "{":
            depth += 1
            loops += [depth] * opened.pop() if opened else []
            repeats.append(is_repeat)
            is_repeat = False
        elif token == "}":
            repeats.pop()
            loops = [loop for loop in loops if loop < depth]
            for start in found:
                start["open"] = start["open"] and depth > start["depth"] + 1
            depth -= 1
        elif token == "repeat":
            opened, is_repeat = [1], True
        elif token == "start":
            over = tokens[n + 2][0] == "over"
            name = tokens[n + 1][0]
            for start in found:
                start["below"] += [name] * start["open"]
            if over or repeats[-1]:
                step, before = f"start {name} over {tokens[n + 3][0]}" if over else f"start {name}", len(loops) - (not over)
                found.append({"at": at, "step": step, "name": name, "before": before, "below": [name], "depth": depth, "open": True})
            opened = [1] if over else []
    return found


def meeting(start, events, hair):
    """The first copy that cancels something while another one acts, and when."""
    at = start["before"]
    seen = [(tick, indices[: at + 1], what) for tick, (name, *indices), what in events if name in start["below"]]
    cancels = lambda what: what.startswith("cancels ") or (what.startswith("ends: raised ") and "(" in what.split(";")[0])
    acts = lambda what: not what.startswith(("starts", "is cancelled"))
    for tick, copy, what in sorted((e for e in seen if cancels(e[2])), key=lambda e: e[:2]):
        others = [c for t, c, w in seen if acts(w) and c[:-1] == copy[:-1] and c[-1] != copy[-1] and abs(t - tick) <= hair]
        if others:
            return tick, copy, min(others)
    return None


def events_of(runs, text, limit):
    runs.limit = str(limit)
    _, story = runs.call("explain", text)
    tick = 0
    for line in story.splitlines():
        if line.startswith("tick "):
            tick = int(line[5:])
        elif line.startswith("limit "):
            return
        else:
            label, what = line.split(maxsplit=1)
            name, *indices = label.split(".")
            yield tick, (name, *map(int, indices)), what


def place_text(text, at):
    return f"{text.count(chr(10), 0, at) + 1}:{at - text.rfind(chr(10), 0, at)}"


def table(runs, text, limit=LIMIT):
    """The lines of a job that ends by the limit, or the line of the limit."""
    tokens = tokens_of(text)
    scope = fresh("hair", tokens)
    root, first = tokens[1][0], Shown(runs, text, limit, scope)
    if first.stuck:
        return f"limit {limit}\n"
    places = list(places_of(tokens))
    most = max((int(p[3][0]) for p in places if p[1] == "number"), default=0)
    factor = next(f for f in ((10,) if is_by_rounds(text) else (1000, 100, 10)) if most * f + f // 10 <= MOST and limit * f < FOREVER)
    hair, end = factor // 10, limit * factor
    base = Shown(runs, finer(text, places, factor), end, scope)
    lines = [("", "", "finer", compared(first, base, root))]
    hairs = 0
    for n, place in enumerate(places):
        less = place[1] == "number" and int(place[3][0]) > 0
        for name, moved in [("earlier", -hair)] * less + [("later", hair)]:
            hairs += 1
            found = compared(base, Shown(runs, finer(text, places, factor, n, moved), end, scope), root)
            lines.append((place_text(text, place[0]), place[2], name, found))
    if not base.refused:
        events = list(events_of(runs, finer(text, places, factor), end))
        for start in copies_of(tokens):
            met = meeting(start, events, hair)
            if met and met[0] <= end:
                one, other = (".".join([start["name"], *map(str, copy)]) for copy in met[1:])
                lines.append((place_text(text, start["at"]), start["step"], "copies", f"{one} and {other} meet at {met[0] // factor}"))
    return laid_out(lines, hairs)


def laid_out(lines, hairs):
    shown = [line for line in lines if line[3]]
    place, step, hair = (max((len(line[n]) for line in shown), default=0) for n in (0, 1, 2))
    untried = [line for line in shown if line[3].startswith("not tried: ")]
    races = len(shown) - len(untried)
    not_tried = sum(line[2] != "finer" for line in untried)
    rows = "".join(f"{a:>{place}}  {b:<{step}}  {c:<{hair}}  {d}\n" for a, b, c, d in shown)
    found = "no race" if not shown else f"{races} races"
    return rows + f"{hairs} hairs: {found}{f', {not_tried} hairs not tried' if not_tried else ''}\n"


def checked(program, seed):
    """Compares the races of a random job. Gives how many hairs there are, and whether there is a race."""
    dice = random.Random(seed)
    text = job_of_any_format(seed)[1]
    with tempfile.TemporaryDirectory() as folder:
        runs = Runs(program, folder, LIMIT)
        with open(runs.input, "w", encoding="ascii") as file:
            file.write("\n".join(dice.choice(["error one", "ok", "", "all"]) for _ in range(dice.randint(0, 6))))
        answers = {runs.call("races", text, "--workers", workers) for workers in ("1", "3", "64")}
        status, out = answers.pop()
        wanted = table(runs, text)
        if answers or status != (3 if wanted.startswith("limit") else 0) or out != wanted:
            raise Wrong(f"status {status}\n{out}-- wanted\n{wanted}-- seed\n{seed}\n-- text\n{text}")
        return (0, 0) if status == 3 else (int(wanted.splitlines()[-1].split()[0]), not wanted.splitlines()[-1].split(",")[0].endswith("no race"))


def main():
    if sys.argv[2:3] == ["--table"]:
        with tempfile.TemporaryDirectory() as folder, open(sys.argv[3], encoding="ascii") as file:
            text, _, input_ = file.read().partition("\n%input\n")
            runs = Runs(sys.argv[1], folder, LIMIT)
            if sys.argv[4:]:
                runs.input = sys.argv[4]
            else:
                with open(runs.input, "w", encoding="ascii") as to:
                    to.write(input_)
            print(table(runs, text, 1_000_000), end="")
        return 0
    jobs = int(sys.argv[2]) if len(sys.argv) > 2 else 100
    seed = int(sys.argv[3]) if len(sys.argv) > 3 else random.randrange(1_000_000)
    print(f"random_races.py: {jobs} jobs, seed {seed}", flush=True)
    with ThreadPoolExecutor(os.cpu_count()) as pool:
        try:
            found = list(pool.map(lambda n: checked(sys.argv[1], seed * 1_000_000 + n), range(jobs)))
        except Wrong as wrong:
            print(wrong)
            pool.shutdown(cancel_futures=True)
            return 1
    print(f"random_races.py: {sum(n for n, _ in found)} hairs, {sum(race for _, race in found)} jobs with a race, none differs")
    return 0


if __name__ == "__main__":
    sys.exit(main())
