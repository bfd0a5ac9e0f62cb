#!/usr/bin/env python3
"""The functions about whose result no clause says anything (docs/TESTS.md), and the public functions without a must-fail edit
(docs/DECISIONS.md), made from the crates of crates.txt.

    python3 tests/pages/clauses.py            # compares: status 1 where a page shows others
    python3 tests/pages/clauses.py --write    # puts the lists into the pages

A function has a clause if an `ensures` of it names the result, or the new state of something that it was lent. A function that returns
nothing and changes nothing, such as a law, has one if it has any `ensures`. The functions of an `impl Trait for Type` are not counted, since
their contract is the trait's; the methods of the crates' own traits are counted where the trait declares them.

An edit covers a public function if it changes the signature or the body of the function, or of a private function of the crate that it
calls, directly or through other private functions. Names are followed as they are written: where the type is not written, all methods of that
name count. An edit covers a law if it changes the law's clauses, or a statement in `specs/` that they name. No other edit may change `specs/`.
"""

import difflib
import glob
import os
import re
import sys

from functions import ROOT, blanked, crate_names, functions_of, functions_of_file, texts_of

WIDTH = 118  # (one of the lists is indented by two more)
# Edits that make a law false by changing a definition that the law is about: each with the reason, which names the law's statement.
OF_A_LAW = {
    "interleavings/a_task_that_ended_stays_in_its_nursery.edit": "`IsHoused` is what the law `TasksAreHoused` states of each task",
    "objects/a_buffer_is_never_full.edit": "a buffer would have a place that is never used, against `ChannelsServe`",
    "objects/nobody_ever_waits_for_a_token.edit": "nobody could wait for a token, against `LimitersServe`",
    "job_story/a_body_that_failed_is_no_cause.edit": "a story would name no cause, against `CancellationsHaveCauses`",
    "job_story/a_cause_of_any_tick.edit": "a story would name a cause of another tick, against `CausesAreShown`",
    "job_story/a_paced_sleep_is_due_too_soon.edit": "a story would name the wrong end of a sleep, against `TimePassesAsleep`",
    "job_story/all_of_it_propagates.edit": "a story would let pass what was caught, against `BlocksAreNested`",
    "job_story/one_round_of_causers.edit": "the causer of a causer would be left out, against `ConcernedTasksAreClosed`",
    "job_story/the_innermost_scope_is_blamed.edit": "a story would name the wrong scope, against `CancellationsAreSeen`",
    "run_refinement/a_cancellation_wins_over_a_grant.edit": "a task that is granted something could go on as cancelled, against `RunStatesTurn`",
    "run_refinement/a_grant_is_kept_with_the_moment_of_the_act.edit": "a grant would be kept with another moment, against `RunStatesServe`",
    "run_refinement/a_task_gets_what_the_next_one_asked.edit": "a grant would go to another task, against `RunStatesServe`",
    "run_refinement/acts_are_served_in_any_order.edit": "acts could be served in another order than that of records, against `RunStatesServe`",
}
CALL = re.compile(r"(\.\s*)?(?:(\w+)(?:::<[^<>]*>)?::)?\b([a-z_]\w*)(?=\s*(?:::<[^;{}]*?>)?\()")
VALUE = re.compile(r"(?<=[(,])\s*()(?:(\w+)::)?([a-z_]\w*)\s*(?=[,)])")
DEFINED = re.compile(r"^(?:(?:abbrev|unfoldable) )?(?:pub )?(?:(?:record|data) )?(?!use\b)(\w[\w'-]*) ", re.M)
NEXT = re.compile(r"^(?:--|use |abbrev |unfoldable |pub |record |data |\w[\w'-]* :)", re.M)


class Edit:
    """A must-fail edit: its name, and the replacements that it makes, one after the other, each in its file."""

    def __init__(self, crate, path):
        self.name, self.steps = f"{crate}/{os.path.basename(path)}", []
        with open(path, encoding="utf-8") as file:
            for line in file.read().splitlines():
                word, _, rest = line.partition(":")
                if word == "file":
                    changed = rest.strip()
                elif word == "old":
                    old = rest[1:]
                elif word == "new":
                    self.steps.append((changed, old, rest[1:]))

    def applied(self, texts):
        """The files that it changes, as they are after it."""
        after = {}
        for path, old, new in self.steps:
            text = after.get(path, texts.get(path, ""))
            if text.count(old) != 1:
                sys.exit(f"clauses.py: {self.name}: `old: {old}` is not exactly once in {path}")
            after[path] = text.replace(old, new)
        return after


def edits_of(crate):
    """The edits of a crate, wherever they stand."""
    folders = [os.path.join("crates", crate, "must-fail"), os.path.join("tests", "edits", crate)]
    return [Edit(crate, path) for folder in folders for path in sorted(glob.glob(os.path.join(ROOT, folder, "*.edit")))]


def written(function, text):
    """What a function says and does, as it is written. The clauses are part of it only in a law."""
    head, clauses, body, end = function.places
    return text[head:end] if function.is_law() else text[head:clauses] + text[body:end]


def definitions_in(text):
    """The definitions of a file of `specs/`: what each says, by its name."""
    parts, at = {}, 0
    while found := DEFINED.search(text, at):
        following = NEXT.search(text, found.end())
        at = following.start() if following else len(text)
        parts[found[1]] = parts.get(found[1], "") + text[found.start() : at]
    return parts


def parts_of(crate, path, text):
    """The functions of a file of `src/`, or the definitions of one of `specs/`: what each says, by its name."""
    if path.startswith("specs/"):
        return definitions_in(text)
    functions = functions_of_file(crate, path, blanked(text))
    return {(path, function.title, function.trait): written(function, text) for function in functions}


def changed_by(edit, crate, texts):
    """The names of the functions and definitions that an edit changes."""
    changes = set()
    for path, text in edit.applied(texts).items():
        before, after = parts_of(crate, path, texts[path]), parts_of(crate, path, text)
        changes.update(name for name in before if name in after and before[name] != after[name])
    return changes


def cites(law, name):
    """Whether a clause of a law names this definition."""
    return re.search(rf"(?<![\w-]){name}(?![\w-])", law.clauses) is not None


def states_a_law(name, specs, laws):
    """Whether a definition of `specs/` is a statement that a clause of a law names."""
    is_statement = any(re.search(rf"^abbrev pub {name} : Type 0$", text, re.M) for text in specs.values())
    return is_statement and any(cites(law, name) for law in laws)


def called(function, by_name):
    """The functions of the crate that a function uses by name."""
    found = set()
    for dot, owner, name in CALL.findall(function.body) + VALUE.findall(function.body):
        owner = function.owner if owner == "Self" else owner
        named = by_name.get(name, [])
        of_owner = [other for other in named if owner and other.owner == owner]
        found.update(of_owner or [other for other in named if bool(other.owner) == bool(dot)])
    return found


def reached_from(function, calls, functions):
    """A function and the private ones that it uses, directly or through others. A trait's method is what its implementations do."""
    left = [other for other in functions if other.trait and (other.trait, other.name) == (function.owner, function.name)]
    reached, left = {function}, [*left, *calls[function]]
    while left:
        here = left.pop()
        if here not in reached and not here.is_public:
            reached.add(here)
            left += calls[here]
    return reached


def changes_of(crate, functions):
    """The names of all that the edits of a crate change. An edit of a definition is refused, unless it is what a law states."""
    texts = {**texts_of(crate, "src", ".rt"), **texts_of(crate, "specs", ".antt")}
    specs = {path: text for path, text in texts.items() if path.startswith("specs/")}
    laws = [function for function in functions if function.is_law()]
    changes = set()
    for edit in edits_of(crate):
        here = changed_by(edit, crate, texts)
        defined = [name for name in here if isinstance(name, str)]
        if edit.name not in OF_A_LAW and not all(states_a_law(name, specs, laws) for name in defined):
            sys.exit(f"clauses.py: {edit.name} changes a definition of specs/ that is not what a law states")
        changes |= here | set(re.findall(r"`(\w+)`", OF_A_LAW.get(edit.name, "")))
    return changes


def without_edit(functions, changes):
    """The public functions with a clause that no edit covers."""
    by_name = {}
    for function in functions:
        by_name.setdefault(function.name, []).append(function)
    calls = {function: called(function, by_name) for function in functions}

    def is_covered(function):
        reached = reached_from(function, calls, functions)
        is_stated = function.is_law() and any(isinstance(name, str) and cites(function, name) for name in changes)
        return is_stated or any((other.path, other.title, other.trait) in changes for other in reached)

    return [f for f in functions if f.is_public and f.has_clause() and not is_covered(f)]


def wrapped(crate, names):
    """The lines of a crate in a list: its name, then the names of its functions."""
    lines, line = [], f"- {crate}:"
    for word in [f"`{name}`," for name in names[:-1]] + [f"`{names[-1]}`"]:
        if len(line) + 1 + len(word) > WIDTH:
            lines.append(line)
            line = " "
        line += f" {word}"
    return "\n".join([*lines, line]) + "\n"


def listed(functions):
    """A list with the functions of each crate. A name that a crate has twice in it is written with its module."""
    by_crate = {}
    for function in functions:
        by_crate.setdefault(function.crate, []).append(function)
    lists = []
    for crate, here in by_crate.items():
        titles = [function.title for function in here]
        names = [f"{f.module}::{f.title}" if titles.count(f.title) > 1 else f.title for f in here]
        lists.append(wrapped(crate, names))
    return "".join(lists)


def lists_made():
    """What each page shows: the page, the name of the list, and its text."""
    bare, unedited = [], []
    for crate in crate_names():
        functions = functions_of(crate)
        bare += [function for function in functions if function.kind != "trait" and not function.has_clause()]
        unedited += without_edit(functions, changes_of(crate, functions))
    public = [function for function in bare if function.is_public]
    private = [function for function in bare if not function.is_public]
    parts = f"Public:\n\n{listed(public)}\nPrivate to their crates:\n\n{listed(private)}"
    indented = "".join(f"  {line}\n" for line in listed(unedited).splitlines())
    return [("TESTS.md", "functions without a clause", parts), ("DECISIONS.md", "public functions without an edit", indented)]


def keep(page, title, text, writes):
    """Puts a list into its page, or ends with what differs if the page shows another."""
    path = os.path.join(ROOT, "docs", page)
    with open(path, encoding="utf-8") as file:
        whole = file.read()
    begin, end = f"<!-- {title}: tests/pages/clauses.py -->\n", f"<!-- end of {title} -->\n"
    front, opened, rest = whole.partition(begin)
    shown, closed, back = rest.partition(end)
    shown, indent = shown.rstrip(" "), front[front.rfind("\n") + 1 :]
    if not opened or not closed:
        sys.exit(f"clauses.py: docs/{page} does not hold {begin.strip()} and {end.strip()}")
    if writes:
        with open(path, "w", encoding="utf-8") as file:
            file.write(f"{front}{begin}\n{text}\n{indent}{end}{back}")
    elif shown != f"\n{text}\n":
        differing = difflib.unified_diff(shown.splitlines(), text.splitlines(), "in the page", "in the crates", lineterm="", n=0)
        print("\n".join(differing), file=sys.stderr)
        sys.exit(f"clauses.py: docs/{page} shows other {title} than the crates have: python3 tests/pages/clauses.py --write")


def main():
    for page, title, text in lists_made():
        keep(page, title, text, sys.argv[1:] == ["--write"])
    print("clauses.py: the pages show the functions without a clause, and the public functions without an edit")
    return 0


if __name__ == "__main__":
    sys.exit(main())
