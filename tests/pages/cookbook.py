#!/usr/bin/env python3
"""Compares the jobs, reports, charts, faults, races and sweeps that docs/COOKBOOK.md, docs/MANUAL.md and README.md show
with examples/, tests/faults/ and tests/limits/.

    python3 tests/pages/cookbook.py

It wants Python 3.10 or later, and no program: tests/pages/examples.sh compares the stored reports with it. Where a paragraph names an
example, as (`examples/NAME.feed`), the next two indented blocks are the feed and its report; where it names a feed as (`tests/faults/NAME.feed`), they are the feed and what becomes of its job with each fault; and where it names a chart, races or a sweep as
(`examples/NAME.chart`), the next indented block is that.
In the cookbook a block of lines of its story may follow, and stands for each example; there is no other block. In README a block that begins
with a tick is lines of the story. In README and the manual other blocks stand too.
Each job shown is of format 3, and no block has the first line of another format.
"""

import os
import re
import sys

ROOT = os.path.join(os.path.dirname(os.path.abspath(__file__)), "..", "..")
FIRST_LINE = "trio-job 3\n"
OLDER = re.compile("trio-job [12]")
NAMED = re.compile(r"\(`(examples|tests/faults|tests/limits/again)/(\w+)\.(feed|chart|races|sweep)`")


class Wrong(Exception):
    """What was found, in one sentence."""


def content_of(*path):
    with open(os.path.join(ROOT, *path), encoding="utf-8", newline="") as file:
        return file.read()


def pieces_of(page):
    """The paragraphs and indented blocks of a page in order, each with whether it is a block. Blank lines end both."""
    for piece in re.split(r"\n(?:[ \t]*\n)+", page):
        lines = piece.strip("\n").split("\n")
        if all(line.startswith("    ") for line in lines):
            yield True, "".join(line[4:] + "\n" for line in lines)
        else:
            yield False, piece


def table_of(folder, name, kind):
    """What a command writes. The first line of a sweep that is kept has the words of the command."""
    content = content_of(folder, f"{name}.{kind}")
    return content.partition("\n")[2] if kind == "sweep" else content


def feed_of(folder, name):
    feed = content_of(folder, name + ".feed")
    if not feed.startswith(FIRST_LINE):
        raise Wrong(f"{folder}/{name}.feed, which a page shows, does not begin with the line `trio-job 3`")
    return feed


def are_told(name, block):
    """Whether these are lines of an example's story, in its order."""
    story = iter(content_of("examples", name + ".story").splitlines())
    return all(line in story for line in block.splitlines())


def compare_page(page, text, is_cookbook):
    """Compares each block shown of an example. Gives the names of the examples shown."""
    shown, wanted, untold = [], [], []
    for is_block, piece in pieces_of(text):
        if is_block and OLDER.search(piece):
            raise Wrong(f"{page} shows a job of an older format:\n{piece}")
        if not is_block:
            for folder, name, kind in NAMED.findall(piece):
                if wanted:
                    raise Wrong(f"{page} does not show the {wanted[0][1]} of {wanted[0][0]}")
                if kind != "feed":
                    wanted = [(name, kind, table_of(folder, name, kind))]
                    continue
                what = "report" if folder == "examples" else "faults"
                untold += [name] * (folder == "examples" and is_cookbook)
                wanted = [(name, "feed", feed_of(folder, name)), (name, what, content_of(folder, f"{name}.{what}"))]
                shown.append(name)
        elif wanted:
            name, what, right = wanted.pop(0)
            if piece != right:
                raise Wrong(f"{page} shows another {what} of {name} than is stored:\n{piece}")
        elif is_cookbook:
            if shown[-1:] != untold[-1:] or not are_told(untold.pop(), piece):
                raise Wrong(f"{page} shows a block of no example and no story:\n{piece}")
        elif shown and piece.startswith("tick ") and not are_told(shown[-1], piece):
            raise Wrong(f"{page} shows lines that are not in the story of {shown[-1]}:\n{piece}")
    if wanted:
        raise Wrong(f"{page} does not show the {wanted[0][1]} of {wanted[0][0]}")
    if untold:
        raise Wrong(f"{page} does not show lines of the story of {untold[0]}")
    return shown


def main():
    try:
        for path, is_cookbook in [(("docs", "COOKBOOK.md"), True), (("docs", "MANUAL.md"), False), (("README.md",), False)]:
            page = "/".join(path)
            shown = compare_page(page, content_of(*path), is_cookbook)
            if is_cookbook and not shown:
                raise Wrong(f"{page} shows no example")
            print(f"cookbook.py: {page} shows as they are stored: {', '.join(shown) or 'its charts, races and sweeps'}")
    except (Wrong, OSError) as wrong:
        print(f"cookbook.py: {wrong}", file=sys.stderr)
        return 1
    return 0


if __name__ == "__main__":
    sys.exit(main())
