#!/usr/bin/env python3
"""The layers of the crates, and what each builds on, as docs/MAP.md shows them, made from crates.txt.

    python3 tests/pages/layers.py            # compares: status 1 where the page shows others
    python3 tests/pages/layers.py --write    # puts them into the page

A crate stands one layer above the highest of those that its line in crates.txt names. The crates of definitions and laws, which do nothing
at run time, stand in a column of their own. In the table of crates the last column has what a crate's line names, the kit's libraries too, without those that
another crate of the column stands on. Each crate has a row.
"""

import os
import re
import sys

ROOT = os.path.join(os.path.dirname(os.path.abspath(__file__)), "..", "..")
PAGE = os.path.join(ROOT, "docs", "MAP.md")
BEGIN, END = "<!-- layers: tests/pages/layers.py -->\n", "<!-- end of layers -->\n"
ROW = re.compile(r"^\| `(\w+)` \| (.*) \| ([^|]*) \|$", re.M)
DEFINITIONS = ["job_meaning", "turn_semantics", "interleavings", "run_refinement"]


def lines_of(text):
    """Each crate with the libraries that its line names."""
    lines = [line.split(":") for line in text.splitlines() if line and not line.startswith("#")]
    return {name: words.split() for name, words in lines}


def libraries_of(lines):
    """Each crate with the crates of the repository that it stands on."""
    return {name: [word for word in words if word in lines] for name, words in lines.items()}


def below(libraries, name):
    """All that a crate stands on, whatever the number of crates between them."""
    found = set(libraries[name])
    for lower in libraries[name]:
        found |= below(libraries, lower)
    return found


def column(lines, libraries, name):
    """What a crate builds on, without what it has through another crate of the column."""
    through = set().union(*(below(libraries, lower) for lower in libraries[name]))
    return ", ".join(f"`{word}`" for word in lines[name] if word not in through) or "-"


def with_columns(page, lines):
    """The page with the last column of each crate's row as crates.txt has it."""
    libraries = libraries_of(lines)
    missing = set(lines) - {name for name, _, _ in ROW.findall(page)}
    if missing:
        sys.exit(f"layers.py: docs/MAP.md has no row for {', '.join(sorted(missing))}")
    return ROW.sub(lambda row: f"| `{row[1]}` | {row[2]} | {column(lines, libraries, row[1])} |" if row[1] in lines else row[0], page)


def layers_of(libraries):
    """The layer of each crate."""
    found = {}

    def layer(name):
        if name not in found:
            found[name] = 1 + max(map(layer, libraries[name]), default=0)
        return found[name]

    return {name: layer(name) for name in libraries}


def picture(libraries):
    """The block that the page shows, from the highest layer to the lowest."""
    layers = layers_of(libraries)
    rows = []
    for height in range(max(layers.values()), 0, -1):
        here = [name for name in libraries if layers[name] == height]
        code = "  ".join(name for name in here if name not in DEFINITIONS)
        rows.append((height, code, "  ".join(name for name in here if name in DEFINITIONS)))
    width = max(len(code) for _, code, _ in rows)
    head = f"    {'':4}{'code':<{width}}   definitions and laws\n"
    return head + "".join(f"    {height:>2}  {code:<{width}}   {laws}".rstrip() + "\n" for height, code, laws in rows)


def main():
    with open(os.path.join(ROOT, "crates.txt"), encoding="utf-8") as file:
        lines = lines_of(file.read())
    with open(PAGE, encoding="utf-8") as file:
        page = file.read()
    front, begin, rest = page.partition(BEGIN)
    _, end, back = rest.partition(END)
    if not begin or not end:
        sys.exit(f"layers.py: docs/MAP.md does not hold {BEGIN.strip()} and {END.strip()}")
    wanted = with_columns(f"{front}{BEGIN}\n{picture(libraries_of(lines))}\n{END}{back}", lines)
    if sys.argv[1:] == ["--write"]:
        with open(PAGE, "w", encoding="utf-8") as file:
            file.write(wanted)
    elif page != wanted:
        sys.exit("layers.py: docs/MAP.md shows other layers or libraries than crates.txt has: python3 tests/pages/layers.py --write")
    print("layers.py: docs/MAP.md shows the layers and libraries of crates.txt")
    return 0


if __name__ == "__main__":
    sys.exit(main())
