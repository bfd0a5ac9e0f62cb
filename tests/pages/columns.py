#!/usr/bin/env python3
"""README.md has at most 120 lines, and no line of README.md, CONTRIBUTING.md, CHANGELOG.md and docs/ has more than 120 columns.

    python3 tests/pages/columns.py

Rows of tables, and lines that a script makes between two comments, may be longer in every page but README.md.
"""

import glob
import os
import sys

ROOT = os.path.join(os.path.dirname(os.path.abspath(__file__)), "..", "..")
MOST = 120


def long_lines(path, is_strict):
    """The numbers of the lines that are too long."""
    is_made = False
    with open(path, encoding="utf-8") as file:
        for number, line in enumerate(file.read().splitlines(), 1):
            if line.startswith("<!--"):
                is_made = not line.startswith("<!-- end")
            if len(line) > MOST and (is_strict or not (is_made or line.startswith(("|", "<!--")))):
                yield number


def main():
    readme = os.path.join(ROOT, "README.md")
    pages = [readme, os.path.join(ROOT, "CONTRIBUTING.md"), os.path.join(ROOT, "CHANGELOG.md"), *sorted(glob.glob(f"{ROOT}/docs/*.md"))]
    faults = [f"{os.path.relpath(path, ROOT)}:{number}: more than {MOST} columns" for path in pages for number in long_lines(path, path == readme)]
    with open(readme, encoding="utf-8") as file:
        lines = len(file.readlines())
    if lines > MOST:
        faults.append(f"README.md has {lines} lines, more than {MOST}")
    for fault in faults:
        print(f"columns.py: {fault}")
    print(f"columns.py: {len(pages)} pages, {len(faults)} faults")
    return 1 if faults else 0


if __name__ == "__main__":
    sys.exit(main())
