#!/usr/bin/env python3
"""The jobs of examples/ and those that README.md, docs/MANUAL.md and docs/COOKBOOK.md show are formatted, as `nursery fmt` formats them.

    python3 tests/pages/formatted.py crates/nursery/out/nursery
"""

import glob
import os
import subprocess
import sys

from cookbook import ROOT, content_of, pieces_of

PAGES = ["README.md", "docs/MANUAL.md", "docs/COOKBOOK.md"]


def jobs_of_examples():
    for path in sorted(glob.glob(os.path.join(ROOT, "examples", "*.feed"))):
        name = os.path.relpath(path, ROOT)
        yield name, content_of(name).partition("%input\n")[0]


def jobs_of_pages():
    """The blocks that are jobs, without the inputs that they hold."""
    for page in PAGES:
        for is_block, piece in pieces_of(content_of(page)):
            if is_block and piece.startswith("trio-job "):
                yield page, piece.partition("%input\n")[0]


def main():
    nursery = sys.argv[1]
    count = 0
    for name, job in [*jobs_of_examples(), *jobs_of_pages()]:
        done = subprocess.run([nursery, "fmt", "-", "--check"], input=job.encode(), capture_output=True)
        if done.returncode != 0:
            sys.exit(f"formatted.py: a job of {name}: {done.stderr.decode()}")
        count += 1
    print(f"formatted.py: {count} jobs are formatted")


if __name__ == "__main__":
    main()
