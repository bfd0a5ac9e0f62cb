#!/usr/bin/env python3
"""Runs everything that can be tested without a proof and without a built program: `make test`.

    python3 tests/quick.py              # at most two builds at a time

It runs the first job (`crates/nursery/stdin`, whose report is `crates/nursery/stdout`), the tests of the crates `layer_tests` and
`nursery_tests`, all by `rt try`, which proves nothing, and the scripts of `tests/pages` and `tests/edits` that need no program.
What failed is printed whole. The last line is `N passed, N failed`, where each test function, the first job and each script
count as one. The exit status is 1 if anything failed.
"""
import os
import re
import subprocess
import sys
import time
from concurrent.futures import ThreadPoolExecutor

ROOT = os.path.join(os.path.dirname(os.path.abspath(__file__)), "..")
PAGES = [
    ["tests/pages/cookbook.py"],
    ["tests/pages/layers.py"],
    ["tests/pages/columns.py"],
    ["tests/pages/clauses.py"],
    ["tests/pages/editors.py"],
    ["tests/edits/try.py", "--read"],
]
RESULT = re.compile(rb"^test result: .*?(\d+) passed; (\d+) failed", re.M)


def call(words, folder, stdin=None):
    """Runs a command, and returns its status, its standard output and its standard error."""
    with open(stdin or os.devnull, "rb") as given:
        ended = subprocess.run(words, cwd=folder, stdin=given, capture_output=True, check=False)
    return ended.returncode, ended.stdout, ended.stderr


def try_first_job():
    """Runs the program on its first job. Returns how many passed, how many failed, and what there is to show."""
    folder = os.path.join(ROOT, "crates", "nursery")
    status, wrote, said = call(["rt", "try"], folder, os.path.join(folder, "stdin"))
    with open(os.path.join(folder, "stdout"), "rb") as file:
        passed = status == 0 and wrote == file.read()
    return int(passed), int(not passed), b"" if passed else wrote + said


def try_tests(crate):
    """Runs the tests of a crate, in the same form."""
    status, wrote, said = call(["rt", "try", "--test"], os.path.join(ROOT, "crates", crate))
    result = RESULT.search(wrote + said)
    if not result:
        return 0, 1, wrote + said
    passed, failed = map(int, result.groups())
    failed = max(failed, int(status != 0))
    return passed, failed, wrote + said if failed else b""


def try_page(words):
    """Runs a script that needs no program, in the same form."""
    status, wrote, said = call([sys.executable, *words], ROOT)
    return int(status == 0), int(status != 0), b"" if status == 0 else wrote + said


def timed(name, work, *given):
    """Does one of these works, says how it ended, and returns how many passed and failed."""
    begin = time.monotonic()
    passed, failed, shown = work(*given)
    text = shown.decode(errors="replace") + f"{name}: {passed} passed, {failed} failed, {time.monotonic() - begin:.0f} s"
    print(text, flush=True)
    return passed, failed


def main():
    works = [(" ".join(words), try_page, words) for words in PAGES]
    works += [("the tests of nursery_tests", try_tests, "nursery_tests")]
    works += [("the first job", try_first_job), ("the tests of layer_tests", try_tests, "layer_tests")]
    with ThreadPoolExecutor(min(2, len(os.sched_getaffinity(0)))) as pool:
        results = list(pool.map(lambda work: timed(*work), works))
    passed, failed = (sum(it) for it in zip(*results))
    print(f"{passed} passed, {failed} failed")
    return 1 if failed else 0


if __name__ == "__main__":
    sys.exit(main())
