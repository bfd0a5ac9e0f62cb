#!/usr/bin/env python3
"""Measures the processor minutes that the gate takes, by crate and by kind of work.

    python3 bench/gate.py                           # rt ci from nothing, at the top of the repository
    python3 bench/gate.py --edits bash .ci/run      # another command, and a line for each must-fail edit

Runs the command, and reads the processor time of every process below it from /proc several times a second. The table has a row
for each crate: the proof of the crate, the proof of its tests, the check that its must-fail edits begin with, and the edits.
The total is the system's own count. What a process used between the last look at it and its end is therefore only in the last
row, with the programs that are no checks. Of a command that is cut off the total is too small, and that row below 0, since the
system counts only the processes that were waited for. The table goes to standard error when the command has ended, in Markdown; the output
of the command is left as it is. The exit status is the command's.
"""
import argparse
import collections
import os
import re
import resource
import subprocess
import sys
import time

KINDS = ["proof", "tests", "edits begin", "edits"]
TICKS = os.sysconf("SC_CLK_TCK")


def read(path):
    """The file's bytes, or none where the process has ended."""
    try:
        with open(path, "rb") as file:
            return file.read()
    except OSError:
        return b""


def processes():
    """Each process as (pid, parent, start, seconds of processor time of its own)."""
    for pid in filter(str.isdigit, os.listdir("/proc")):
        # the name stands in parentheses and may hold spaces
        fields = read(f"/proc/{pid}/stat").rpartition(b")")[2].split()
        if fields:
            yield int(pid), int(fields[1]), fields[19], (int(fields[11]) + int(fields[12])) / TICKS


def below(root, found):
    """The pids at or below the root."""
    children = collections.defaultdict(list)
    for pid, parent, _, _ in found:
        children[parent].append(pid)
    reached = [root]
    for pid in reached:
        reached += children[pid]
    return set(reached)


def work_of(pid, tried):
    """The work of a process as (crate, kind, number of the edit or None), or None where it is no check or build of a crate.

    `tried` has the folders of the edits that were tried over each kept check, in order. Some kits keep a check for all edits of a crate
    and number them; the others try them in turn, and the first one is also the check that they begin with.
    """
    words = read(f"/proc/{pid}/cmdline").decode(errors="replace").split("\0")
    if "--crate-name" not in words:
        return None
    crate = words[words.index("--crate-name") + 1]
    try:
        folder = os.readlink(f"/proc/{pid}/cwd")
    except OSError:
        return None
    if "/rt-edit-" in folder:
        kept = words[words.index("--incremental") + 1] if "--incremental" in words else ""
        number = re.search(r"/(\d+)$", kept)
        if number or kept.endswith("/seed"):
            return crate, "edits" if number else "edits begin", number and int(number[1])
        folders = tried.setdefault(kept or folder, [])
        if folder not in folders:
            folders.append(folder)
        at = folders.index(folder)
        return crate, "edits" if at else "edits begin", at
    return crate, "tests" if "--test" in words else "proof", None


def run(command, pause):
    """Runs the command. Returns its status, the seconds of processor time of each work, of all, and the seconds that passed."""
    begin = time.monotonic()
    child = subprocess.Popen(command)
    works, used, tried = {}, {}, {}
    while child.poll() is None:
        found = list(processes())
        ours = below(child.pid, found)
        for pid, _, start, seconds in found:
            if pid in ours:
                key = pid, start
                # a fork has its parent's words until it runs a program
                works[key] = work_of(pid, tried) or works.get(key)
                used[key] = max(seconds, used.get(key, 0))
        time.sleep(pause)
    times = resource.getrusage(resource.RUSAGE_CHILDREN)
    by_work = collections.Counter()
    for key, seconds in used.items():
        by_work[works[key]] += seconds
    return child.returncode, by_work, times.ru_utime + times.ru_stime, time.monotonic() - begin


def edit_names(crate):
    folder = f"crates/{crate}/must-fail"
    edits = sorted(os.listdir(folder)) if os.path.isdir(folder) else []
    return [*edits, "the crate without an edit"]


def table(by_work, total):
    """The lines of the table, crates by what they cost."""
    rows = collections.defaultdict(collections.Counter)
    for work, seconds in by_work.items():
        if work:
            rows[work[0]][work[1]] += seconds
    sums = collections.Counter()
    yield "| Crate | " + " | ".join(KINDS) + " | sum |"
    yield "|---|" + "---|" * (len(KINDS) + 1)
    for crate, row in sorted(rows.items(), key=lambda it: -sum(it[1].values())):
        sums.update(row)
        cells = [f"{row[kind] / 60:.1f}" if row[kind] else "-" for kind in KINDS]
        yield f"| `{crate}` | " + " | ".join(cells) + f" | {sum(row.values()) / 60:.1f} |"
    yield "| sum | " + " | ".join(f"{sums[kind] / 60:.1f}" for kind in KINDS) + f" | {sum(sums.values()) / 60:.1f} |"
    rest = (total - sum(sums.values())) / 60
    yield "| links, tests, programs and scripts | " + " | ".join("-" for _ in KINDS) + f" | {rest:.1f} |"


def main():
    parser = argparse.ArgumentParser(description=__doc__.splitlines()[0])
    parser.add_argument("--edits", action="store_true", help="a line for each must-fail edit, too")
    parser.add_argument("--pause", type=float, default=0.3, help="seconds between two looks")
    parser.add_argument("command", nargs=argparse.REMAINDER)
    given = parser.parse_args()
    # (a kit that keeps what it passed has a word against it)
    helped = subprocess.run(["rt", "help"], capture_output=True, text=True, check=False)
    anew = ["--anew"] if "--anew" in helped.stdout + helped.stderr else []
    status, by_work, total, passed = run(given.command or ["rt", "ci", *anew], given.pause)
    say = lambda line: print(line, file=sys.stderr)
    say("")
    for line in table(by_work, total):
        say(line)
    say(f"\n{total / 60:.0f} processor minutes, in {passed / 60:.0f} minutes on {os.cpu_count()} processors; the command ended with {status}.")
    if given.edits:
        say("\n| Crate | Edit | seconds |\n|---|---|---|")
        edits = [(seconds, *work) for work, seconds in by_work.items() if work and work[2] is not None]
        for seconds, crate, _, number in sorted(edits, reverse=True):
            say(f"| `{crate}` | {edit_names(crate)[number]} | {seconds:.0f} |")
    return status


if __name__ == "__main__":
    sys.exit(main())
