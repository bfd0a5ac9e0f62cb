#!/usr/bin/env python3
"""Prints what took longest when the crates of a checkout were proved, by the times of the files that the checks kept.

    python3 bench/slow.py BUILT [COUNT]         # the slowest modules, 40 if COUNT is not given, and the time by kind

BUILT is the top of a checkout in which bench/build.py or bench/check.py has proved crates, from nothing, and each with one process (with several, the
files of one process lie between those of another). A check writes a file for each module as soon as it is checked, so the time of a module is that
since the file before it. The kinds: `Lts` is what the borrow checker shows of a function, which grows with the drops on the ways out of it; `Proof`
and `Tie` are the function's theorem; `lemmas` are the files of `proofs/`.
"""
import collections
import glob
import os
import sys

KINDS = ("Lts", "Proof", "Tie", "Code", "Goals", "Given", "Answers", "Invariants", "Kinds", "Met", "Statement")


def modules_of(folder):
    """The modules that a check kept in a folder, in the order of their times: the time, and the name."""
    found = []
    for path in glob.glob(os.path.join(folder, "**", "*.oantt"), recursive=True):
        name = os.path.basename(path).removesuffix(".oantt")
        if not name.endswith(".decls"):
            found.append((os.stat(path).st_mtime, name.removeprefix("Rattle-")))
    return sorted(found)


def kind_of(name):
    last = name.rpartition(".")[2].partition("-")[0]
    return last if last in KINDS else "contracts" if ".contracts." in name else "lemmas"


def main():
    built, count = sys.argv[1], int((sys.argv[2:] or ["40"])[0])
    took, kinds = [], collections.Counter()
    for kept in ("incremental", "checked/kept"):
        for folder in glob.glob(os.path.join(built, "crates", "*", "out", kept)):
            modules = modules_of(folder)
            took += [(after[0] - before[0], after[1]) for before, after in zip(modules, modules[1:])]
    for seconds, name in took:
        kinds[kind_of(name)] += seconds
    for seconds, name in sorted(took, reverse=True)[:count]:
        print(f"{seconds:6.1f} s  {name}")
    print(f"{sum(kinds.values()) / 60:6.1f} minutes:", ", ".join(f"{kind} {seconds / 60:.1f}" for kind, seconds in kinds.most_common()))


if __name__ == "__main__":
    main()
