#!/usr/bin/env python3
"""Checks one crate against the libraries that another checkout has built.

    python3 bench/check.py BUILT CRATE                      # checks it, and keeps its library for the crates above it
    python3 bench/check.py BUILT CRATE --only CRATE::PATH   # a function, or those of a module
    python3 bench/check.py BUILT CRATE --test               # with its tests
    python3 bench/check.py BUILT CRATE --fix-imports        # removes imports that nothing uses

BUILT is the top of a checkout in which `rt ci` or bench/build.py has proved the crates below. `rt check` would check all of them again in
a new checkout, which takes most of an hour; this takes as long as the crate alone, and after an edit only as long as what changed. A
library that was checked here before is used in the place of the one in BUILT, so check the lowest crate that you changed first. It prints
what `rattle` prints, open goals and their names too. It gives no verdict: only `rt ci` does.
"""
import argparse
import os
import sys

KIT = "/opt/rattle"
TOP = os.path.dirname(os.path.dirname(os.path.abspath(__file__)))


def dependencies():
    """Each crate of crates.txt with the libraries that it uses."""
    found = {}
    with open(os.path.join(TOP, "crates.txt"), encoding="utf-8") as file:
        for line in file:
            name, colon, uses = line.partition("#")[0].partition(":")
            if colon:
                found[name.strip()] = uses.split()
    return found


def below(crate, crates):
    """The repository's crates below one, lowest first."""
    found = []

    def visit(name):
        for lower in crates[name]:
            if lower in crates and lower not in found:
                visit(lower)
                found.append(lower)

    visit(crate)
    return found


def library(built, name):
    """The library of a crate: as it was checked here, or else as it was checked or built there."""
    file = name + ".rlib"
    here = os.path.join(TOP, "crates", name, "out", "checked", file)
    there = os.path.join(built, "crates", name, "out")
    places = [here, os.path.join(there, "checked", file), os.path.join(there, "rlib", file)]
    return next((it for it in places if os.path.exists(it)), places[-1])


def main():
    parser = argparse.ArgumentParser(description=__doc__, formatter_class=argparse.RawDescriptionHelpFormatter)
    parser.add_argument("built")
    parser.add_argument("crate")
    parser.add_argument("--only", default=None)
    parser.add_argument("--test", action="store_true")
    parser.add_argument("--fix-imports", action="store_true")
    asked = parser.parse_args()
    crates = dependencies()
    if asked.crate not in crates:
        parser.error(f"crates.txt has no crate {asked.crate}")
    folder = os.path.join(TOP, "crates", asked.crate)
    out = os.path.join(folder, "out", "checked")
    os.makedirs(out, exist_ok=True)
    whole = asked.only is None and not asked.test and not asked.fix_imports
    root = "src/lib.rt" if os.path.exists(os.path.join(folder, "src", "lib.rt")) else "src/main.rt"
    words = [KIT + "/bin/rattle", "build" if whole else "check", "--crate-name", asked.crate, root]
    for name in ["std", *crates[asked.crate]]:
        path = library(asked.built, name) if name in crates else f"{KIT}/rlibs/{name}.rlib"
        words += ["--extern", f"{name}={path}"]
    words += ["-L", f"dependency={KIT}/rlibs"]
    for name in below(asked.crate, crates):
        words += ["-L", "dependency=" + os.path.dirname(library(asked.built, name))]
    words += ["--antt-project", KIT + "/rattle/logic/antt-project.json", "--logic-built", KIT + "/logic_built", "--jobs", "1"]
    if asked.only is not None:
        words += ["--only", asked.only]
    if asked.test:
        words += ["--test"]
    if asked.fix_imports:
        words += ["--fix-imports"]
    elif root == "src/lib.rt":
        words += ["--incremental", os.path.join(out, "kept")]
    if whole:
        words += ["-o", os.path.join(out, asked.crate + ".rlib"), "--toolchain", KIT + "/toolchain"]
    os.chdir(folder)
    os.execv(words[0], words)


if __name__ == "__main__":
    sys.exit(main())
