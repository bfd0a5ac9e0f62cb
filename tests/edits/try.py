#!/usr/bin/env python3
"""Tries the must-fail edits of tests/edits, which the gate does not try: the prover must refuse each.

    python3 tests/edits/try.py                      # all of them, before a release (`make release-check`)
    python3 tests/edits/try.py job_story race_text  # those of these crates, when their contracts have changed
    python3 tests/edits/try.py --read               # only whether each edit can still be applied, also those of the gate; no proof

An edit `tests/edits/CRATE/NAME.edit` has the form of those in `crates/CRATE/must-fail/`: lines `file:`, and then `old:` and `new:`, where
the text after `old:` stands in that file exactly once. The script puts them into a copy of the crates and calls `rt must-fail` there,
crate after crate. That begins with what `rt check`, `rt lib` or `bench/build.py` proved on this machine, so run `bench/build.py` first. The
exit status is 1 if an edit is not refused, or if one cannot be applied.
"""
import argparse
import glob
import os
import shutil
import subprocess
import sys
import tempfile

ROOT = os.path.normpath(os.path.join(os.path.dirname(os.path.abspath(__file__)), "..", ".."))
PARTS = ["src", "specs", "proofs", "stdin", "stdout"]


def fault_of(edit, crate):
    """Why an edit cannot be applied to its crate, or None."""
    with open(edit, encoding="utf-8") as file:
        lines = file.read().splitlines()
    path, texts, pairs = "", {}, 0
    for line in lines:
        key, _, value = line.partition(": ")
        if key == "file":
            path = value
        elif key == "old":
            if path not in texts:
                with open(os.path.join(ROOT, "crates", crate, path), encoding="utf-8") as file:
                    texts[path] = file.read()
            if texts[path].count(value) != 1:
                return f"its old text stands {texts[path].count(value)} times in {path}"
            old = value
        elif key.startswith("new"):
            texts[path], pairs = texts[path].replace(old, value), pairs + 1
    return None if pairs else "it has no pair of old and new texts"


def read_edits():
    """Reads every edit, and returns the exit status."""
    edits = sorted(glob.glob(f"{ROOT}/crates/*/must-fail/*.edit")) + sorted(glob.glob(f"{ROOT}/tests/edits/*/*.edit"))
    faults = 0
    for edit in edits:
        crate = edit.split(os.sep)[-3] if "/must-fail/" in edit else edit.split(os.sep)[-2]
        why = fault_of(edit, crate)
        if why:
            print(f"{os.path.relpath(edit, ROOT)}: {why}")
            faults += 1
    print(f"try.py: {len(edits)} edits, {faults} cannot be applied")
    return 1 if faults else 0


def copy_crates(room):
    """Copies the crates without their must-fail edits and without what was built."""
    for name in ["crates.txt", "HANDLES"]:
        shutil.copy2(os.path.join(ROOT, name), room)
    for crate in os.listdir(os.path.join(ROOT, "crates")):
        for part in PARTS:
            source = os.path.join(ROOT, "crates", crate, part)
            target = os.path.join(room, "crates", crate, part)
            if os.path.isdir(source):
                shutil.copytree(source, target)
            elif os.path.isfile(source):
                shutil.copy2(source, target)


def try_crate(crate, room):
    """Tries the edits of one crate, and returns whether all were refused."""
    target = os.path.join(room, "crates", crate, "must-fail")
    shutil.copytree(os.path.join(ROOT, "tests", "edits", crate), target)
    status = subprocess.run(["rt", "must-fail", crate], cwd=room, check=False).returncode
    shutil.rmtree(target)
    print(f"{crate}: {'each edit was refused' if status == 0 else 'NOT every edit was refused'}", flush=True)
    return status == 0


def main():
    parser = argparse.ArgumentParser(description=__doc__.splitlines()[0])
    parser.add_argument("--read", action="store_true", help="only whether each edit can be applied")
    parser.add_argument("crates", nargs="*", help="the crates whose edits are tried (default: all)")
    given = parser.parse_args()
    if given.read:
        return read_edits()
    have = sorted(os.path.basename(os.path.dirname(it)) for it in {f"{os.path.dirname(it)}/" for it in glob.glob(f"{ROOT}/tests/edits/*/*.edit")})
    unknown = set(given.crates) - set(have)
    if unknown:
        sys.exit(f"try.py: tests/edits has no edit of {', '.join(sorted(unknown))}")
    with tempfile.TemporaryDirectory(prefix="nursery-edits-") as room:
        copy_crates(room)
        missed = [crate for crate in given.crates or have if not try_crate(crate, room)]
    print(f"try.py: {'all edits were refused' if not missed else 'not refused: ' + ', '.join(missed)}")
    return 1 if missed else 0


if __name__ == "__main__":
    sys.exit(main())
