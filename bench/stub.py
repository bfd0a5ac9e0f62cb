#!/usr/bin/env python3
"""Turns a crate of a throwaway clone into a stub, so that the crates above it can be checked before it is proved.

    python3 bench/stub.py CLONE CRATE                       # its public functions with their contracts, and no lemma
    python3 bench/stub.py CLONE CRATE Stacked StateLemmas   # with these files of its proofs, and what they import must be among them

Types, specs and contracts stay. Each public function has a body that calls a C function whose contract is false, so that every contract
proves; private functions and all other proofs go. `bench/check.py` in the clone then builds the stub's library, and checks the crates above
it against the contracts that the crate will have. It is for work in progress alone: the verdict on the stub names the C function that is assumed, and
what was checked above it has to be checked again above the crate itself. CLONE must be another checkout, since its files are changed.
"""
import argparse
import os
import re
import shutil
import sys

TOP = os.path.dirname(os.path.dirname(os.path.abspath(__file__)))
FALSE_FILE = 'unsafe extern "C" {\n    pub(crate) safe fn stub_false()\n        ensures { ⊥ };\n}\n'
FUNCTION = re.compile(r"^(\s*)(pub(?:\(crate\)|\(super\))? )?(?:const )?fn \w")


def signature(lines, at, indent):
    """The lines of a signature with its clauses, and the line after the function."""
    kept = []
    while True:
        line = lines[at]
        at += 1
        if line == indent + "{":
            break
        is_clause = re.match(r"^\s*(requires|ensures)", line)
        if line.endswith("{}") and not is_clause:
            return kept + ([] if line == indent + "{}" else [line[:-2].rstrip()]), at
        if line.endswith(" {") and not is_clause and re.match(r"^\s*(pub|fn|\)|where|const)", line):
            kept.append(line[:-2])
            break
        kept.append(line)
    return kept, lines.index(indent + "}", at) + 1


def without_bodies(lines):
    """The lines of a file, where each function that others can call has a stub for a body, and the others are gone."""
    out, at, of_trait = [], 0, False
    while at < len(lines):
        if re.match(r"^(pub )?trait ", lines[at]):
            # a trait has no bodies
            end = lines.index("}", at) + 1
            out += lines[at:end]
            at = end
            continue
        found = FUNCTION.match(lines[at])
        if not found:
            if lines[at].startswith("impl"):
                of_trait = " for " in lines[at]
            out.append(lines[at])
            at += 1
            continue
        head = []
        while out and re.match(r"^\s*(//|#\[)", out[-1]):
            head.insert(0, out.pop())
        indent = found.group(1)
        kept, at = signature(lines, at, indent)
        if found.group(2) != "pub " and not of_trait:
            continue
        returns = any("->" in it for it in kept if not re.match(r"^\s*(requires|ensures)", it))
        body = ["{", "    crate::stub_c::stub_false();"] + (["    unreachable!()"] if returns else []) + ["}"]
        # what an attribute says of the proof, or of a cycle of calls, is not so of a stub
        out += [it for it in head if "///" in it or ("#[" in it and not re.match(r"^\s*#\[(tactic|cycle)\b", it))]
        out += kept + [indent + it for it in body]
    return out


def used(line, code):
    """A `use` line with the types that the code names, or none; functions are not called any more."""
    many = re.match(r"^(\s*)use ([\w:]+)::\{(.*)\};$", line)
    one = re.match(r"^\s*use [\w:]*?(\w+)(?: as (\w+))?;$", line)
    if many:
        names = [it for it in many.group(3).split(", ") if it[0].isupper() and re.search(rf"\b{it.split(' as ')[-1]}\b", code)]
        inside = names[0] if len(names) == 1 else "{" + ", ".join(names) + "}"
        return f"{many.group(1)}use {many.group(2)}::{inside};" if names else None
    if one and "::" in line and (one.group(1)[0].islower() or not re.search(rf"\b{one.group(2) or one.group(1)}\b", code)):
        return None
    return line


def stub_source(path):
    """Replaces the bodies in one file of a crate's source."""
    with open(path, encoding="utf-8") as file:
        # a list of names over several lines becomes one line
        text = re.sub(r"(?m)^(\s*use [\w:]+::\{)([^}]*)\};", lambda it: it[1] + ", ".join(re.findall(r"\w[\w ]*", it[2])) + "};", file.read())
    text = "\n".join(without_bodies(text.split("\n")))
    text = re.sub(r"\nimpl[^\n]*\{\n(\s*ghost use [^\n]*\n|\s*\n)*\}\n", "\n", text)
    if os.path.basename(path) == "lib.rt":
        text += "\nmod stub_c;\n"
    code = "\n".join(it for it in text.split("\n") if not re.match(r"^\s*((ghost )?(pub )?use |//)", it))
    with open(path, "w", encoding="utf-8") as file:
        file.write("\n".join(it for it in (used(it, code) for it in text.split("\n")) if it is not None))


def stub_proofs(folder, kept):
    """Removes the proofs of a crate but for some lemma files."""
    for name in os.listdir(folder):
        path = os.path.join(folder, name)
        if os.path.isdir(path):
            shutil.rmtree(path)
        elif name != "Lib.antt" and name.removesuffix(".antt") not in kept:
            os.remove(path)
    lib = os.path.join(folder, "Lib.antt")
    if not os.path.exists(lib):
        return
    with open(lib, encoding="utf-8") as file:
        lines = [it for it in file if "mod " not in it or it.split()[-1] in kept]
    with open(lib, "w", encoding="utf-8") as file:
        file.writelines(lines)


def main():
    parser = argparse.ArgumentParser(description=__doc__, formatter_class=argparse.RawDescriptionHelpFormatter)
    parser.add_argument("clone")
    parser.add_argument("crate")
    parser.add_argument("kept", nargs="*")
    given = parser.parse_args()
    if os.path.realpath(given.clone) == os.path.realpath(TOP):
        parser.error("CLONE is this checkout, and its files would be changed")
    crate = os.path.join(given.clone, "crates", given.crate)
    source = os.path.join(crate, "src")
    for folder, _, names in os.walk(source):
        for name in names:
            stub_source(os.path.join(folder, name))
    with open(os.path.join(source, "stub_c.rt"), "w", encoding="utf-8") as file:
        file.write(FALSE_FILE)
    if os.path.isdir(os.path.join(crate, "proofs")):
        stub_proofs(os.path.join(crate, "proofs"), given.kept)


if __name__ == "__main__":
    sys.exit(main())
