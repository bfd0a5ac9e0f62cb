#!/usr/bin/env python3
"""Proves the crates that the program is made of, side by side, and builds the program.

    python3 bench/build.py                  # builds crates/nursery/out/nursery, and runs its first job
    python3 bench/build.py --lanes 2        # two checks at a time, instead of one for each processor
    python3 bench/build.py job_runner       # a library, and those below it

`rt run` proves one library after the other. This script proves each library of crates.txt as soon as those that it uses are proved, by
the function of the kit's `rt` that `rt lib` calls, and at last calls `rt run`, which finds them proved. Where fewer libraries than
processors are ready, a check takes several processors. What is proved is kept in `out/` of each crate: a second call does only what
changed, and so do `rt check` and `rt must-fail`, with kit 13f in any clone on this machine, and with kit 13b in this one, and in a clone
into which `crates/*/out` were copied. It gives no verdict: only `rt ci` does. Edit nothing while it runs. What a command printed is in
`out/build.log` of the crate.
"""
import argparse
import copy
import functools
import glob
import importlib.machinery
import importlib.util
import os
import shutil
import subprocess
import sys
import time
from concurrent.futures import FIRST_COMPLETED, ThreadPoolExecutor, wait

PROGRAM = "nursery"
MEMORY_OF_A_CHECK = 4_000_000_000


def load_rt():
    """The kit's `rt` as a module."""
    path = os.path.realpath(shutil.which("rt"))
    loader = importlib.machinery.SourceFileLoader("rt", path)
    module = importlib.util.module_from_spec(importlib.util.spec_from_loader("rt", loader))
    loader.exec_module(module)
    return module


rt = load_rt()


def remember(crate_type):
    """Has the checksum of a crate, and the list of those below it, made once: the kit follows each of the 900,000 paths of crates.txt."""
    for name in ("stamp", "below"):
        setattr(crate_type, name, functools.cache(getattr(crate_type, name)))


def weight(crate):
    """About what a crate's proof costs: its functions, which take some seconds each, and as much as ten of them for its start."""
    functions = 10
    for path in glob.glob(f"{crate.folder}/src/**/*.rt", recursive=True):
        with open(path, encoding="utf-8") as source:
            functions += sum("fn " in line and not line.lstrip().startswith("//") for line in source)
    return functions


def heights(crates, own):
    """The weight of the heaviest chain of crates that begins with each one and leads upward."""
    found = dict(own)
    for crate in sorted(crates, key=lambda it: -len(it.below())):
        for lower in crate.deps:
            found[lower.name] = max(found[lower.name], found[crate.name] + own[lower.name])
    return found


def prove(crate, jobs, log):
    """Proves and builds a library with so many processes, and returns the status."""
    crate = copy.copy(crate)
    crate.out = log
    try:
        return crate.build_rlib(["--jobs", str(jobs)], False)
    except SystemExit:
        return 1


def build_program(crate, log):
    """Proves, builds and runs a program, and returns the status."""
    with open(f"{crate.folder}/stdin", "rb") as given:
        return subprocess.run(["rt", "run"], cwd=crate.folder, stdin=given, stdout=log, stderr=subprocess.STDOUT, check=False).returncode


def build(crate, jobs):
    """Proves and builds one crate with so many processes, and returns whether that succeeded."""
    begin, path = time.monotonic(), f"{crate.folder}/out/build.log"
    os.makedirs(os.path.dirname(path), exist_ok=True)
    with open(path, "w+", encoding="utf-8", errors="replace") as log:
        status = build_program(crate, log) if crate.is_program else prove(crate, jobs, log)
    said = "proved and built" if status == 0 else f"FAILED, see {os.path.relpath(path)}"
    print(f"{time.strftime('%H:%M:%S')} {crate.name}: {said}, {time.monotonic() - begin:.0f} s", flush=True)
    return status == 0


def shares(ready, free, lanes, height, left):
    """The crates to begin with, and how many of the free lanes each takes. A crate takes several where the chain that begins with it would
    otherwise take longer than all lanes take for what is left, and where there are fewer crates than lanes."""
    begun = []
    for crate in ready:
        jobs = min(free, max(1, round(height[crate.name] * lanes / left)))
        if jobs > 0:
            begun.append([crate, jobs])
            free -= jobs
    for at in range(free if begun else 0):
        begun[at % len(begun)][1] += 1
    return begun


def build_all(crates, lanes):
    """Builds the crates, each after those below it, and returns whether all could be built."""
    own = {it.name: weight(it) for it in crates}
    height = heights(crates, own)
    left = sorted(crates, key=lambda it: -height[it.name])
    done, running = set(), {}
    with ThreadPoolExecutor(lanes) as pool:
        while left or running:
            ready = [it for it in left if {dep.name for dep in it.deps} <= done]
            free = lanes - sum(jobs for _, jobs in running.values())
            for crate, jobs in shares(ready, free, lanes, height, sum(own[it.name] for it in left)):
                left.remove(crate)
                running[pool.submit(build, crate, jobs)] = crate.name, jobs
            if not running:
                return False
            for ended in wait(running, return_when=FIRST_COMPLETED).done:
                name, _ = running.pop(ended)
                if ended.result():
                    done.add(name)
    return True


def lanes_here():
    """One check for each processor, and for every 4 GB of memory."""
    return max(1, min(len(os.sched_getaffinity(0)), rt.free() // MEMORY_OF_A_CHECK))


def main():
    parser = argparse.ArgumentParser(description=__doc__.splitlines()[0])
    parser.add_argument("--lanes", type=int, default=lanes_here(), help="how many checks at a time")
    parser.add_argument("names", nargs="*", default=[PROGRAM], help="these crates and those below them")
    given = parser.parse_args()
    os.chdir(os.path.join(os.path.dirname(os.path.abspath(__file__)), ".."))
    rt.rtlib.stop, rt.rtlib.Crate = rt.stop, rt.Crate
    remember(rt.Crate)
    rt.Crate.allowed = rt.handles_of(os.getcwd())
    rt.rtlib.guarded()
    if hasattr(rt, "share_work"):  # (kit 13f keeps what passed for other checkouts, too)
        rt.share_work(True)
    crates, begin = rt.rtlib.crates_below(os.getcwd()), time.monotonic()
    asked = [it for it in crates if it.name in given.names]
    wanted = {it.name for it in asked} | {below.name for it in asked for below in it.below()}
    built = build_all([it for it in crates if it.name in wanted], given.lanes)
    print(f"{'built' if built else 'FAILED'} in {(time.monotonic() - begin) / 60:.1f} minutes")
    return 0 if built else 1


if __name__ == "__main__":
    sys.exit(main())
