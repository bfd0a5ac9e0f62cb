#!/usr/bin/env python3
"""Interrupts commands that replace files, and breaks off the input that a command reads.

    python3 tests/shortage/interrupted.py PROGRAM [TIMES]

TIMES times (60 without the word) `fmt --write` and `test --accept` are ended by SIGINT at some moment of their run. Each file is
then the old one or the new one, whole; what else lies in the folder is a file under a new name, which the next run leaves alone;
and that run still does its work. Then a terminal hangs up in the middle of the input: the read fails, and the command says so and
writes nothing.
"""
import os
import random
import signal
import subprocess
import sys
import tempfile
import time

STEPS = 600
OLD = b"trio-job 2\njob main {" + b"sleep 1;" * STEPS + b"}\n"
FEEDS = 12


def write(path, data):
    with open(path, "wb") as file:
        file.write(data)


def read(path):
    with open(path, "rb") as file:
        return file.read()


def interrupt(command, folder, longest, chance):
    """Starts the command, and interrupts it after at most so many seconds."""
    process = subprocess.Popen(command, cwd=folder, stdout=subprocess.DEVNULL, stderr=subprocess.DEVNULL)
    time.sleep(chance.random() * longest)
    process.send_signal(signal.SIGINT)
    process.wait()


def seconds(command, folder):
    begin = time.perf_counter()
    subprocess.run(command, cwd=folder, stdout=subprocess.DEVNULL, stderr=subprocess.DEVNULL)
    return time.perf_counter() - begin


def whole(path, allowed, what):
    if read(path) not in allowed:
        raise SystemExit(f"{what}: {os.path.basename(path)} is neither the old file nor the new one")


def formatted(program, times, chance):
    """`fmt --write` on one file."""
    with tempfile.TemporaryDirectory() as folder:
        path = os.path.join(folder, "w.job")
        write(path, OLD)
        new = subprocess.run([program, "fmt", "w.job"], cwd=folder, capture_output=True).stdout
        command = [program, "fmt", "--write", "w.job"]
        longest = 1.5 * seconds(command, folder)
        for _ in range(times):
            write(path, OLD)
            interrupt(command, folder, longest, chance)
            whole(path, (OLD, new), "fmt --write")
        write(path, OLD)
        subprocess.run(command, cwd=folder, check=True)
        whole(path, (new,), "fmt --write after interruptions")


def accepted(program, times, chance):
    """`test --accept` on a folder of feeds, each with a report that is kept."""
    with tempfile.TemporaryDirectory() as folder:
        command = [program, "test", "--accept", "."]
        reports = [os.path.join(folder, f"f{i}.report") for i in range(FEEDS)]
        old = b"job main 7\n"

        def begin():
            for i, report in enumerate(reports):
                write(os.path.join(folder, f"f{i}.feed"), b"trio-job 1\njob main { sleep %d; }\n%%input\n" % i)
                write(report, old)

        begin()
        longest = 1.5 * seconds(command, folder)
        new = [read(report) for report in reports]
        if old in new:
            raise SystemExit("test --accept: a report was not replaced")
        for _ in range(times):
            begin()
            interrupt(command, folder, longest, chance)
            for report, text in zip(reports, new):
                whole(report, (old, text), "test --accept")
        begin()
        subprocess.run(command, cwd=folder, stdout=subprocess.DEVNULL)
        for report, text in zip(reports, new):
            whole(report, (text,), "test --accept after interruptions")


def hung_up(program):
    """A terminal that hangs up after some bytes of the input: the next read fails."""
    with tempfile.TemporaryDirectory() as folder:
        write(os.path.join(folder, "a.job"), b'trio-job 1\njob main { find "e"; }\n')
        for words in (["run", "a.job"], ["run", "a.job", "--json"], ["explain", "a.job"], ["faults", "a.job"]):
            ours, theirs = os.openpty()
            name = os.ttyname(theirs)
            command = [program, *(words[:2] + [name] + words[2:])]
            process = subprocess.Popen(command, cwd=folder, stdin=subprocess.DEVNULL, stdout=subprocess.PIPE, stderr=subprocess.PIPE)
            os.write(ours, b"some bytes\n")
            time.sleep(0.3)
            os.close(ours)
            os.close(theirs)
            out, err = process.communicate(timeout=20)
            if process.returncode != 4 or out or not err.startswith(b"cannot read the input file\n"):
                raise SystemExit(f"{words}: status {process.returncode}, {out!r}, {err!r}")


def main():
    program = os.path.abspath(sys.argv[1])
    times = int(sys.argv[2]) if len(sys.argv) > 2 else 60
    chance = random.Random(1)
    formatted(program, times, chance)
    accepted(program, times, chance)
    hung_up(program)
    print(f"interrupted.py: {2 * times} interruptions, 4 inputs broken off")


if __name__ == "__main__":
    main()
