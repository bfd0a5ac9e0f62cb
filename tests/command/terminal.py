"""`nursery` at a real terminal.

With no words it says in one line on standard error what it waits for, and serves what is typed. `faults`, `races` and `sweep` show their progress
on standard error from the first second on, and clear it at the end; where standard error is no terminal they show none.

    python3 tests/command/terminal.py PROGRAM

It wants Python's standard library alone. From a pipe or a file nothing is said: command.sh compares that standard error.
"""

import os
import pty
import re
import subprocess
import sys
import tempfile

FEED = b'trio-job 1\njob main { find "er"; }\n%input\nerror\nok\n'
AWAITED = b"reading a feed: a job text, a line `%input`, the input, and Ctrl-D after it (see --help)\n"
REPORT = b"job main 0\ntask main 0 0 done\n  line 0+5 error\n"


def typed(program, text):
    """What the program writes to standard output and error, and its status, where the text is typed at a terminal and ended by Ctrl-D."""
    keyboard, terminal = pty.openpty()
    with tempfile.TemporaryFile() as out, tempfile.TemporaryFile() as err:
        child = subprocess.Popen([program], stdin=terminal, stdout=out, stderr=err)
        os.close(terminal)
        os.write(keyboard, text + b"\x04")
        status = child.wait(60)
        os.close(keyboard)
        out.seek(0)
        err.seek(0)
        return out.read(), err.read(), status


# What a sweep of this job writes. A value takes the program a tenth of a second to half a second.
LOOPS = b"trio-job 2\njob main { sleep 1; repeat 1000 { repeat 400 { checkpoint; } } }\n"
VALUES = "1..40"
SWEPT = b"as it is  done, ends 1\n1..40     done, ends 1..40\n40 values: 0 stuck, 0 cut a cleanup\n"

# A line of progress: the line is cleared first.
CLEAR = rb"\r\x1b\[K"
SHOWN = re.compile(rb"(?:" + CLEAR + rb"\d+ runs done\r)+" + CLEAR)


def screen_after(told):
    """The lines that a terminal shows after these bytes: text is written over text, and `ESC [ K` clears the rest of a line."""
    lines, column = [""], 0
    for part in re.findall(r"\x1b\[K|\r|\n|[^\x1b\r\n]+", told.decode()):
        if part == "\x1b[K":
            lines[-1] = lines[-1][:column]
        elif part == "\n":
            lines.append("")
        elif part == "\r":
            column = 0
        else:
            lines[-1] = lines[-1][:column] + part + lines[-1][column + len(part) :]
            column += len(part)
    return lines


def swept_on_one_screen(program, job):
    """What a terminal gets that is standard output and standard error of a sweep."""
    screen, terminal = pty.openpty()
    words = [program, "sweep", job, "--at", "2:18", "--values", VALUES]
    child = subprocess.Popen(words, stdin=subprocess.DEVNULL, stdout=terminal, stderr=terminal)
    os.close(terminal)
    told = read_all(screen)
    child.wait(100)
    return told


def shown(program, job, terminal):
    """What a sweep writes to standard output and to standard error, which is a terminal or a file."""
    screen, err = pty.openpty() if terminal else (None, None)
    with tempfile.TemporaryFile() as out, tempfile.TemporaryFile() as file:
        words = [program, "sweep", job, "--at", "2:18", "--values", VALUES]
        child = subprocess.Popen(words, stdin=subprocess.DEVNULL, stdout=out, stderr=err if terminal else file)
        told = b""
        if terminal:
            os.close(err)
            told = read_all(screen)
        child.wait(100)
        out.seek(0)
        file.seek(0)
        return out.read(), told + file.read()


def read_all(screen):
    """What is written to a terminal until its last writer has closed it."""
    told = b""
    while True:
        try:
            part = os.read(screen, 4096)
        except OSError:
            part = b""
        if not part:
            os.close(screen)
            return told
        told += part


def main():
    program = os.path.abspath(sys.argv[1])
    got = typed(program, FEED)
    if got != (REPORT, AWAITED, 0):
        sys.exit(f"terminal.py: {got}")
    with tempfile.TemporaryDirectory() as folder:
        job = os.path.join(folder, "loops.job")
        with open(job, "wb") as file:
            file.write(LOOPS)
        got = shown(program, job, False)
        if got != (SWEPT, b""):
            sys.exit(f"terminal.py: a sweep into a file: {got}")
        out, told = shown(program, job, True)
        if out != SWEPT or not SHOWN.fullmatch(told):
            sys.exit(f"terminal.py: a sweep at a terminal: {out}, {told}")
        told = swept_on_one_screen(program, job)
        if b" runs done" not in told or screen_after(told) != SWEPT.decode().split("\n"):
            sys.exit(f"terminal.py: a sweep that is all at a terminal: {told}")
    print("terminal.py: a feed typed at a terminal is awaited, and answered; a sweep shows its progress")


if __name__ == "__main__":
    main()
