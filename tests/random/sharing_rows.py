#!/usr/bin/env python3
"""Worked jobs of format 3, and the reports that are kept beside feeds, compared with the model of sharing.py.

    python3 tests/random/sharing_rows.py [FEED..]
    python3 tests/random/sharing_rows.py --trio

Each row has the steps of a job without an input, and its records, which were worked out by hand: start, end and outcome of each task, and its
entries. The feeds are those of format 3 in examples/, tests/events, tests/rounds and tests/sharing, unless some are given. With `--trio`, which wants Trio, each
row is run in plain Trio too (against_trio.py), and its records have to be the only outcome under eight seeds. Rows that begin with `race` may
have others, and those that begin with `own` have steps that Trio does not have.
"""

import argparse
import glob
import os
import sys

import sharing
from reading import Reader

ROOT = os.path.join(os.path.dirname(os.path.abspath(__file__)), "..", "..")
FOLDERS = ["examples", "tests/events", "tests/rounds", "tests/sharing"]

ROWS = [
    (
        "a sibling fails",
        "nursery n { start a { sleep 4; raise X; } start b { try { forever; } finally { scope f after 5 shield { sleep 3; } } } }",
        ["main 0 7 raised n[X(a@4)] [nursery n 7 caught]", "a 0 4 raised X(a@4)", "b 0 7 cancelled [scope f 7 passed]"],
    ),
    (
        "a deadline beside a sleep of the same length",
        "scope s after 3 { sleep 3; }",
        ["main 0 3 done [scope s 3 caught]"],
    ),
    (
        "a cancelled task cleans up in the same tick",
        "nursery n { start a { sleep 2; cancel n; } start b { try { forever; } except X { } finally { checkpoint; } } }",
        ["main 0 2 done [nursery n 2 caught]", "a 0 2 done", "b 0 2 cancelled"],
    ),
    (
        "its own cancel, no checkpoint after it",
        "scope s { cancel s; }",
        ["main 0 0 done [scope s 0 passed]"],
    ),
    (
        "its own cancel, then a checkpoint",
        "scope s { cancel s; checkpoint; }",
        ["main 0 0 done [scope s 0 caught]"],
    ),
    (
        "its own cancel of what is outside, where a scope is left",
        "scope a { scope b after 1 { try { forever; } finally { cancel a; } } }",
        ["main 0 1 done [scope b 1 passed, scope a 1 caught]"],
    ),
    (
        "a deadline that is over on entry",
        "scope s after 0 { sleep 5; }",
        ["main 0 0 done [scope s 0 caught]"],
    ),
    (
        "a deadline that is over on entry, no checkpoint",
        "scope s after 0 { raise X; }",
        ["main 0 0 raised X(main@0) [scope s 0 passed]"],
    ),
    (
        "a deeper task starts a round later",
        "nursery n { start a { checkpoint; raise X; } start b { nursery m { start c { checkpoint; raise Y; } } } }",
        [
            "main 0 0 raised n[X(a@0)] [nursery n 0 caught]",
            "a 0 0 raised X(a@0)",
            "b 0 0 raised m[Cancelled] [nursery m 0 passed]",
            "c 0 0 cancelled",
        ],
    ),
    (
        "checkpoints count rounds",
        "nursery n { start a { checkpoint; checkpoint; cancel n; } start b { checkpoint; raise X; } }",
        ["main 0 0 raised n[X(b@0)] [nursery n 0 caught]", "a 0 0 cancelled", "b 0 0 raised X(b@0)"],
    ),
    (
        "a fallback beside a deadline",
        "try { scope first after 5 fail { sleep 6; } } except TooSlow { scope second after 5 { sleep 4; } }",
        ["main 0 9 done [scope first 5 caught, scope second 9 passed]"],
    ),
    (
        "event: readiness",
        "event up { nursery n { start server { sleep 3; set up; sleep 2; } start client over 2 { wait up; sleep 1; } } }",
        ["main 0 5 done [nursery n 5 passed]", "server 0 5 done", "client.0 0 4 done [wait up 3]", "client.1 0 4 done [wait up 3]"],
    ),
    (
        "event: it is set already",
        "event e { set e; wait e; wait e; sleep 1; wait e; }",
        ["main 0 1 done [wait e 0, wait e 0, wait e 1]"],
    ),
    (
        "event: a deadline in the tick of the set",
        "event e { nursery n { start a { sleep 3; set e; } scope s after 3 { wait e; } } }",
        ["main 0 3 done [scope s 3 caught, nursery n 3 passed]", "a 0 3 done"],
    ),
    (
        "event: two hops in one tick",
        "event e { event f { nursery n { start a { wait e; set f; } start b { wait f; } set e; } } }",
        ["main 0 0 done [nursery n 0 passed]", "a 0 0 done [wait e 0]", "b 0 0 done [wait f 0]"],
    ),
    (
        "event: a graceful stop",
        "event stop { nursery n { start worker over 2 { nursery body { start beat { repeat 100 { sleep 3; } } wait stop; cancel body; } sleep 1; } "
        "start signal { sleep 7; set stop; } } }",
        [
            "main 0 8 done [nursery n 8 passed]",
            "worker.0 0 8 done [wait stop 7, nursery body.0 7 caught]",
            "beat.0 0 7 cancelled",
            "worker.1 0 8 done [wait stop 7, nursery body.1 7 caught]",
            "beat.1 0 7 cancelled",
            "signal 0 7 done",
        ],
    ),
    (
        "event: the waiter is cancelled",
        "event e { nursery n after 2 { start a { wait e; } } }",
        ["main 0 2 done [nursery n 2 caught]", "a 0 2 cancelled"],
    ),
    (
        "event: one for each pass",
        "repeat 2 { event e { nursery n { start a { sleep 1; set e; } wait e; } } }",
        ["main 0 2 done [wait e.0 1, nursery n.0 1 passed, wait e.1 2, nursery n.1 2 passed]", "a.0 0 1 done", "a.1 1 2 done"],
    ),
    (
        "event: hedged requests",
        "event won { nursery n { start first { sleep 5; set won; } start second { sleep 2; sleep 4; set won; } wait won; cancel n; } }",
        ["main 0 5 done [wait won 5, nursery n 5 caught]", "first 0 5 done", "second 0 5 cancelled"],
    ),
    (
        "starts in a loop",
        "nursery serve { repeat 3 { start handler { scope patience after 3 { sleep 4; } } sleep 2; } }",
        [
            "main 0 7 done [nursery serve 7 passed]",
            "handler.0 0 3 done [scope patience.0 3 caught]",
            "handler.1 2 5 done [scope patience.1 5 caught]",
            "handler.2 4 7 done [scope patience.2 7 caught]",
        ],
    ),
    (
        "starts in a loop, over cuts",
        "nursery n { repeat 2 { start t over 2 { sleep 1; } sleep 3; } }",
        ["main 0 6 done [nursery n 6 passed]", "t.0.0 0 1 done", "t.0.1 0 1 done", "t.1.0 3 4 done", "t.1.1 3 4 done"],
    ),
    (
        "a failing handler stops the loop",
        "nursery serve { repeat 5 { start handler { sleep 3; raise X; } sleep 2; } }",
        ["main 0 3 raised serve[X(handler.0@3)] [nursery serve 3 caught]", "handler.0 0 3 raised X(handler.0@3)", "handler.1 2 3 cancelled"],
    ),
    (
        "limiter: two tokens, three clients",
        "limiter pool 2 { nursery n { start a { acquire pool { sleep 4; } } start b { sleep 1; acquire pool { sleep 4; } } start c { sleep 2; "
        "acquire pool { sleep 1; } } } }",
        ["main 0 5 done [nursery n 5 passed]", "a 0 4 done [acquire pool 0]", "b 0 5 done [acquire pool 1]", "c 0 5 done [acquire pool 4]"],
    ),
    (
        "limiter: one gives up, the next gets the token",
        "limiter l 1 { nursery n { start a { acquire l { sleep 3; } } start b { sleep 1; scope s after 1 { acquire l { } } } start c { sleep 2; "
        "acquire l { } } } }",
        ["main 0 3 done [nursery n 3 passed]", "a 0 3 done [acquire l 0]", "b 0 2 done [scope s 2 caught]", "c 0 3 done [acquire l 3]"],
    ),
    (
        "limiter: a deadline in the tick of the release",
        "limiter l 1 { nursery n { start a { acquire l { sleep 3; } } start b { sleep 1; scope s after 2 { acquire l { } } } } }",
        ["main 0 3 done [nursery n 3 passed]", "a 0 3 done [acquire l 0]", "b 0 3 done [scope s 3 caught]"],
    ),
    (
        "limiter: a cancelled holder gives its token back",
        "limiter l 1 { nursery n { start a { scope s after 2 { acquire l { forever; } } } start b { sleep 1; acquire l { sleep 1; } } } }",
        ["main 0 3 done [nursery n 3 passed]", "a 0 2 done [acquire l 0, scope s 2 caught]", "b 0 3 done [acquire l 2]"],
    ),
    (
        "limiter: cancelled before it asks",
        "limiter l 1 { scope s after 0 { acquire l { } } acquire l { } }",
        ["main 0 0 done [scope s 0 caught, acquire l 0]"],
    ),
    (
        "limiters: a deadlock with a way out",
        "limiter a 1 { limiter b 1 { nursery n { start left { acquire a { sleep 1; scope s after 4 { acquire b { } } } } start right { acquire b { "
        "sleep 2; acquire a { sleep 1; } } } } } }",
        ["main 0 6 done [nursery n 6 passed]", "left 0 5 done [acquire a 0, scope s 5 caught]", "right 0 6 done [acquire b 0, acquire a 5]"],
    ),
    (
        "channel: back-pressure",
        "channel q 1 { nursery n { start producer { repeat 4 { sleep 1; send q; } close q; } start consumer { try { repeat 9 { receive q { sleep 3; "
        "} } } except EndOfChannel { } } } }",
        [
            "main 0 13 done [nursery n 13 passed]",
            "producer 0 7 done [send q 1, send q 2, send q 4, send q 7]",
            "consumer 0 13 done [receive q 1, receive q 4, receive q 7, receive q 10]",
        ],
    ),
    (
        "channel: a rendezvous",
        "channel q 0 { nursery n { start s { send q; sleep 1; } start r { sleep 5; receive q { } } } }",
        ["main 0 6 done [nursery n 6 passed]", "s 0 6 done [send q 5]", "r 0 5 done [receive q 5]"],
    ),
    (
        "channel: closed while a receiver waits",
        "channel q 0 { nursery n { start r { receive q { } } start s { sleep 1; close q; } } }",
        ["main 0 1 raised n[EndOfChannel(r@1)] [nursery n 1 passed]", "r 0 1 raised EndOfChannel(r@1)", "s 0 1 done"],
    ),
    (
        "channel: what is in the buffer is still received",
        "channel q 2 { send q; send q; close q; receive q { } receive q { } try { receive q { } } except EndOfChannel { } }",
        ["main 0 0 done [send q 0, send q 0, receive q 0, receive q 0]"],
    ),
    (
        "channel: send after close",
        "channel q 1 { close q; send q; }",
        ["main 0 0 raised ClosedResource(main@0)"],
    ),
    (
        "channel: a receiver is cancelled",
        "channel q 0 { nursery n { start r { scope s after 2 { receive q { } } } sleep 3; scope t after 2 { send q; } } }",
        ["main 0 5 done [scope t 5 caught, nursery n 5 passed]", "r 0 2 done [scope s 2 caught]"],
    ),
    (
        "its own cancel, then a token",
        "limiter l 1{nursery n{cancel n;acquire l{}}}",
        ["main 0 0 done [nursery n 0 caught]"],
    ),
    (
        "its own cancel outside a shield",
        "channel q 2{nursery n{start a{cancel n;scope s shield{send q;}}}}",
        ["main 0 0 done [nursery n 0 passed]", "a 0 0 done [send q 0, scope s 0 passed]"],
    ),
    (
        "a token, cancelled from outside",
        "limiter l 1{nursery n{start a{acquire l{}}raise X;}}",
        ["main 0 0 raised n[X(main@0)] [nursery n 0 caught]", "a 0 0 cancelled"],
    ),
    (
        "cancelled before it asks, two rounds",
        "channel q 0{nursery n{start a{scope s after 0{receive q{}}}checkpoint;raise X;}}",
        ["main 0 0 raised n[X(main@0)] [nursery n 0 caught]", "a 0 0 cancelled [scope s 0 passed]"],
    ),
    (
        "a queue is left before the acts of the round",
        "channel q 0{nursery n after 2{start a{scope s at 1{receive q{}}send q;}}}",
        ["main 0 2 done [nursery n 2 caught]", "a 0 2 cancelled [scope s 1 caught]"],
    ),
    (
        "race: the root acts first",
        "channel q 2{nursery n{start a{send q;}checkpoint;close q;}}",
        ["main 0 0 raised n[ClosedResource(a@0)] [nursery n 0 passed]", "a 0 0 raised ClosedResource(a@0)"],
    ),
    (
        "race: close is an act",
        "channel q 1{nursery n{start a{send q;}start b{close q;}}}",
        ["main 0 0 done [nursery n 0 passed]", "a 0 0 done [send q 0]", "b 0 0 done"],
    ),
    (
        "event: set, and a deadline that is over",
        "event e{set e;scope s after 0{wait e;}}",
        ["main 0 0 done [scope s 0 caught]"],
    ),
    (
        "race: set and cancelled in one round",
        "event e{nursery n{start a{wait e;}start b{checkpoint;cancel n;}checkpoint;checkpoint;set e;}}",
        ["main 0 0 done [nursery n 0 passed]", "a 0 0 done [wait e 0]", "b 0 0 done"],
    ),
    (
        "a checkpoint cancelled by a deadline, a member fails",
        "nursery n{start a{raise X;}scope s at 0{checkpoint;}}",
        ["main 0 0 raised n[X(a@0)] [scope s 0 passed, nursery n 0 caught]", "a 0 0 raised X(a@0)"],
    ),
    (
        "own: a pace of no tick takes one round where it is cancelled",
        "nursery n{start a{scope s after 0{pace 2;}}start b{checkpoint;raise X;}}",
        ["main 0 0 raised n[X(b@0)] [nursery n 0 passed]", "a 0 0 done [scope s 0 caught]", "b 0 0 raised X(b@0)"],
    ),
    (
        "its own cancel, then pace",
        "nursery n{cancel n;pace 1;}",
        ["main 0 0 done [nursery n 0 caught]"],
    ),
    (
        "race: who gets the token",
        "limiter l 1 { nursery n { start t over 3 { acquire l { sleep 1; } } } }",
        ["main 0 3 done [nursery n 3 passed]", "t.0 0 1 done [acquire l 0]", "t.1 0 2 done [acquire l 1]", "t.2 0 3 done [acquire l 2]"],
    ),
    (
        "race: both fail in one round",
        "nursery n { start a { sleep 1; raise X; } start b { sleep 1; raise Y; } }",
        ["main 0 1 raised n[X(a@1), Y(b@1)] [nursery n 1 passed]", "a 0 1 raised X(a@1)", "b 0 1 raised Y(b@1)"],
    ),
]


def records_of(report):
    """The records of a report, each with its entries in brackets."""
    records, entries = [], []
    for line in report.splitlines()[1:]:
        if line.startswith("task "):
            records.append(line.removeprefix("task "))
            entries.append([])
        else:
            entries[-1].append(line.strip())
    return [record + f" [{', '.join(noted)}]" * bool(noted) for record, noted in zip(records, entries)]


def row_is_right(row):
    what, steps, records = row
    found = records_of(sharing.run_of_text(f"{sharing.FIRST_LINE}job main {{ {steps} }}", b"").report())
    if found != records:
        print(f"{what}: {found}\ninstead of {records}")
    return found == records


def feed_is_right(feed):
    with open(feed.removesuffix(".feed") + ".report", encoding="ascii") as file:
        right = file.read() == sharing.report_of_feed(feed)
    if not right:
        print(f"{feed} has another report")
    return right


def row_is_that_of_trio(row):
    """Whether Trio has one outcome, which is the row's, unless it is one that may have several."""
    import against_trio

    what, steps, records = row
    against_trio.INPUT = b""
    found = against_trio.in_plain_trio(Reader(f"job main {{ {steps} }}").job()[1])
    right = what.startswith(("race", "own")) or [records_of(told) for told in found] == [records]
    if not right:
        print(f"{what}: in Trio", *found, sep="\n")
    return right


def is_of_format_3(feed):
    with open(feed, "rb") as file:
        return file.read().startswith(sharing.FIRST_LINE.encode())


def main():
    words = argparse.ArgumentParser()
    words.add_argument("feeds", nargs="*")
    words.add_argument("--trio", action="store_true")
    given = words.parse_args()
    kept = [feed for folder in FOLDERS for feed in sorted(glob.glob(f"{ROOT}/{folder}/*.feed")) if is_of_format_3(feed)]
    rows = [row_is_right(row) for row in ROWS]
    feeds = [feed_is_right(feed) for feed in given.feeds or kept]
    print(f"{sum(rows)} of {len(rows)} rows and {sum(feeds)} of {len(feeds)} feeds are right")
    in_trio = [row_is_that_of_trio(row) for row in ROWS] if given.trio else []
    if given.trio:
        print(f"{sum(in_trio)} of {len(in_trio)} rows are Trio's only outcome, or may have others")
    return 0 if all(rows + feeds + in_trio) else 1


if __name__ == "__main__":
    sys.exit(main())
