#!/usr/bin/env python3
"""Reads the JSON documents of random jobs with Python's parser, and compares them with what is written without `--json`.

    python3 tests/random/random_json.py PROGRAM [JOBS [SEED]]

PROGRAM is the built executable. From the document of `run --json` the report is written here, and has to be the one that `run` writes, to the byte. The events of
`explain --json` have to be those of the story, in its order, each with the story's tick and task, a word for what happened, and what its line names. Refused texts
and limits have their documents, and each status is that of the command without `--json`.
"""

import json
import os
import re
import subprocess
import sys
import tempfile
from concurrent.futures import ThreadPoolExecutor

from jobs import job_of_any_format, random_job

INPUT = b'error\nok\n\x00"\\ er\nlong line here\n'
LIMIT = "60"
# How the line of each event begins.
WORDS = {
    "starts": "starts",
    "enters": "enters",
    "enters_event": "enters event",
    "sleeps": "sleeps",
    "cancelled": "is cancelled",
    "finds": "finds",
    "misses": "finds no line and raises",
    "raises": "raises",
    "cancels": "cancels",
    "sets": "sets event",
    "waits_for_event": "waits for event",
    "goes_on": "goes on: event",
    "enters_limiter": "enters limiter",
    "enters_channel": "enters channel",
    "queues": "waits",
    "is_granted": ("gets a token of", "sends to", "receives from"),
    "finds_closed": "finds",
    "deadlocks": "has waited",
    "gives_token_back": "gives its token of",
    "closes": "closes",
    "handles": "handles",
    "cleanup": "runs cleanup",
    "replaces": "replaces",
    "waits": "waits for nursery",
    "leaves": "leaves",
    "ends": "ends",
}


class Wrong(Exception):
    """What was found, in one sentence."""


def exception_text(exception):
    if "cancelled" in exception:
        return "Cancelled"
    if "raised" in exception:
        return f"{exception['raised']}({exception['task']}@{exception['tick']})"
    if "too_slow" in exception:
        return f"TooSlow({exception['too_slow']}@{exception['tick']})"
    return f"{exception['group']}[{', '.join(map(exception_text, exception['parts']))}]"


def entry_text(entry):
    if "line" in entry:
        line = entry["line"]
        return f"  line {line['at']}+{line['length']} {line['text']}"
    for word in ("wait", "acquire", "send", "receive"):
        if word in entry:
            return f"  {word} {entry[word]} {entry['tick']}"
    kind = "scope" if "scope" in entry else "nursery"
    return f"  {kind} {entry[kind]} {entry['exit']} {'caught' if entry['caught'] else 'passed'}"


def report_of(document):
    """The report that says the same."""
    lines = [f"job {document['job']} {document['end']}"]
    for task in document["tasks"]:
        outcome = task["outcome"]
        if outcome == "raised":
            outcome = f"raised {exception_text(task['exception'])}"
        elif (task["exception"] is None) != (outcome == "done"):
            raise Wrong(f"task {task['task']} is {outcome}, with the exception {task['exception']}")
        lines.append(f"task {task['task']} {task['start']} {task['end']} {outcome}")
        lines += map(entry_text, task["entries"])
    return "".join(line + "\n" for line in lines)


def story_of(text):
    """The events of a story as (tick, task, sentence), its limit, and the tasks that run there."""
    events, running, tick, limit = [], [], 0, None
    for line in text.splitlines():
        if line.startswith("tick "):
            tick = int(line[5:])
        elif line.startswith("limit "):
            limit = int(line[6:])
        elif not line.startswith("deadlock: "):
            task, sentence = re.fullmatch(r"  (\S+) +(.*)", line).groups()
            (events if limit is None else running).append((tick, task, sentence))
    return events, limit, [task for _, task, _ in running]


def run(program, *words):
    done = subprocess.run([program, *words], capture_output=True)
    return done.returncode, done.stdout.decode("ascii")


def compare_story(document, text):
    events, limit, running = story_of(text)
    if (document["limit"], [one["task"] for one in document["running"]]) != (limit, running):
        raise Wrong(f"the story is cut at {document['limit']}, where {document['running']} run")
    if len(document["events"]) != len(events):
        raise Wrong(f"{len(document['events'])} events, and {len(events)} in the story")
    for event, (tick, task, sentence) in zip(document["events"], events):
        if (event["tick"], event["task"]) != (tick, task) or not sentence.startswith(WORDS[event["event"]]):
            raise Wrong(f"{event} is printed as: tick {tick}, {task} {sentence}")
        for key in ("scope", "nursery", "name", "by", "label", "waiting_for", "before_asking"):
            named = event.get(key)
            if named and not re.search(rf"(?<!\S){re.escape(named)}(?![\w.])", sentence) and event["event"] != "ends":
                raise Wrong(f"{event} names {named}, and the story does not: {sentence}")


def text_of(seed):
    """The text of a random job, every fourth with limiters and channels."""
    return random_job(seed, 3, True)[1] if seed % 4 == 0 else job_of_any_format(seed)[1]


def try_job(program, folder, seed):
    path, data = os.path.join(folder, f"{seed}.job"), os.path.join(folder, "input")
    with open(path, "w") as file:
        file.write(text_of(seed))
    try:
        words = [path, data, "--limit", LIMIT]
        status, text = run(program, "run", *words)
        status_json, answer = run(program, "run", *words, "--json", "--workers", "3")
        document = json.loads(answer)
        if status != status_json:
            raise Wrong(f"status {status_json}, without --json {status}")
        if status == 2:
            refusal = f"refused {document['refused']} {document['name']} at {document['at']}\n"
            if refusal != text:
                raise Wrong(f"the refusal is printed as {document}")
        elif (f"limit {document['limit']}\n" if status == 3 else report_of(document)) != text:
            raise Wrong("the report says something else")
        status, text = run(program, "explain", *words)
        status_json, answer = run(program, "explain", *words, "--json")
        if status != status_json:
            raise Wrong(f"status {status_json} of explain, without --json {status}")
        if status != 2:
            compare_story(json.loads(answer), text)
    except Wrong as wrong:
        raise Wrong(f"job {seed}: {wrong}")


def main():
    program = os.path.abspath(sys.argv[1])
    jobs = int(sys.argv[2]) if len(sys.argv) > 2 else 200
    first = int(sys.argv[3]) if len(sys.argv) > 3 else 1
    with tempfile.TemporaryDirectory() as folder, ThreadPoolExecutor(4) as pool:
        with open(os.path.join(folder, "input"), "wb") as file:
            file.write(INPUT)
        tried = [pool.submit(try_job, program, folder, seed) for seed in range(first, first + jobs)]
        try:
            for attempt in tried:
                attempt.result()
        except Wrong as wrong:
            sys.exit(f"random_json.py: {wrong}")
    print(f"random_json.py: the documents of {jobs} jobs say what their reports and stories say")


if __name__ == "__main__":
    main()
