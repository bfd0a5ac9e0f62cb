#!/usr/bin/env python3
"""Writes the tables of `faults`, `sweep`, `races` and `lint` from their JSON documents, for random jobs.

    python3 tests/random/random_json_tables.py PROGRAM [JOBS [SEED]]

PROGRAM is the built executable. Each document is read with Python's parser, and the table that this script writes from it has to be the one that the program writes
without `--json`, to the byte; each status is the same. `sweep --json` has a line for each value: neighbouring values are joined here. Of `lint` the first line of each
warning is compared.
"""

import json
import os
import re
import subprocess
import sys
import tempfile
from concurrent.futures import ThreadPoolExecutor

from jobs import job_of_any_format
from random_json import INPUT, Wrong, exception_text

LIMIT = "1000"


def sans(exception):
    """An exception without its ticks."""
    return re.sub(r"@\d+", "", exception_text(exception))


def names(title, tasks):
    if not tasks:
        return ""
    more = f" and {len(tasks) - 3} more" if len(tasks) > 3 else ""
    return f"; {title}: {', '.join(tasks[:3])}{more}"


def notes(result):
    if result["outcome"] == "stuck":
        return names("sleeping forever", result["sleeping"]) + names("cleanup cut", result["cut"])
    return names("cancelled", result["cancelled"]) + names("cleanup cut", result["cut"])


def ending(result, show):
    if result["outcome"] == "raised":
        return f"raised {show(result['exception'])}"
    return result["outcome"]


def not_tried_text(refusal):
    return f"not tried: J{refusal['number']} at {refusal['at']}"


def result_text(result, reached=True):
    if result["outcome"] == "refused":
        return not_tried_text(result["not_tried"])
    missed = "" if reached else "; not reached"
    lost = "; fault lost" if result["lost"] else ""
    if result["outcome"] == "stuck":
        return f"stuck at {result['limit']}{missed}{notes(result)}{lost}"
    return f"{result['end']} {ending(result, exception_text)}{missed}{notes(result)}{lost}"


def more_text(count, what):
    return f", {count} {what}" if count else ""


def plural(count, word):
    return f"{count} {word}" if count == 1 else f"{count} {word}s"


def step(line):
    """A step as a table shows it: in a document its backslashes are doubled."""
    return line.get("step", "").replace("\\\\", "\\")


def column(values, least=0):
    return max([least, *map(len, values)])


def place(line):
    return f"{line['line']}:{line['column']}" if "line" in line else ""


def fault(line):
    """A fault as a table shows it."""
    return line["fault"] + (f" in {line['part']}" if line["part"] else "")


def faults_table(document):
    lines, counts = document["lines"], document["counts"]
    places = column(map(place, lines))
    steps = column(map(step, lines))
    kinds = column(map(fault, lines), 8)
    rows = [f"{'':{places}}  {'':{steps}}  {'as it is':{kinds}}  {result_text(document['as_it_is']['result'])}"]
    for line in lines:
        fate = result_text(line["result"], line["reached"])
        rows.append(f"{place(line):>{places}}  {step(line):{steps}}  {fault(line):{kinds}}  {fate}")
    rows.append(
        f"{plural(counts['faults'], 'fault')}: {counts['stuck']} stuck, {counts['cut']} cut a cleanup, {counts['lost']} lost, "
        f"{counts['not_reached']} not reached{more_text(counts['not_tried'], 'not tried')}"
    )
    return rows


def span(first, last):
    return str(first) if first == last else f"{first}..{last}"


def swept_text(result):
    """The outcome of a value for which the job does not end, or has no text."""
    return "refused" if result["outcome"] == "refused" else f"stuck at {result['limit']}{notes(result)}"


def group_text(group):
    result = group["result"]
    if result["outcome"] in ("refused", "stuck"):
        return swept_text(result)
    return f"{ending(result, sans)}, ends {span(min(group['ends']), max(group['ends']))}{notes(result)}"


def shared(result):
    """What is the same of two values that share a line."""
    if result["outcome"] in ("refused", "stuck"):
        return swept_text(result)
    return ending(result, sans) + notes(result)


def sweep_table(document):
    groups = []
    for line in document["lines"]:
        value, result = line["value"], line["result"]
        if groups and shared(groups[-1]["result"]) == shared(result):
            groups[-1]["last"] = value
            groups[-1]["ends"].append(result.get("end"))
        else:
            groups.append({"first": value, "last": value, "result": result, "ends": [result.get("end")]})
    first = document["as_it_is"]["result"]
    ranges = [span(group["first"], group["last"]) for group in groups]
    width = column(ranges, 8)
    counts = document["counts"]
    return [
        f"{'as it is':{width}}  {group_text({'result': first, 'ends': [first.get('end')]})}",
        *(f"{shown:{width}}  {group_text(group)}" for shown, group in zip(ranges, groups)),
        f"{plural(counts['values'], 'value')}: {counts['stuck']} stuck, {counts['cut']} cut a cleanup{more_text(counts['refused'], 'refused')}",
    ]


def difference_text(difference):
    if difference.get("entries_differ"):
        return f"{difference['task']}: other lines or scopes"
    return f"{difference['task']}: {difference['before']} -> {difference['after']}"


def race_text(line):
    if line["hair"] == "copies":
        return f"{line['tasks'][0]} and {line['tasks'][1]} meet at {line['tick']}"
    if line["not_tried"]:
        return not_tried_text(line["not_tried"])
    found = line["differences"]
    more = [f"and {len(found) - 3} more"] if len(found) > 3 else []
    return "; ".join([*map(difference_text, found[:3]), *more])


def races_table(document):
    lines, counts = document["lines"], document["counts"]
    places = column(map(place, lines))
    steps = column(map(step, lines))
    hairs = column([line["hair"] for line in lines])
    rows = [
        f"{place(line):>{places}}  {step(line):{steps}}  {line['hair']:{hairs}}  {race_text(line)}" for line in lines
    ]
    races = f"{counts['races']} races" if lines else "no race"
    return [*rows, f"{counts['hairs']} hairs: {races}{more_text(counts['not_tried'], 'hairs not tried')}"]


def lint_table(document, path):
    if document["counts"]["warnings"] != len(document["lines"]):
        raise Wrong(f"{len(document['lines'])} warnings are counted as {document['counts']}")
    return [f"{path}:{line['line']}:{line['column']}: {line['sentence']}" for line in document["lines"]]


def run(program, *words):
    done = subprocess.run([program, *words], capture_output=True)
    return done.returncode, done.stdout.decode("ascii")


def compare(program, words, table):
    status, text = run(program, *words)
    status_json, answer = run(program, *words, "--json")
    if status != status_json:
        raise Wrong(f"status {status_json} of {words[0]} --json, without it {status}")
    if not text:
        if answer and words[0] != "lint":
            raise Wrong(f"{words[0]} writes nothing without --json")
        if not answer:
            return
    document = json.loads(answer)
    if "refused" in document:
        wanted = [f"refused {document['refused']} {document['name']} at {document['at']}"]
    elif "limit" in document:
        wanted = [f"limit {document['limit']}"]
    else:
        wanted = table(document)
    lines = text.splitlines()
    if words[0] == "lint" and "refused" not in document:
        lines = [line for line in lines if line.startswith(words[1] + ":")]
    if lines != wanted:
        raise Wrong(f"{words[0]}: {lines} is written from JSON as {wanted}")


def try_job(program, folder, seed):
    path, data = os.path.join(folder, f"{seed}.job"), os.path.join(folder, "input")
    text = job_of_any_format(seed)[1]
    with open(path, "w") as file:
        file.write(text)
    deadline = re.search(r"(?:scope|nursery) (\w+) (?:after|at) \d", text)
    try:
        words = [path, data, "--limit", LIMIT]
        compare(program, ["faults", *words], faults_table)
        compare(program, ["races", *words], races_table)
        compare(program, ["lint", path], lambda document: lint_table(document, path))
        if deadline:
            compare(program, ["sweep", *words, "--of", deadline.group(1), "--values", "0..12"], sweep_table)
    except Wrong as wrong:
        raise Wrong(f"job {seed}: {wrong}")


def main():
    program = os.path.abspath(sys.argv[1])
    jobs = int(sys.argv[2]) if len(sys.argv) > 2 else 60
    first = int(sys.argv[3]) if len(sys.argv) > 3 else 1
    with tempfile.TemporaryDirectory() as folder, ThreadPoolExecutor(4) as pool:
        with open(os.path.join(folder, "input"), "wb") as file:
            file.write(INPUT)
        tried = [pool.submit(try_job, program, folder, seed) for seed in range(first, first + jobs)]
        try:
            for attempt in tried:
                attempt.result()
        except Wrong as wrong:
            sys.exit(f"random_json_tables.py: {wrong}")
    print(f"random_json_tables.py: the documents of {jobs} jobs say what their tables say")


if __name__ == "__main__":
    main()
