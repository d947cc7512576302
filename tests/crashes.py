#!/usr/bin/env python3
"""tests/crashes.py PROGRAM FILE..: a failure at any place of a run leaves no trace.

A file has a job, its partitions, the steps of a run, and an ending, in parts, that brings the job to rest and commits all of it. For each place of
the run the program is given the steps before it, `fail`, `restart`, and the ending. The steps before the place, the restart and the ending's last
part are accepted; others may be refused. The committed rows are then those of NAME.out, or, where that is NAME.rows, its rows in any order within
each sink. The last line is `N passed, M failed`.
"""
import json
import os
import subprocess
import sys


def answers_and_rows(text):
    """The answer lines of an output, and for each sink its line and its rows."""
    lines = text.splitlines()
    starts = [at for at, line in enumerate(lines) if line.startswith("sink ")]
    return lines[: starts[0]] if starts else lines, [lines[a:b] for a, b in zip(starts, [*starts[1:], len(lines)])]


def fault_at(program, test, place, wanted, ordered):
    """What is wrong after a failure at this place, if anything is."""
    parts = [part["steps"] * part["times"] for part in test["ending"]]
    ending = [step for part in parts for step in part]
    steps = [*test["steps"][:place], "fail", "restart", *ending]
    script = {"job": test["job"], "partitions": test["partitions"], "steps": steps}
    ran = subprocess.run([program], input=json.dumps(script), capture_output=True, text=True)
    if ran.returncode or ran.stderr:
        return f"status {ran.returncode}, {ran.stderr.strip()}"
    answers, rows = answers_and_rows(ran.stdout)
    must = [*answers[:place], *answers[place + 1 : place + 2], *answers[-len(parts[-1]) :]]
    refused = [it for it in must if not it.split(" ")[1] == "ok"]
    if refused:
        return f"a refused step: {refused[0]}"
    if not ordered:
        rows, wanted = [sorted(it) for it in rows], [sorted(it) for it in wanted]
    return None if rows == wanted else f"rows {rows}"


def main():
    program, passed, failed = os.path.abspath(sys.argv[1]), 0, 0
    for file in sys.argv[2:]:
        name = file.removesuffix(".json")
        ordered = os.path.exists(f"{name}.out")
        with open(file) as it, open(f"{name}.{'out' if ordered else 'rows'}") as rows:
            test, (_, wanted) = json.load(it), answers_and_rows(rows.read())
        for place in range(len(test["steps"]) + 1):
            fault = fault_at(program, test, place, wanted, ordered)
            if fault:
                print(f"FAILED {name}, a failure after {place} steps: {fault}")
            passed, failed = passed + (not fault), failed + bool(fault)
    print(f"{passed} passed, {failed} failed")


main()
