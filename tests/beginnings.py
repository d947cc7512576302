#!/usr/bin/env python3
"""tests/beginnings.py PROGRAM FILE..: scripts some of whose steps may not be served yet, up to the first of these.

Beside each file N.json stands N.out, the output of an independent reference over all its steps. The program is given the steps before the first
that it does not serve, and its answers to them are the first lines of N.out. Where all steps are served, its whole output is N.out. Scripts that
begin with a step that is not served are left out. The last line is `N passed, M failed`.
"""
import json
import subprocess
import sys


# The words of steps that are not served yet.
LATER = set()


def is_served(step):
    """Whether a step is one of today's."""
    return step.split(" ")[0] not in LATER


def beginning(steps):
    """The steps before the first that is not served."""
    served = [is_served(step) for step in steps] + [False]
    return steps[: served.index(False)]


def fault_of(program, script, wanted, is_whole):
    """What is wrong with the answers, and with the committed rows where all steps are served, if anything is."""
    ran = subprocess.run([program], input=json.dumps(script), capture_output=True, text=True)
    if ran.returncode or ran.stderr:
        return f"status {ran.returncode}, {ran.stderr.strip()}"
    answers = ran.stdout.splitlines()
    if not is_whole:
        answers = answers[: len(script["steps"])]
    for got, want in zip(answers, wanted):
        if got != want:
            return f"{got}, and {want} is wanted"
    return None if len(answers) == len(wanted) else f"{len(answers)} lines, and {len(wanted)} are wanted"


def main():
    program, *files = sys.argv[1:]
    passed = failed = 0
    for file in files:
        with open(file, encoding="utf-8") as it:
            script = json.load(it)
        steps = script["steps"]
        script["steps"] = beginning(steps)
        if not script["steps"]:
            continue
        is_whole = script["steps"] == steps
        with open(f"{file[:-5]}.out", encoding="utf-8") as it:
            wanted = it.read().splitlines()
        if not is_whole:
            wanted = wanted[: len(script["steps"])]
        fault = fault_of(program, script, wanted, is_whole)
        if fault:
            failed += 1
            print(f"FAILED {file}: {fault}")
        else:
            passed += 1
    print(f"{passed} passed, {failed} failed")


if __name__ == "__main__":
    main()
