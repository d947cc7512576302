#!/usr/bin/env python3
"""tests/gate_minutes.py [NAME..]: runs `rt ci` (with these names) and then prints, for each crate, the processor minutes of its proof, of its edits and of its tests.

It is `rt ci`, with each call of the prover timed by a small script in the prover's place. The table of docs/GATE.md is its output.
"""
import collections
import importlib.machinery
import importlib.util
import os
import shutil
import stat
import sys
import tempfile
import time

sys.dont_write_bytecode = True
TIMED = """#!/bin/bash
"{prover}" "$@"; status=$?
times > "{room}/$$.seconds"
printf '%s ' "$@" >> "{room}/$$.seconds"
[ $status -le 128 ] || kill -$((status - 128)) $$
exit $status
"""


def toolchain():
    loader = importlib.machinery.SourceFileLoader("rt_main", os.path.realpath(shutil.which("rt")))
    module = importlib.util.module_from_spec(importlib.util.spec_from_loader("rt_main", loader))
    loader.exec_module(module)
    return module


def seconds(text):
    """Of `1m2.5s`."""
    minutes, _, rest = text.rstrip("s").partition("m")
    return 60 * int(minutes) + float(rest)


def kind_of(words):
    if "--test" in words:
        return "tests"
    return "proof" if "-o" in words else "edits"


def main():
    rt = toolchain()
    table, start = collections.defaultdict(collections.Counter), time.time()
    with tempfile.TemporaryDirectory(prefix="gate-") as room:
        timed = f"{room}/rattle"
        with open(timed, "w", encoding="utf-8") as it:
            it.write(TIMED.format(prover=rt.rtlib.RATTLE, room=room))
        os.chmod(timed, os.stat(timed).st_mode | stat.S_IXUSR)
        rt.rtlib.RATTLE = timed
        status = rt.main(["ci", *sys.argv[1:]])
        for name in (it for it in os.listdir(room) if it.endswith(".seconds")):
            with open(f"{room}/{name}", encoding="utf-8", errors="replace") as it:
                _, _, user, system, *words = it.read().split()
            if "--crate-name" in words:
                crate = words[words.index("--crate-name") + 1]
                table[crate][kind_of(words)] += (seconds(user) + seconds(system)) / 60
    kinds = ("proof", "edits", "tests")
    print("\n| crate | proof | edits | tests |\n|---|---|---|---|")
    for crate, row in sorted(table.items(), key=lambda it: -sum(it[1].values())):
        print(f"| `{crate}` | {' | '.join(f'{row[it]:.1f}' if row[it] else '' for it in kinds)} |")
    sums = [sum(row[it] for row in table.values()) for it in kinds]
    print(f"| all: {sum(sums):.0f} | {' | '.join(f'{it:.0f}' for it in sums)} |")
    print(f"{(time.time() - start) / 60:.0f} minutes of wall time on {len(os.sched_getaffinity(0))} processors")
    return status


if __name__ == "__main__":
    sys.exit(main())
