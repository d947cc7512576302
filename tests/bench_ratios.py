#!/usr/bin/env python3
"""tests/bench_ratios.py [ROWS [REPEATS]]: the ratios of seconds through bin/absflow that need no other program, each with its goal: claims of one record
over claims of 1,024, a checkpoint every 10,000 records over one at the end, 10 times the rows, 4 workers over 1, 1 worker over 4 on a wide job, and
161 tasks with 3,136 channels over 6 with 5. The runs are interleaved, and of so many repeats (5) the least counts. Rows (1,000,000) are over 10,000 keys."""
import json
import os
import random
import subprocess
import sys
import tempfile
import time

KEYS = 10_000
ABSFLOW = os.path.join(os.path.dirname(os.path.abspath(__file__)), "..", "bin", "absflow")


def vertex(name, kind, width=1, n=None):
    return {"name": name, "kind": kind, "parallelism": width, **({} if n is None else {"n": n})}


def line(vertices, hashed):
    """The vertices in a line, those before the ones that are named here joined to them by hash."""
    names = [it["name"] for it in vertices]
    edges = [{"from": a, "to": b, **({"route": "hash"} if b in hashed else {})} for a, b in zip(names, names[1:])]
    return {"vertices": vertices, "edges": edges}


def layers(width):
    """Four layers of adds and the sinks behind them, all so wide."""
    adds = [vertex(f"add{i}", "add", width, 1) for i in range(4)]
    return line([vertex("rows", "source"), *adds, vertex("out", "sink", width)], {it["name"] for it in adds})


LIGHT = line([vertex("rows", "source"), vertex("count", "count"), vertex("out", "sink")], ())
WIDE = line([vertex("rows", "source", 4), vertex("add", "add", 4, 1), vertex("sum", "sum", 4), vertex("window", "window", 4, 8), vertex("out", "sink", 4)], ("sum", "window"))


def seconds(words):
    start = time.monotonic()
    subprocess.run([ABSFLOW, "run", *words], stdout=subprocess.DEVNULL, check=True)
    return time.monotonic() - start


def measured(folder, rows, repeats):
    """The least seconds of each run, by its name."""
    def put(name, text):
        with open(os.path.join(folder, name), "w", encoding="utf-8") as it:
            it.write(text)
        return os.path.join(folder, name)

    random.seed(1)
    lines = [f'{{"k":"key{random.randrange(KEYS)}","v":{random.randrange(-1000, 1001)}}}\n' for _ in range(rows)]
    whole, tenth = put("whole", "".join(lines)), put("tenth", "".join(lines[: rows // 10]))
    quarters = [put(f"quarter{i}", "".join(lines[i::4])) for i in range(4)]
    light, wide, narrow, broad = (put(name, json.dumps(job)) for name, job in (("light", LIGHT), ("wide", WIDE), ("narrow", layers(1)), ("broad", layers(32))))
    batch, layered = ["--batch", "1024"], ["--batch", "64", "--every", "0"]
    runs = {
        "batch 1": [light, whole, "--batch", "1"],
        "none": [light, whole, *batch, "--every", "0"],
        "checkpoints": [light, whole, *batch, "--every", "10000"],
        "tenth": [light, tenth, *batch, "--every", "0"],
        "light 4": [light, whole, *batch, "--every", "10000", "--workers", "4"],
        "wide 1": [wide, *quarters, *batch, "--every", "10000"],
        "wide 4": [wide, *quarters, *batch, "--every", "10000", "--workers", "4"],
        "narrow": [narrow, tenth, *layered],
        "broad": [broad, tenth, *layered],
    }
    least = dict.fromkeys(runs, float("inf"))
    for _ in range(repeats):
        for name, words in runs.items():
            least[name] = min(least[name], seconds(words))
    return least


def main():
    rows, repeats = (int(it) for it in [*sys.argv[1:], *["1000000", "5"][len(sys.argv) - 1 :]])
    with tempfile.TemporaryDirectory() as folder:
        least = measured(folder, rows, repeats)
    for what, a, b, goal in (
        ("claims of one record over claims of 1,024", "batch 1", "none", "at most 2.5"),
        ("a checkpoint every 10,000 records over one", "checkpoints", "none", "at most 1.05"),
        ("10 times the rows", "none", "tenth", "at most 11"),
        ("4 workers over 1, the light line", "light 4", "checkpoints", "at most 1"),
        ("1 worker over 4, the wide job", "wide 1", "wide 4", "at least 2"),
        ("161 tasks, 3,136 channels over 6 tasks, 5 channels", "broad", "narrow", "at most 1.5"),
    ):
        print(f"{what}: {least[a] / least[b]:.2f}, {goal} ({least[a]:.3f} s over {least[b]:.3f})")


main()
