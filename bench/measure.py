#!/usr/bin/env python3
"""Times searches that store 1,000, 10,000 and 100,000 nodes: a table of medians.

usage: python3 bench/measure.py [RUNS]          5 runs if left out

The program is bench/measure.rt.txt. It is built as the crate `measure` in a copy of the repository outside it, since the
gate reads every Rattle file of the repository. Where the crates below it were checked before, that takes a minute or two,
else each is proved first.
"""

import collections
import os
import random
import shutil
import statistics
import struct
import subprocess
import sys
import tempfile

ROOT = os.path.dirname(os.path.dirname(os.path.abspath(__file__)))
USES = "chain search astar nodes bounds schedule queue bag partial loader refusal model anyhow"
SIZES = ["1000", "10000", "100000"]
# Tasks, machines and transfers of each graph, and where its random generator starts.
GRAPHS = [(32, 3, 64, 1), (32, 4, 64, 1), (32, 8, 64, 1), (32, 8, 128, 3), (32, 4, 0, 1)]


def record(kind, *payload):
    return struct.pack(f"<{2 + len(payload)}H", 2 * len(payload), kind, *payload)


def run_file(tasks, machines, transfers, start, work=100, cost=100):
    """A random graph as a run file: works from 1 to `work`, costs from 0 to `cost`, transfers to higher task numbers."""
    draw = random.Random(start)
    pairs = [(a, b) for a in range(tasks) for b in range(a + 1, tasks)]
    parts = [record(1, tasks, machines)]
    parts += [record(2, draw.randint(1, work)) for _ in range(tasks)]
    parts += [record(3, a, b, draw.randint(0, cost)) for a, b in sorted(draw.sample(pairs, transfers))]
    return b"".join([*parts, record(4)])


def build(room):
    """Builds the program in a copy of the repository, and returns its path."""
    shutil.copytree(f"{ROOT}/crates", f"{room}/crates", symlinks=True)
    crate = f"{room}/crates/measure"
    for part in ("specs", "proofs"):
        os.makedirs(f"{crate}/{part}")
        open(f"{crate}/{part}/Lib.antt", "w").close()
    os.makedirs(f"{crate}/src")
    shutil.copy(f"{ROOT}/bench/measure.rt.txt", f"{crate}/src/main.rt")
    with open(f"{ROOT}/crates.txt") as old, open(f"{room}/crates.txt", "w") as new:
        new.write(f"{old.read()}measure: {USES}\n")
    done = subprocess.run(["rt", "run"], cwd=crate, input=run_file(*GRAPHS[0]), capture_output=True)
    if done.returncode:
        sys.exit(done.stderr.decode() + done.stdout.decode())
    return f"{crate}/out/measure"


def main():
    runs = int(sys.argv[1]) if len(sys.argv) > 1 else 5
    with tempfile.TemporaryDirectory() as room:
        program = build(room)
        for graph in GRAPHS:
            print("tasks {} machines {} transfers {} start {}".format(*graph))
            nanos, told = collections.defaultdict(list), {}
            for _ in range(runs):
                done = subprocess.run([program, *SIZES], input=run_file(*graph), capture_output=True, check=True)
                for line in done.stdout.decode().splitlines():
                    rule, *words = line.split()
                    outcome, numbers = words.pop(2), dict(zip(words[::2], map(int, words[1::2])))
                    key = rule, numbers["nodes"]
                    told[key] = outcome, numbers["generated"], numbers["stored"]
                    nanos[key].append(numbers["nanoseconds"])
            for (rule, nodes), (outcome, generated, stored) in told.items():
                time = statistics.median(nanos[rule, nodes])
                each = f"{time / generated / 1000:.2f}" if generated else "-"
                print(f"  {rule:10} nodes {nodes:6} {outcome:4} stored {stored:6} generated {generated:7}"
                      f" {time / 1e6:8.1f} ms {each:>6} us a child")


if __name__ == "__main__":
    main()
