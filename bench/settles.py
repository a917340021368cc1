#!/usr/bin/env python3
"""How many searches settle with 256, 4,096, 65,536 and 1,048,576 nodes, and what they bring, cost and leave.

usage: python3 bench/settles.py [--program FILE] [--graphs K] [--seed S] [--seconds T] [--jobs J]

Prints three Markdown tables: graphs settled by tasks, by what else a graph is made of, and what the searches came to. Each
run is also a line of the error stream as soon as it is over. The budget is never what ends a search, so that one which stays
open has filled its nodes; one that uses up its processor time, T seconds, is stopped and told as such.
"""

import argparse
import concurrent.futures
import functools
import itertools
import os
import resource
import signal
import statistics
import subprocess
import sys
import typing

from measure import ROOT, run_file

TASKS = [8, 12, 16, 20, 24, 28, 32]
NODES = [256, 4_096, 65_536, 1_048_576]
WORK = 1000
# Each size has a graph of every kind: machines, transfers for each task, and the greatest cost.
KINDS = list(itertools.product([2, 3, 4, 8], [1, 2, 3], [100, 1000]))
BUDGET = 2**64 - 1
# From kind to kind: prime to their number, so that each comes once, and of a few all three parts differ.
STEP = 17


class Graph(typing.NamedTuple):
    tasks: int
    machines: int
    each: int
    cost: int
    start: str

    def file(self):
        return run_file(self.tasks, self.machines, self.each * self.tasks, self.start, WORK, self.cost)


class Run(typing.NamedTuple):
    graph: Graph
    nodes: int
    word: str
    taken: int | None
    length: int | None
    gap: float | None
    seconds: float
    megabytes: float


def graphs(each_size, seed):
    """The graphs, as many of each size; where these are fewer than the kinds, of a spread of them."""
    places = [k - k % len(KINDS) + STEP * k % len(KINDS) for k in range(each_size)]
    return [Graph(tasks, *KINDS[k % len(KINDS)], f"{seed} {tasks} {k}") for tasks in TASKS for k in places]


def run(program, seconds, graph, nodes, budget=BUDGET):
    """Runs the program on a graph. Time is the processor's: what else the machine does stops no search."""
    call = [program, "--nodes", str(nodes), "--budget", str(budget)]
    child = subprocess.Popen(call, stdin=subprocess.PIPE, stdout=subprocess.PIPE, stderr=subprocess.PIPE)
    resource.prlimit(child.pid, resource.RLIMIT_CPU, (seconds, seconds + 1))
    with child.stdin, child.stdout, child.stderr:
        child.stdin.write(graph.file())
        child.stdin.close()
        lines, said = (stream.read().decode().splitlines() for stream in (child.stdout, child.stderr))
    _, status, used = os.wait4(child.pid, 0)
    child.returncode = os.waitstatus_to_exitcode(status)
    if child.returncode not in (0, -signal.SIGXCPU):
        sys.exit(f"{graph}: {' '.join(call)} ended with {child.returncode}: {lines} {said}")
    time, megabytes = used.ru_utime + used.ru_stime, used.ru_maxrss * 1024 / 1e6
    told = Run(graph, nodes, "stopped", None, None, None, time, megabytes)
    if lines:
        length, floor = map(int, lines[-3].split()[1::2])
        taken = int(lines[-2].split()[1])
        told = Run(graph, nodes, lines[-1], taken, length, 100 * (1 - floor / length), time, megabytes)
    line = ", ".join([*map(str, graph), str(nodes), str(budget), f"{time:.3f} s {megabytes:.1f} MB", *lines[-3:]])
    # One write, so that runs at the same time do not mix their lines.
    sys.stderr.write(f"{line}\n")
    return told


def print_table(head, rows):
    print("| " + " | ".join(head) + " |")
    print("|---" * len(head) + "|")
    for row in rows:
        print("| " + " | ".join(row) + " |")
    print()


def row_of(name, runs):
    """How many graphs there are, how many settle before a node is expanded, and how many with each number of nodes."""
    done = [r for r in runs if r.word == "shortest"]
    at_once = {r.graph for r in done if r.taken == 0}
    return [name, str(len({r.graph for r in runs})), str(len(at_once)),
            *(str(sum(r.nodes == nodes for r in done)) for nodes in NODES)]


def rows_by(runs, field, name):
    """A row for each value of a field of the graphs."""
    values = sorted({getattr(r.graph, field) for r in runs})
    return [row_of(name.format(value), [r for r in runs if getattr(r.graph, field) == value]) for value in values]


def spread(numbers, unit, form):
    """Median and greatest of some numbers."""
    if not numbers:
        return "-"
    return f"{statistics.median(numbers):{form}} {unit}, {max(numbers):{form}} {unit}"


def most_memory(runs):
    """The greatest peak. What the system tells of a child is never below what Python itself had when it started it."""
    most, own = max(r.megabytes for r in runs), resource.getrusage(resource.RUSAGE_SELF).ru_maxrss * 1024 / 1e6
    return f"{most:.0f} MB" if most > own else f"below {own:.0f} MB"


def gained(runs, listed):
    """In how many graphs the best schedule is shorter than the list schedule, and by how much of this one's length."""
    gains = [100 * (1 - r.length / listed[r.graph]) for r in runs if r.word != "stopped" and r.length < listed[r.graph]]
    return f"{len(gains)}: {spread(gains, '%', '.1f')}"


def outcomes(runs, listed):
    """What the searches with each number of nodes came to."""
    last = {r.graph for r in runs if r.nodes == NODES[-1] and r.word == "open"}
    by_nodes = [[r for r in runs if r.nodes == nodes] for nodes in NODES]
    times = {word: [spread([r.seconds for r in of if r.word == word], "s", ".3f") for of in by_nodes]
             for word in ("shortest", "open")}
    yield ["time of those settled", *times["shortest"]]
    yield ["time of those open", *times["open"]]
    yield ["stopped", *(str(sum(r.word == "stopped" for r in of)) for of in by_nodes)]
    yield ["greatest memory", *(most_memory(of) for of in by_nodes)]
    yield ["shorter than the list schedule", *(gained(of, listed) for of in by_nodes)]
    yield ["gap of those open", *(spread([r.gap for r in of if r.word == "open"], "%", ".1f") for of in by_nodes)]
    yield [f"gap of the {len(last)} open with the most nodes",
           *(spread([r.gap for r in of if r.graph in last], "%", ".1f") for of in by_nodes)]


def count(text):
    number = int(text)
    if number < 1:
        raise argparse.ArgumentTypeError(f"{text} is not above 0")
    return number


def options():
    ask = argparse.ArgumentParser(description=__doc__.splitlines()[0])
    ask.add_argument("--program", default=f"{ROOT}/crates/planrun/out/planrun", help="planrun, built")
    ask.add_argument("--graphs", type=count, default=len(KINDS), help="graphs of each size")
    ask.add_argument("--seed", type=int, default=1, help="where the random generator starts")
    ask.add_argument("--seconds", type=count, default=120, help="processor time after which a run is stopped")
    ask.add_argument("--jobs", type=count, default=2, help="runs at the same time")
    return ask.parse_args()


def main():
    asked = options()
    drawn = graphs(asked.graphs, asked.seed)
    ask = functools.partial(run, asked.program, asked.seconds)
    with concurrent.futures.ThreadPoolExecutor(asked.jobs) as pool:
        # A search that expands nothing shows the list schedule.
        listed = {r.graph: r.length for r in pool.map(lambda graph: ask(graph, NODES[0], 0), drawn)}
        runs = list(pool.map(lambda call: ask(*call), itertools.product(drawn, NODES)))
    sizes = [f"{nodes:,} nodes" for nodes in NODES]
    print_table(["tasks", "graphs", "at once", *sizes], [*rows_by(runs, "tasks", "{}"), row_of("all", runs)])
    print_table(["kind", "graphs", "at once", *sizes], [*rows_by(runs, "machines", "machines: {}"),
                                                        *rows_by(runs, "each", "transfers for each task: {}"),
                                                        *rows_by(runs, "cost", "greatest cost: {}")])
    print_table(["median, greatest", *sizes], outcomes(runs, listed))


if __name__ == "__main__":
    main()
