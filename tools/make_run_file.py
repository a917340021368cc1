#!/usr/bin/env python3
"""Writes a run file (docs/RUNFILE.md) from lines of text: tools/make_run_file.py <TEXT >FILE

    machines 2                          how many machines there are
    task assumptions 3                  a name and its work; tasks are numbered from 0, in this order
    transfer assumptions annuities 1    from, to, and its cost

Blank lines count for nothing, and so does what follows a '#'. Whether the numbers make a lawful graph, the planner tells."""
import struct
import sys


def number(text):
    try:
        value = int(text)
    except ValueError:
        raise ValueError(f"{text} is not a whole number") from None
    if not 0 <= value < 65536:
        raise ValueError(f"{text} does not fit into two bytes")
    return value


def record(kind, *numbers):
    return struct.pack(f"<{2 + len(numbers)}H", 2 * len(numbers), kind, *numbers)


class Run:
    def __init__(self):
        self.machines = None
        self.works = {}  # by the task's name, in the order of the text
        self.transfers = []

    def place(self, name):
        if name not in self.works:
            raise ValueError(f"there is no task {name} above")
        return list(self.works).index(name)

    def add(self, word, *rest):
        if word == "machines" and len(rest) == 1:
            if self.machines is not None:
                raise ValueError("there is a line of machines above")
            self.machines = number(rest[0])
        elif word == "task" and len(rest) == 2:
            name, work = rest
            if name in self.works:
                raise ValueError(f"there is a task {name} above")
            self.works[name] = number(work)
        elif word == "transfer" and len(rest) == 3:
            start, end, cost = rest
            self.transfers.append((self.place(start), self.place(end), number(cost)))
        else:
            raise ValueError("a line is machines COUNT, task NAME WORK, or transfer FROM TO COST")

    def file(self):
        head = record(1, len(self.works), self.machines or 0)
        tasks = [record(2, work) for work in self.works.values()]
        transfers = [record(3, *transfer) for transfer in self.transfers]
        return b"".join([head, *tasks, *transfers, record(4)])


def main():
    run = Run()
    for place, line in enumerate(sys.stdin, 1):
        words = line.partition("#")[0].split()
        try:
            if words:
                run.add(*words)
        except ValueError as fault:
            sys.exit(f"line {place}: {fault}")
    sys.stdout.buffer.write(run.file())


if __name__ == "__main__":
    main()
