#!/usr/bin/env python3
"""Writes the scripts, graph texts and logs that `./measure` runs: 4 MiB each, and the same bytes each time.

  bench/scripts.py FOLDER    writes mixed, long and old, the graph texts chain, weak and random, and the logs numbers and
                             names
"""
import itertools
import os
import random
import sys

# A text has at most 4 MiB.
MOST_BYTES = 4_194_300


def mixed():
    """Steps of all kinds, a quarter of them refused, in cycles of a small heap."""
    draw = random.Random(11)
    yield "refscript 1"
    yield "config 4 4 4 512 10"
    cycle = clock = 0
    while True:
        for _ in range(400):
            yield mutator_step(draw)
        cycle += 1
        clock += draw.randrange(6)
        yield f'begin {clock} {"urgent" if draw.random() < 0.2 else "normal"}'
        yield from among_mutators(draw, "scan", 300, 0.4)
        for _ in range(40):
            yield "w0 scan"
        yield "endmark"
        yield from among_mutators(draw, "clearnext", 120, 0.4)
        for number in range(4):
            for _ in range(20):
                yield f"w{number} clearnext"
        yield "endclear"
        for _ in range(60):
            worker = f"w{draw.randrange(4)}"
            yield f"{worker} hand"
            yield f"{worker} put"
            if draw.random() < 0.3:
                yield f"{worker} release"
        yield from among_mutators(draw, "sweep", 8, 0.8)
        yield "endsweep"


def among_mutators(draw, step, count, share):
    """So many steps of workers, each followed by one of a mutator in this share of cases."""
    for _ in range(count):
        yield f"w{draw.randrange(4)} {step}"
        if draw.random() < share:
            yield mutator_step(draw)


def mutator_step(draw):
    def slot():
        return f"s{draw.randrange(6)}"

    def queue():
        return f"q{draw.randrange(4)}"

    by = f"m{draw.randrange(4)}"
    kind = draw.randrange(100)
    if kind < 14:
        return f"{by} new {slot()} {draw.randrange(4)}"
    if kind < 28:
        return f'{by} {draw.choice(["weak", "soft", "phantom"])} {slot()} {slot()} {queue()} {draw.randrange(3)}'
    if kind < 40:
        return f"{by} store {slot()} {draw.randrange(2)} {slot()}"
    if kind < 52:
        return f"{by} load {slot()} {slot()} {draw.randrange(2)}"
    if kind < 58:
        return f"{by} copy {slot()} {slot()}"
    if kind < 64:
        return f"{by} drop {slot()}"
    if kind < 72:
        return f"{by} get {slot()} {slot()}"
    if kind < 75:
        return f"{by} clear {slot()}"
    if kind < 80:
        return f"{by} refers {slot()} {slot()}"
    if kind < 84:
        return f"{by} unhook {slot()}"
    if kind < 88:
        return f"{by} put"
    if kind < 93:
        return f"{by} poll {queue()}"
    if kind < 96:
        return f"{by} adopt {slot()}"
    return f"{by} release"


def long_cycles():
    """Cycles of a full heap, half of it weak references in a chain, each to an object that dies."""
    count = 2_048
    yield "refscript 1"
    yield "config 1 2 1 4096 0"
    cycle = 0
    while True:
        for _ in range(count):
            yield from ("m0 new s0 0", "m0 weak s2 s0 q0 1", "m0 store s2 0 s1", "m0 copy s1 s2")
        yield from ("m0 drop s0", "m0 drop s2")
        cycle += 1
        yield f"begin {cycle} normal"
        yield from by_both("scan", count // 2 + 1)
        yield "endmark"
        yield from by_both("clearnext", count // 2 + 1)
        yield "endclear"
        for _ in range(count // 2):
            yield from ("w0 hand", "w0 put", "w1 hand", "w1 put")
        for _ in range(count):
            yield from ("m0 poll q0", "m0 release")
        yield "m0 drop s1"
        yield from ["w0 sweep"] * (2 * count // 64 + 1)
        yield "endsweep"
        # The references die in the next cycle.
        cycle += 1
        yield f"begin {cycle} normal"
        yield from ("w0 scan", "endmark", "w0 clearnext", "endclear")
        yield from ["w1 sweep"] * (2 * count // 64 + 1)
        yield "endsweep"


def by_both(step, count):
    for _ in range(count):
        yield f"w0 {step}"
        yield f"w1 {step}"


def old_among_dead():
    """Two thousand objects that live on, every third neighbour dead, and some young ones that die in each cycle."""
    yield "refscript 1"
    yield "config 1 1 1 4096 0"
    for number in range(3_000):
        yield "m0 new s0 1"
        if number % 3 != 0:
            yield from ("m0 store s0 0 s1", "m0 copy s1 s0")
    yield "m0 drop s0"
    cycle = 0
    while True:
        cycle += 1
        yield f"begin {cycle} normal"
        yield from ["w0 scan"] * 2_005
        yield from ("endmark", "endclear")
        yield from ["w0 sweep"] * 20
        yield "endsweep"
        yield from ["m0 new s2 0"] * 300
        yield "m0 drop s2"


def chain(kind):
    """A graph in which each object leads to the next."""
    yield "refgraph 1"
    yield "root 1"
    number = 0
    while True:
        number += 1
        yield f"{kind} {number} {number + 1}"


def random_graph():
    """Objects of all kinds, with numbers in no order."""
    draw = random.Random(3)
    numbers = draw.sample(range(1, 400_000), 180_000)
    yield "refgraph 1"
    for _ in range(20):
        yield f"root {draw.choice(numbers)}"
    for number in numbers:
        fields = " ".join(str(draw.choice(numbers)) for _ in range(draw.randrange(3)))
        if draw.randrange(4) == 0:
            strength = ["soft", "weak", "phantom"][draw.randrange(3)]
            yield f"{strength} {number} {draw.choice(numbers)} {fields}".strip()
        else:
            yield f"plain {number} {fields}".strip()


def deaths(is_named):
    """The log of a collector with twenty objects that stay, and a death in each cycle that is reported."""
    yield "reftrace 1"
    yield "config 2 1 1 64 0"
    if is_named:
        yield "names any"
    name = (lambda number, address: f"0x{address:x}") if is_named else (lambda number, address: str(number))
    old = [name(number, 0x1000 + 16 * number) for number in range(1, 21)]
    for number, one in enumerate(old):
        yield f"m1 new s1 1 : object {one}"
        if number > 0:
            yield "m1 store s1 0 s0 : ok"
        yield f"m1 copy s0 s1 : object {one}"
    yield "m1 drop s1 : ok"
    for cycle in itertools.count(1):
        # The reference of the cycle before is there until this one's mark ends.
        number = len(old) + 2 * cycle
        dead, reference = name(number - 1, 0x10), name(number, 0x20 + 16 * (cycle % 2))
        doomed = 1 if cycle == 1 else 2
        yield f"m0 new s0 0 : object {dead}"
        yield f"m0 weak s1 s0 q0 0 : object {reference}"
        yield "m0 drop s0 : ok"
        yield f"begin 1 normal : cycle {cycle}"
        for one in old:
            yield f"w0 scan : scanned {one}"
        yield f"w0 scan : scanned {reference}"
        yield f"endmark : doomed {doomed}"
        yield f"w0 clearnext : cleared {reference}"
        yield "endclear : ok"
        yield f"w0 hand : notice {reference} q0 cycle {cycle} w0"
        yield f"w0 put : added {cycle - 1}"
        yield f"m0 poll q0 : took {reference}"
        yield "m0 release : ok"
        yield f"w0 sweep : swept {doomed}"
        yield "endsweep : ok"


SCRIPTS = {"mixed": mixed, "long": long_cycles, "old": old_among_dead}
GRAPHS = {"chain": lambda: chain("plain"), "weak": lambda: chain("weak"), "random": random_graph}
LOGS = {"numbers": lambda: deaths(False), "names": lambda: deaths(True)}


def write(path, lines):
    size = 0
    with open(path, "w", encoding="ascii") as text:
        for line in lines:
            size += len(line) + 1
            if size > MOST_BYTES:
                return
            text.write(line + "\n")


def write_all(folder):
    """Writes each text under its name, unless it is there."""
    os.makedirs(folder, exist_ok=True)
    for name, make in (SCRIPTS | GRAPHS | LOGS).items():
        path = os.path.join(folder, name)
        if not os.path.exists(path):
            write(path, make())


if __name__ == "__main__":
    if len(sys.argv) != 2 or sys.argv[1].startswith("-"):
        sys.exit(__doc__.strip())
    write_all(sys.argv[1])
