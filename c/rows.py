#!/usr/bin/env python3
"""Plays random scripts through the core for C, each as one table, and compares every row with the trace of refrun.

  c/rows.py LIBRARY [COUNT [STEPS]]    1,000 scripts of 300 steps, unless it is said

LIBRARY is a shared object with the core, as docs/EMBEDDING.md makes one. REFRUN names the program refrun, or else it is
the one that `./refrun prove` builds. The scripts are those of `refrun random`, of both versions, with all its parts but
jobs, which are no steps of a world. Kinds, faults and how a step is spelled are read from c/ref.h. What a kind of step
doesn't name is given a large number.

In the first script each number that a reply tells or lists is then changed in turn: each change must be found.

Prints a line with what was compared. Exit status: 0 each row is that of its trace; 1 one isn't, which is printed, or a
change wasn't found; 2 a wrong command line, or there is no program.
"""
import collections
import ctypes as c
import functools
import itertools
import os
import re
import subprocess
import sys

HERE = os.path.dirname(os.path.realpath(__file__))
REFRUN = os.environ.get("REFRUN", os.path.join(HERE, "../crates/refrun_cli/out/refrun_cli"))
PARTS = "moves,batches,soft,hide"
# What a step has where its kind names nothing.
UNNAMED = 4_000_000_000

with open(os.path.join(HERE, "ref.h"), encoding="ascii") as header:
    HEADER = header.read()


def kinds_of(enum):
    """The kinds of an enum of the header: of each its name, its number, and what stands beside it."""
    begin = HEADER.index(f"enum {enum} {{")
    return re.findall(r"REF_(\w+) = (\d+), +/\* (.*?) \*/", HEADER[begin:HEADER.index("};", begin)])


NAMES = {int(kind): name for name, kind, _ in kinds_of("ref_reply_kind")}
FAULTS = {int(fault): name for fault, name in re.findall(r"\b(\d+) ([A-Z][a-z]\w+)", HEADER)}
# The field that each digit of a spelled step stands for.
FIELDS = {digit: name for name, digit in re.findall(r"(\w+) (\d)", re.search(r"step of {kind, (.*?)}", HEADER)[1])}
# What a trace says of each kind of reply.
TOLD = dict(
    IS_OBJECT="object {r.object}", IS_NULL="null", IS_DONE="ok", IS_TRUE="true", IS_FALSE="false",
    IS_NOTICE="notice {r.object} q{r.queue} cycle {r.number} w{r.worker}",
    IS_OWN_NOTICE="notice {r.object} q{r.queue} own",
    IS_NOTICES="notices {listed} q{r.queue} cycle {r.number} w{r.worker}", IS_NOTHING="none",
    IS_ADDED="added {r.number}", IS_ALREADY="already", IS_CLOSED="closed", IS_OUTS="{listed}",
    IS_TOOK="took {r.object}", IS_TOOK_SOME="took {listed}", IS_EMPTY="empty", IS_CYCLE="cycle {r.number}",
    IS_SCANNED="scanned {r.object}", IS_DOOMED="doomed {r.count}", IS_CLEARED="cleared {r.object}",
    IS_KEPT="kept {r.object}", IS_SKIPPED="skipped {r.object}", IS_SWEPT="swept {r.count}",
    IS_SELECTED="selected {r.count}", IS_MOVED="moved {r.object}", IS_REFUSED="refused {r.fault} {fault}")
# How many numbers stand in the list for each that is counted, and the most that one reply lists.
LISTED = {"IS_NOTICES": 1, "IS_OUTS": 2, "IS_TOOK_SOME": 1}
MOST_LISTED = 64


def numbers(*names):
    return [(name, c.c_uint32) for name in names]


class World(c.Structure):
    _fields_ = [("at", c.c_void_p)]


class Config(c.Structure):
    _fields_ = numbers("mutators", "workers", "queues", "cells") + [("span", c.c_uint64), ("scaled", c.c_uint32)]


class Step(c.Structure):
    _fields_ = numbers("kind", "by", "a", "b", "c", "n") + [("clock", c.c_uint64)]


class Reply(c.Structure):
    _fields_ = numbers("kind", "fault", "object", "queue", "worker", "count") + [("number", c.c_uint64)]


def form_of(words):
    """The words of a step without their numbers, which its kind is known by."""
    return tuple("urgent" if word == "normal" else word.rstrip("0123456789") for word in words)


# By its form each kind of step, and the field that each word is for, if it is for one.
FORMS = {form_of(words): (int(kind), ["n" if word == "urgent" else FIELDS.get(word[-1]) for word in words])
         for _, kind, beside in kinds_of("ref_step_kind") for words in [beside.split()]}


def step_of(line):
    """The numbers of a step that is spelled."""
    words = line.split()
    kind, fields = FORMS[form_of(words)]
    step = Step(kind, *[UNNAMED] * 6)
    for field, word in zip(fields, words):
        if field:
            setattr(step, field, word == "urgent" if word in ("urgent", "normal") else int(word.lstrip("mwsq")))
    return step


def words_of(reply, listed):
    """What a trace says of a reply. `listed` gives what replies list, in order."""
    name, some = NAMES.get(reply.kind), ""
    if name not in TOLD:
        return f"kind {reply.kind}"
    if name == "IS_OUTS":
        some = ", ".join(words_of(out_of(listed), listed) for _ in range(reply.count))
    elif name in LISTED:
        some = " ".join(map(str, itertools.islice(listed, reply.count)))
    return TOLD[name].format(r=reply, fault=FAULTS.get(reply.fault), listed=some)


def out_of(listed):
    """What became of a notice that was put in, as a reply: two of the numbers that are listed tell it."""
    kind, number = next(listed, 0), next(listed, 0)
    return Reply(kind, fault=number, number=number)


def play(core, script):
    """Plays the steps of a script as one table. Returns how they are spelled, their replies, and what these list."""
    head, config, *lines = script.splitlines()
    world, count = World(), len(lines)
    *given, span = map(int, config.split()[1:])
    fault = core.ref_world_new(c.byref(world), c.byref(Config(*given, span, head == "refscript 2")))
    if fault != 0:
        sys.exit(f"c/rows.py: no world is made: fault {fault}, {config}")
    table, replies = (Step * count)(*map(step_of, lines)), (Reply * count)()
    listed = (c.c_uint64 * (MOST_LISTED * count))()
    done = core.ref_world_play(c.byref(world), table, c.c_size_t(count), replies, c.c_size_t(count), listed,
                               c.c_size_t(len(listed)))
    core.ref_world_end(c.byref(world))
    if done != count:
        sys.exit(f"c/rows.py: {done} of {count} steps are done")
    return lines, replies, listed


def difference(trace, lines, replies, listed):
    """The first place where the row isn't that of the trace, with both rows."""
    left = iter(listed)
    rows = (f"{place} {line} : {words_of(reply, left)}" for place, (line, reply) in enumerate(zip(lines, replies), 1))
    pairs = enumerate(itertools.zip_longest(rows, trace))
    return next(((place, row, due) for place, (row, due) in pairs if row != due), None)


def told_numbers(replies, listed):
    """Each number that the replies tell or list: the place of its reply, the number, and what writes it."""
    used = 0
    for place, reply in enumerate(replies):
        for field, _ in Reply._fields_:
            yield place, getattr(reply, field), functools.partial(setattr, reply, field)
        for index in range(used, used + LISTED.get(NAMES[reply.kind], 0) * reply.count):
            yield place, listed[index], functools.partial(listed.__setitem__, index)
            used += 1


def find_changes(trace, lines, replies, listed):
    """Changes each of these numbers but 0 in turn. Returns how many, once each change was found at its row."""
    changes = 0
    for place, number, write in told_numbers(replies, listed):
        if number != 0:
            write(number + 1)
            found = difference(trace, lines, replies, listed)
            if found is None or found[0] != place:
                sys.exit(f"c/rows.py: another {number} in row {place + 1} isn't found there: {lines[place]}")
            write(number)
            changes += 1
    return changes


def refrun(words, text=None):
    """What the program prints."""
    return subprocess.run([REFRUN, *words], input=text, check=True, stdout=subprocess.PIPE, text=True).stdout


def main():
    words = sys.argv[1:]
    if not 1 <= len(words) <= 3 or words[0].startswith("-") or not all(word.isdecimal() for word in words[1:]):
        print(__doc__.strip())
        sys.exit(2)
    if not os.access(REFRUN, os.X_OK):
        print(f"c/rows.py: there is no program {REFRUN}", file=sys.stderr)
        sys.exit(2)
    count, steps = [int(word) for word in words[1:]] + [1_000, 300][len(words) - 1:]
    core = c.CDLL(os.path.abspath(words[0]))
    core.ref_world_new.restype, core.ref_world_play.restype = c.c_uint32, c.c_size_t
    rows, kinds, changes = 0, set(), 0
    for seed in range(count):
        script = refrun(["random", str(seed), str(steps), "--with", PARTS])
        trace = refrun(["run"], script).splitlines()[1:]
        played = play(core, script)
        found = difference(trace, *played)
        if found is not None:
            sys.exit(f"c/rows.py: script {seed} differs: the core has\n    {found[1]}\nand the trace\n    {found[2]}")
        if seed == 0:
            changes = find_changes(trace, *played)
        rows += len(trace)
        kinds.update(reply.kind for reply in played[1])
    print(f"{count:,} scripts, {rows:,} rows as in the traces, {len(kinds)} kinds of reply, {changes:,} changes found")


if __name__ == "__main__":
    main()
