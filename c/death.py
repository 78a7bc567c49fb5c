"""The death from Python, by ctypes, in two tables of steps: python3 death.py LIBRARY, a shared object with the core."""
import ctypes as c
import sys


def numbers(*names):
    return [(name, c.c_uint32) for name in names]


class World(c.Structure):
    _fields_ = [("at", c.c_void_p)]


class Config(c.Structure):
    _fields_ = numbers("mutators", "workers", "queues", "cells") + [("span", c.c_uint64), ("scaled", c.c_uint32)]


class Step(c.Structure):
    _fields_ = numbers("kind", "by", "a", "b", "c", "n") + [("clock", c.c_uint64)]


class Reply(c.Structure):
    _fields_ = numbers("kind", "fault", "object", "queue", "worker", "count") + [("number", c.c_uint64)]


core = c.CDLL(sys.argv[1])
core.ref_world_play.restype = c.c_size_t
world = World()


def play(*steps):
    """Does the steps and returns the kind and the object of each reply, and what batches list."""
    table, replies, listed = (Step * len(steps))(*steps), (Reply * len(steps))(), (c.c_uint64 * 64)()
    count = c.c_size_t(len(steps))
    done = core.ref_world_play(c.byref(world), table, count, replies, count, listed, c.c_size_t(64))
    assert done == len(steps)
    return [(it.kind, it.object) for it in replies], list(listed)


assert core.ref_world_new(c.byref(world), c.byref(Config(1, 1, 1, 8, 10, 0))) == 0
told, _ = play(Step(0, a=0), Step(2, a=1, b=0), Step(7, a=0), Step(20, clock=5), Step(21), Step(21), Step(22), Step(23))
print("new, weak, drop, begin, scan, scan, endmark, clearnext:", told)
assert told == [(64, 1), (64, 2), (66, 0), (80, 0), (81, 2), (72, 0), (82, 0), (83, 2)]
told, listed = play(Step(24), Step(25), Step(27), Step(15, n=32))
print("endclear, hand, put, polls:", told, "took", listed[0])
assert told == [(66, 0), (69, 2), (73, 0), (78, 0)] and listed[0] == 2
core.ref_world_end(c.byref(world))
assert world.at is None
