#!/usr/bin/env python3
"""The port of kit/ports/python that keeps something of each wait, as a queue does from which nobody takes who is late. With the
word `breaks` it keeps each generation of a barrier that breaks, and nothing else."""

import sys
import threading

import skeleton  # noqa: F401, comes before the others
import port
from barrier import CyclicBarrier

kept = []
right_wait, right_break = threading.Condition.wait, CyclicBarrier._break


def wait(condition, seconds=None):
    kept.append([condition])
    return right_wait(condition, seconds)


def breaks(barrier):
    kept.append(barrier._generation)
    right_break(barrier)


if sys.argv[1:] == ["breaks"]:
    CyclicBarrier._break = breaks
else:
    threading.Condition.wait = wait
port.main()
