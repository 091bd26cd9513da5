#!/usr/bin/env python3
"""The port of kit/ports/python in which an interrupt of one waiter ends the wait of another, which takes any wake-up for what it
waits for. Its word says whose: of `meetings` (arriveAndAwaitAdvance), or of waits at a barrier while its `action` runs."""

import sys
import time

import skeleton  # noqa: F401, comes before the others
import barrier
import phaser
import port
from threads import BrokenBarrier, current


right_interrupt = port.Actor.interrupt


def interrupt(actor):
    right_interrupt(actor)
    time.sleep(0.1)     # on a busy machine, too, who is woken has come out before the next command


def meet(it):
    phase = it.arrive()
    with it._tree.changed:
        if it._tree.view() == phase:
            it._tree.changed.wait()
    return phase if phase < 0 else it.phase()


def wait(it, generation, index, deadline):
    while it._runner is None and not generation.tripped and not generation.broken:
        it._break_if_interrupted()
        current().wait_interruptibly(it._changed, it._break_if_late(deadline))
    if generation.broken:
        raise BrokenBarrier
    return index


if sys.argv[1] == "meetings":
    phaser.Phaser.arrive_and_await_advance = meet
else:
    barrier.CyclicBarrier._wait = wait
port.Actor.interrupt = interrupt
port.main()
