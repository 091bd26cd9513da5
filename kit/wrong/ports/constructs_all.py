#!/usr/bin/env python3
"""The port of kit/ports/python whose constructors don't refuse one thing, its word: `negative` or `too-many` parties of a
phaser, a child for which there is `no-room` in its parent, or a `barrier` of no parties."""

import sys

import skeleton  # noqa: F401, comes before the others
import barrier
import phaser
import port
from threads import IllegalArgument, IllegalState

right_phaser, right_barrier = phaser.Phaser.__init__, barrier.CyclicBarrier.__init__


def make_phaser(made, parent=None, parties=0, first_phase=0):
    if sys.argv[1] == "negative" and parties < 0:
        parties = 0
    if sys.argv[1] == "too-many" and parties > phaser.MAX_PARTIES:
        parties = phaser.MAX_PARTIES
    try:
        right_phaser(made, parent, parties, first_phase)
    except IllegalState:
        if sys.argv[1] != "no-room":
            raise


def make_barrier(made, parties, action=None):
    try:
        right_barrier(made, parties, action)
    except IllegalArgument:
        if sys.argv[1] != "barrier":
            raise
        right_barrier(made, 1, action)


phaser.Phaser.__init__, barrier.CyclicBarrier.__init__ = make_phaser, make_barrier
port.main()
