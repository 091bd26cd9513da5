#!/usr/bin/env python3
"""The port of kit/ports/python that at every ninth end of a phase (or every Nth: its word) wakes nobody, as a race might. The
player's clearing up wakes them, so that the same case passes when it is played again."""

import sys

import skeleton  # noqa: F401, comes before the others
import phaser
import port

EVERY = int((sys.argv[1:] + [9])[0])
ends = 0
right_end = phaser._Tree.end_phase


def end_phase(tree, terminates):
    global ends
    ends += 1
    if ends % EVERY != 0:
        right_end(tree, terminates)
        return
    wake, tree.changed.notify_all = tree.changed.notify_all, lambda: None
    right_end(tree, terminates)
    tree.changed.notify_all = wake


phaser._Tree.end_phase = end_phase
port.main()
