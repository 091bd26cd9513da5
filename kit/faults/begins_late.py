#!/usr/bin/env python3
"""The port of kit/ports/python each twelfth call of which begins 200 ms late, while its thread runs, as one that gets no
processor. It is right: the player mustn't say that a call is stuck in it."""

import itertools
import sys
from pathlib import Path

sys.path.insert(0, str(Path(__file__).resolve().parent.parent / "ports" / "python"))

import port  # noqa: E402

EVERY, LATE = 12, 200_000_000
calls = itertools.count(1)
right_outcome = port.outcome


def outcome(method, numbers):
    if method != "isInterrupted" and next(calls) % EVERY == 0:
        port.pause(LATE)
    return right_outcome(method, numbers)


port.outcome = outcome
port.main()
