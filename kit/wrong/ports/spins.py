#!/usr/bin/env python3
"""The port of kit/ports/python that spins in one place where it should wait, its word: a wait that ignores interrupts, once it is
`interrupted`; a registration that is `held`; or a call at a barrier while another thread runs the `action`, or only that of
`comers` that were interrupted before. With a second word it looks every so many seconds."""

import sys
import threading

import skeleton  # noqa: F401, comes before the others
import port
from threads import current

PLACE = {"interrupted": "await_advance", "held": "bulk_register", "action": "_let_in", "comers": "_let_in"}[sys.argv[1]]
IF_INTERRUPTED = sys.argv[1] in ("interrupted", "comers")
PAUSE = float((sys.argv[2:] + ["0"])[0])
right_wait = threading.Condition.wait


def wait(condition, seconds=None):
    """Who calls it tells the place. A wait that an interrupt ends is begun again, and ends at once."""
    if sys._getframe(1).f_code.co_name != PLACE:
        right_wait(condition, seconds)
    elif IF_INTERRUPTED and not current().interrupted:
        current().wait_interruptibly(condition, seconds) if PLACE == "await_advance" else right_wait(condition, seconds)
    else:
        right_wait(condition, PAUSE)


sys.setswitchinterval(0.0002)    # who answers needn't wait long for the interpreter
threading.Condition.wait = wait
port.main()
