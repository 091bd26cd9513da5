#!/usr/bin/env python3
"""The port of kit/ports/python that empties a thread's list a moment after it has written that the list has ended: the
thread's next list may be there by then, and is lost."""

import time

import skeleton  # noqa: F401, comes before the others
import port

right = port.Actor.make_list


def make_list(actor, gate):
    right(actor, gate)
    time.sleep(0.5)
    actor.list.clear()


port.Actor.make_list = make_list
port.main()
