#!/usr/bin/env python3
"""The port of kit/ports/python whose waiters wake up every millisecond to look, or so many seconds: with 0 they spin."""

import sys
import threading

import skeleton  # noqa: F401, comes before the others
import port

PAUSE = float((sys.argv[1:] + ["0.001"])[0])
right_wait = threading.Condition.wait
sys.setswitchinterval(0.0002)    # who answers needn't wait long for the interpreter
threading.Condition.wait = lambda condition, seconds=None: right_wait(condition, PAUSE)
port.main()
