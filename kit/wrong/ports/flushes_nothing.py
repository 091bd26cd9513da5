#!/usr/bin/env python3
"""The port of kit/ports/python that leaves its lines in a buffer: all of them, or with the word `threads` those of threads."""

import sys

import skeleton  # noqa: F401, comes before the others
import port

output = open(1, "w", buffering=1 << 16, closefd=False)


def say(line):
    with port.writing:
        output.write(line + "\n")
        if line == "ok" and sys.argv[1:] == ["threads"]:
            output.flush()


port.say = say
port.main()
