#!/usr/bin/env python3
"""The port of kit/ports/python with one fault, so that kit/run sees what the player says of it.

    port.py WHEN WHAT        does WHAT in place of the first line that it would write and that begins with WHEN
    port.py without KIND     answers `no` wherever a `phaser`, a `barrier`, or a `case` is to be made, and to `lists`
    port.py old COMMAND      ends where it is given this command, as one it doesn't know

WHAT is one of: `say TEXT` (\\n, \\r, \\xNN as in Python; no LF is added); `also TEXT`, behind the right line; `flood TEXT`
and `endless TEXT`, again and again, with LF or without; `exit N`; `signal N`; `close`, of the output alone; `silence`;
`child`, which starts a process that outlives its parent, and goes on rightly; `warn`, as a race detector does, and goes on.
"""

import os
import subprocess
import sys
import time
from pathlib import Path

sys.path.insert(0, str(Path(__file__).resolve().parent.parent / "ports" / "python"))

import port  # noqa: E402

right_say = port.say
done = False
silent = False


def write(text):
    with port.writing:
        sys.stdout.buffer.write(text.encode("latin-1"))
        sys.stdout.buffer.flush()


def do(what, line):
    global silent
    word, _, text = what.partition(" ")
    text = text.encode().decode("unicode_escape")
    if word == "say":
        write(text)
    elif word == "also":
        write(line + "\n" + text)
    elif word in ("flood", "endless"):
        while True:
            write(text * 1000 + ("\n" if word == "flood" else ""))
    elif word == "exit":
        os._exit(int(text))
    elif word == "signal":
        os.kill(os.getpid(), int(text))
        time.sleep(5)
    elif word == "close":
        os.close(1)
        silent = True
    elif word == "silence":
        silent = True
    elif word == "warn":
        print(f"{'=' * 18}\nWARNING: DATA RACE, as kit/faults/port.py has it\n{text}\n{'=' * 18}", file=sys.stderr, flush=True)
        right_say(line)
    elif word == "child":
        subprocess.Popen(["sleep", "87654"])
        right_say(line)


def say(lines):
    global done
    for line in lines.split("\n"):
        if not silent and not done and line.startswith(sys.argv[1]):
            done = True
            do(sys.argv[2], line)
        elif not silent:
            right_say(line)


def say_without(line):
    global refuses
    right_say("no it makes no " + sys.argv[2] if refuses else line)
    refuses = False


refuses = False


def refuse(*operands):
    global refuses
    refuses = True


if sys.argv[1] == "without":
    port.say = say_without
    port.MAKES[sys.argv[2]] = refuse
elif sys.argv[1] == "old":
    del port.MAKES[sys.argv[2]]
    sys.stderr = open(os.devnull, "w")
else:
    port.say = say
port.main()
while silent:
    time.sleep(1)       # a port that doesn't even end with its input
