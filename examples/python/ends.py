#!/usr/bin/env python3
"""Every way in which a small program can end, each with a shortest schedule that leads there. The workbench itself searches for no
order: this is a program of yours, over the library.

    PYTHONPATH=python/src examples/python/ends.py examples/lessons/two-orders.asm"""
import sys
from collections import deque
from pathlib import Path

import vuthgal

MOST = 10_000


def ends(program):
    """The states in which nothing can go on, in the order in which they are found, each with a shortest list of choices."""
    first = vuthgal.Session(program)
    seen, found = {first.fingerprint()}, {}
    ahead = deque([(first, ())])
    while ahead:
        session, choices = ahead.popleft()
        enabled = session.enabled()
        if not enabled:
            found.setdefault(session.state.without_counts(), choices)
        for choice in enabled:
            after = session.copy()
            (after.expire if choice[0] == "x" else after.step)(int(choice[1:]))
            if after.fingerprint() not in seen:
                seen.add(after.fingerprint())
                ahead.append((after, choices + (choice,)))
        session.close()
        if len(seen) > MOST:
            raise SystemExit(f"there are more than {MOST} states")
    return found


if __name__ == "__main__":
    for state, choices in ends(Path(sys.argv[1])).items():
        print(f"{state.word}: {' '.join(choices)}\n{state}")
