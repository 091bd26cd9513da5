#!/usr/bin/env python3
"""A property test of a port: whatever the calls, the port answers as Vuthgal does, and stands as Vuthgal stands.

    python3 examples/embedding/property_test.py            the right port: 20,000 runs; and by Hypothesis, where it is there
    python3 examples/embedding/property_test.py --faulty   the port with a fault: the fewest calls that show it, and their trace
"""
import random
import sys
import time
from pathlib import Path

HERE = Path(__file__).resolve().parent
sys.path[:0] = [str(HERE), str(HERE.parent.parent / "python" / "src")]

import vuthgal
from phaser_port import FaultyPhaser, IllegalState, Phaser

# a call of the port, and the row that says the same to Vuthgal
CALLS = {
    "register": "preg r0 p",
    "arrive": "parr r0 p",
    "arrive_and_deregister": "pdereg r0 p",
    "force_termination": "pforce p",
}


def program(parties, calls):
    """A program of one thread that makes the calls."""
    rows = "\n".join([*(CALLS[call] for call in calls), "halt"])
    return f".phaser p {parties}\n.thread a main\nmain: {rows}\n"


def traced(parties, calls):
    return vuthgal.run(program(parties, calls), f"t0*{len(calls) + 1}")


def played(port, calls):
    """What the port answers to each call, up to the first that throws, and how it stands then."""
    answers = []
    for call in calls:
        try:
            answer = getattr(port, call)()
        except IllegalState:
            answers.append(("throw", 1))
            break
        answers.append(("ok", None) if answer is None else ("=", answer))
    return answers, (port.view, port.parties)


def agrees(make, parties, calls):
    """Whether a port does on these calls as Vuthgal does."""
    answers, stands = played(make(parties), calls)
    trace = traced(parties, calls)
    phaser = trace.state.phasers[0]
    told = [(line.what, line.value) for line in trace.lines[: len(answers)]]
    return told == answers and (phaser.view, phaser.parties) == stands


def shrunk(make, parties, calls):
    """The fewest calls of this case, and then the fewest parties, that still don't agree."""
    while True:
        smaller = [(p, calls[:n] + calls[n + 1 :]) for n in range(len(calls)) for p in range(4)]
        smaller += [(p, calls) for p in range(parties)]
        case = next((case for case in smaller if not agrees(make, *case)), None)
        if case is None:
            return parties, calls
        parties, calls = case


def first_failure(make, runs, seed=1):
    """The first of so many random cases in which the port doesn't agree."""
    chance = random.Random(seed)
    names = list(CALLS)
    for _ in range(runs):
        parties = chance.randrange(4)
        calls = chance.choices(names, weights=(4, 8, 4, 1), k=chance.randrange(9))
        if not agrees(make, parties, calls):
            return parties, calls
    return None


def by_hypothesis(make):
    """The same by Hypothesis, which shrinks a failing case itself. False where it isn't there."""
    try:
        from hypothesis import given, settings, strategies as some
    except ImportError:
        return False

    @settings(max_examples=500, deadline=None, database=None)
    @given(some.integers(0, 5), some.lists(some.sampled_from(list(CALLS)), max_size=12))
    def holds(parties, calls):
        assert agrees(make, parties, calls)

    holds()
    return True


def main():
    make = FaultyPhaser if "--faulty" in sys.argv[1:] else Phaser
    begun = time.perf_counter()
    failure = first_failure(make, 20000)
    took = time.perf_counter() - begun
    if failure is None:
        print(f"20000 runs agree ({took:.2f} s)", file=sys.stderr)
        if by_hypothesis(make):
            print("so do those of Hypothesis", file=sys.stderr)
        print("agrees")
        return 0
    parties, calls = shrunk(make, *failure)
    answers, stands = played(make(parties), calls)
    print(f"{parties} parties: {', '.join(calls)}")
    print(f"the port answers {answers} and stands at phase {stands[0]} with {stands[1]} parties")
    print(f"Vuthgal's trace:\n{traced(parties, calls)}", end="")
    return 1


if __name__ == "__main__":
    sys.exit(main())
