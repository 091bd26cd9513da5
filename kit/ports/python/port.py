#!/usr/bin/env python3
"""Speaks the port protocol (kit/PROTOCOL.md, "Port protocol") for the Phaser and the CyclicBarrier of this folder.

    kit/play --port 'python3 kit/ports/python/port.py' kit/cases

Another port in Python writes its own classes in `MAKES` and `CALLS`; the rest stays.
"""

import sys
import threading
import time
from queue import SimpleQueue

import points
from barrier import CyclicBarrier
from phaser import Phaser
from threads import BrokenBarrier, IllegalArgument, IllegalState, Interrupted, Thread, TimedOut, current

THROWN = {IllegalState: 1, IllegalArgument: 2, Interrupted: 3, BrokenBarrier: 4, TimedOut: 5}

phasers, barriers, actors = [], [], {}
advances, actions = {}, {}      # what an onAdvance and an action do in a list: how long, and what
inside = {}                     # and what they call then
listed = []                     # who has a list, and wasn't told to go
writing = threading.Lock()


class Through(Exception):
    """What an onAdvance or an action throws where the player says so: an exception of nobody else's."""

    def __init__(self, number):
        super().__init__(number)
        self.number = number


class AskingPhaser(Phaser):
    """A phaser whose onAdvance asks the player."""

    def on_advance(self, phase, parties):
        number = phasers.index(self)
        if current().passes(f"phaser {number} {phase} {parties}", advances.get(number)):
            first = advances[number][1]
            return first >= 0 and (phase >= first or parties == 0)
        return current().enter(f"phaser {number} {phase} {parties}") != 0


class Actor(Thread):
    """A thread of a case: makes the calls that it is told to make, also in the middle of an onAdvance or an action."""

    def __init__(self, number):
        super().__init__()
        self.number = number
        self.told = SimpleQueue()
        self.list, self.made, self.present, self.own = [], [], None, threading.Lock()
        self.start()

    def run(self):
        self.serve()

    def enter(self, what):
        """Stands at the beginning of an onAdvance or an action, until it is told how that ends."""
        say(f"{self.number} enter {what}")
        return self.serve()

    def passes(self, what, plan):
        """The same in a list, where nobody is asked: notes it, and goes on behind a pause. False where it is in none."""
        if self.present is None:
            return False
        self.present[2].append(f"{self.number} enter {what}")
        pause(plan[0])
        for number, call in inside.get(tuple(what.split()[:2]), ()):
            begun = time.monotonic_ns()
            answer = outcome(*call)
            self.present[2].append(f"{self.number} did {number} {begun} {time.monotonic_ns()} {answer}")
        return True

    def make_list(self, gate):
        points.begin_list()
        gate.wait()
        for number, before, call in self.list:
            pause(before)
            entered = []
            self.present = (number, time.monotonic_ns(), entered)
            answer = outcome(*call)
            ended = time.monotonic_ns()
            with self.own:
                self.made += [*entered, f"{self.number} did {number} {self.present[1]} {ended} {answer}"]
                self.present = None
        with self.own:
            lines = [*self.made, f"{self.number} end"]
            self.list, self.made = [], []
        say("\n".join(lines))

    def so_far(self):
        """What it has done of a list that hasn't ended."""
        with self.own:
            present = self.present
            return [*self.made, *([] if present is None else [f"{self.number} began {present[0]} {present[1]}"])]

    def serve(self):
        """Makes calls until it is told to end what it stands in; answers what that is to answer."""
        while True:
            word, operands = self.told.get()
            if word == "answer":
                return int(operands[0])
            if word == "throw":
                raise Through(int(operands[0]))
            if word == "list":
                self.make_list(operands)
                continue
            say(f"{self.number} {outcome(operands[0], [int(n) for n in operands[1:]])}")


def pause(nanoseconds):
    until = time.monotonic_ns() + nanoseconds
    while nanoseconds > 0 and time.monotonic_ns() < until:
        pass


def say(line):
    with writing:
        print(line, flush=True)


def outcome(method, numbers):
    """Makes a call on the current thread; what became of it, in the protocol's words."""
    return became(CALLS[method], numbers)


def became(call, operands):
    try:
        value = call(*operands)
    except Through as thrown:
        return f"through {thrown.number}"
    except tuple(THROWN) as thrown:
        return f"throw {THROWN[type(thrown)]}"
    except Exception as fault:
        return f"fault {type(fault).__name__} {fault}".replace("\n", " ")
    return "ok" if value is None else f"= {int(value)}"


def number_of(phaser):
    return -1 if phaser is None else phasers.index(phaser)


CALLS = {
    "register": lambda p: phasers[p].register(),
    "bulkRegister": lambda p, count: phasers[p].bulk_register(count),
    "arrive": lambda p: phasers[p].arrive(),
    "arriveAndDeregister": lambda p: phasers[p].arrive_and_deregister(),
    "arriveAndAwaitAdvance": lambda p: phasers[p].arrive_and_await_advance(),
    "awaitAdvance": lambda p, phase: phasers[p].await_advance(phase),
    "awaitAdvanceInterruptibly": lambda p, *rest: phasers[p].await_advance_interruptibly(*rest),
    "forceTermination": lambda p: phasers[p].force_termination(),
    "getPhase": lambda p: phasers[p].phase(),
    "getRegisteredParties": lambda p: phasers[p].registered_parties(),
    "getArrivedParties": lambda p: phasers[p].arrived_parties(),
    "getUnarrivedParties": lambda p: phasers[p].unarrived_parties(),
    "isTerminated": lambda p: phasers[p].is_terminated(),
    "getParent": lambda p: number_of(phasers[p].parent()),
    "getRoot": lambda p: number_of(phasers[p].root()),
    "await": lambda b, *nanoseconds: barriers[b].await_(*nanoseconds),
    "reset": lambda b: barriers[b].reset(),
    "isBroken": lambda b: barriers[b].is_broken(),
    "getNumberWaiting": lambda b: barriers[b].number_waiting(),
    "getParties": lambda b: barriers[b].parties(),
    "interrupted": lambda: current().clear_interrupted(),
    "isInterrupted": lambda: current().interrupted,
    "interrupt": lambda t: actor(t).interrupt(),
}


def begin():
    for each in phasers, barriers, advances, actions, inside:
        each.clear()
    for actor in actors.values():
        actor.interrupted = False


def make_phaser(number, parent, parties, first_phase, advance):
    make = AskingPhaser if advance == "asked" else Phaser
    above = None if parent == "-1" else phasers[int(parent)]
    phasers.append(make(above, int(parties), int(first_phase)))


def make_barrier(number, parties, action):
    barriers.append(CyclicBarrier(int(parties), None if action == "none" else lambda: ask_action(number)))


def ask_action(number):
    plan = actions.get(int(number))
    if not current().passes(f"barrier {number}", plan):
        current().enter(f"barrier {number}")
    elif plan[1] != 0:
        raise Through(plan[1])


def add_inside(kind, at, number, method, *numbers):
    inside.setdefault((kind, at), []).append((number, (method, [int(n) for n in numbers])))


def actor(number):
    if number not in actors:
        actors[number] = Actor(number)
    return actors[number]


def add_to_list(thread, number, before, method, *numbers):
    named = actor(int(thread))
    if named not in listed:
        listed.append(named)
    named.list.append((number, int(before), (method, [int(n) for n in numbers])))


def go():
    gate = threading.Barrier(len(listed))
    for named in listed:
        named.told.put(("list", gate))
    listed.clear()


def tell_so_far():
    for named in list(actors.values()):
        for line in named.so_far():
            say(line)


MAKES = {
    "case": begin,
    "phaser": make_phaser,
    "barrier": make_barrier,
    "lists": lambda: None,
    "inside": add_inside,
    "so-far": tell_so_far,
}
LISTS = {
    "list": add_to_list,
    "advance": lambda number, *plan: advances.update({int(number): [int(n) for n in plan]}),
    "action": lambda number, *plan: actions.update({int(number): [int(n) for n in plan]}),
    "go": go,
}


def main():
    for line in sys.stdin:
        word, *operands = line.split()
        if word == "live":
            say("no its memory has its size at once")
            continue
        if word in MAKES:
            say(became(MAKES[word], operands))
            continue
        if word in LISTS:
            LISTS[word](*operands)
            continue
        named = actor(int(operands[0]))
        if word == "interrupt":
            named.interrupt()
        else:
            named.told.put((word, operands[1:]))


if __name__ == "__main__":
    main()
