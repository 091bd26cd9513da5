"""A CyclicBarrier over one `threading.Condition`, as docs/BEHAVIOUR.md has it, heading "Cyclic barrier"."""

import time

import points
from threads import BrokenBarrier, IllegalArgument, IllegalState, Interrupted, TimedOut, current


class _Generation:
    """The arrivals between two ends. Who waits keeps its own, and finds in it how that one ended."""

    def __init__(self):
        self.tripped = False
        self.broken = False


class CyclicBarrier:
    def __init__(self, parties, action=None):
        if parties < 1:
            raise IllegalArgument
        self._parties = parties
        self._action = action
        self._changed = points.Condition()
        self._generation = _Generation()
        self._waiting = 0
        self._runner = None         # the thread inside the action

    def await_(self, nanoseconds=None):
        deadline = None if nanoseconds is None else time.monotonic_ns() + nanoseconds
        with self._changed:
            self._let_in()
            if self._runner is current():
                raise IllegalState
            if self._generation.broken:
                raise BrokenBarrier
            self._break_if_interrupted()
            index = self._parties - 1 - self._waiting
            if index > 0:
                self._break_if_late(deadline)
                self._waiting += 1
                return self._wait(self._generation, index, deadline)
            if self._action is None:
                return self._trip()
            self._runner = current()
        return self._run_action()

    def _wait(self, generation, index, deadline):
        """Waits for the end of this generation: what it was counts before an interrupt, and that before the time."""
        while not generation.tripped and not generation.broken:
            if self._runner is not None:        # while the action runs nobody leaves
                self._changed.wait()
                continue
            self._break_if_interrupted()
            current().wait_interruptibly(self._changed, self._break_if_late(deadline))
        if generation.broken:
            raise BrokenBarrier
        return index

    def _run_action(self):
        returned = False
        try:
            self._action()
            returned = True
        finally:
            with self._changed:
                self._runner = None
                if returned:
                    self._trip()
                else:
                    self._break()
        return 0

    def _trip(self):
        self._generation.tripped = True
        self._renew()
        return 0

    def _break(self):
        self._generation.broken = True
        self._waiting = 0
        self._changed.notify_all()

    def _renew(self):
        self._generation = _Generation()
        self._waiting = 0
        self._changed.notify_all()

    def _break_if_interrupted(self):
        if current().clear_interrupted():
            self._break()
            raise Interrupted

    def _break_if_late(self, deadline):
        """The seconds that are left, None where there is no end of them."""
        if deadline is None:
            return None
        left = (deadline - time.monotonic_ns()) / 1e9
        if left <= 0:
            self._break()
            raise TimedOut
        return left

    def _let_in(self):
        """While another thread runs the action nobody is let in."""
        while self._runner is not None and self._runner is not current():
            self._changed.wait()

    def reset(self):
        with self._changed:
            self._let_in()
            self._refuse_inside_action()
            if self._waiting > 0:
                self._break()
            self._renew()

    def is_broken(self):
        with self._changed:
            self._let_in()
            return self._generation.broken

    def number_waiting(self):
        with self._changed:
            self._let_in()
            self._refuse_inside_action()
            return self._waiting

    def parties(self):
        return self._parties

    def _refuse_inside_action(self):
        if self._runner is current():
            raise IllegalState
