"""Threads with an interrupted status, which Python's own don't have, and what the calls of a port throw."""

import threading

import points


class IllegalState(Exception):
    """A call that the state of the object doesn't allow."""


class IllegalArgument(Exception):
    """A number that the call doesn't take."""


class Interrupted(Exception):
    """The calling thread was interrupted; its status is cleared then."""


class BrokenBarrier(Exception):
    """The barrier is broken, or the generation that the thread waited in ended as broken."""


class TimedOut(Exception):
    """The time of a wait is over."""


class Thread(threading.Thread):
    """A thread that others can interrupt. Only such threads may call a Phaser or a CyclicBarrier."""

    def __init__(self):
        super().__init__(daemon=True)
        self.interrupted = False
        self._waits_at = None

    def interrupt(self):
        """Sets the status, and wakes the thread where it waits interruptibly."""
        self.interrupted = True
        points.point()
        condition = self._waits_at
        if condition is not None:
            with condition:
                condition.notify_all()

    def wait_interruptibly(self, condition, seconds=None):
        """Waits at a condition whose lock this thread holds: until it is notified, interrupted, or out of time."""
        self._waits_at = condition      # before the look at the status, since `interrupt` sets that one first
        points.point()
        try:
            if not self.interrupted:
                condition.wait(seconds)
        finally:
            self._waits_at = None

    def clear_interrupted(self):
        """Whether the status was set; it is clear then."""
        was, self.interrupted = self.interrupted, False
        return was


def current():
    return threading.current_thread()
