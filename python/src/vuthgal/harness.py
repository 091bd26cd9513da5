"""Threads that make calls which may wait, for a test of a port.

    with Callers(2) as callers:
        callers.call(0, phaser.arrive_and_await_advance)
        assert callers.waits(0)
        callers.call(1, phaser.arrive)
        assert callers.outcome(0) == ("=", 1)
"""
import queue
import threading
from types import TracebackType
from typing import Any, Callable, List, Optional, Tuple, Type

from ._errors import Error

#: `=` and what the call returned, or `throw` and what it raised.
Outcome = Tuple[str, Any]
_Call = Tuple[Callable[..., Any], Tuple[Any, ...]]


class StillWaits(Error, TimeoutError):
    """A call should have returned, and hasn't."""


class _Caller:
    """A thread that makes one call after another."""

    def __init__(self) -> None:
        self.calls: "queue.SimpleQueue[Optional[_Call]]" = queue.SimpleQueue()
        self.outcomes: "queue.SimpleQueue[Outcome]" = queue.SimpleQueue()
        self.seen: Optional[Outcome] = None
        threading.Thread(target=self._run, daemon=True).start()

    def _run(self) -> None:
        for call, words in iter(self.calls.get, None):
            try:
                self.outcomes.put(("=", call(*words)))
            except Exception as error:
                self.outcomes.put(("throw", error))

    def look(self, seconds: float) -> Optional[Outcome]:
        """What the call came to, if it ends within so many seconds."""
        if self.seen is None:
            try:
                self.seen = self.outcomes.get(timeout=seconds)
            except queue.Empty:
                pass
        return self.seen


class Callers:
    """Threads that make calls of a port. A call that should return has `patience` seconds; one that should wait is looked at for
    `grace` seconds. One that returns later than that is seen at the next look."""

    def __init__(self, count: int, patience: float = 5.0, grace: float = 0.002) -> None:
        self.patience = patience
        self.grace = grace
        self._callers: List[_Caller] = [_Caller() for _ in range(count)]

    def call(self, caller: int, call: Callable[..., Any], *words: Any) -> None:
        """Lets a caller make a call. The one before has to have ended."""
        one = self._callers[caller]
        one.seen = None
        one.calls.put((call, words))

    def waits(self, caller: int) -> bool:
        """Whether a caller's call goes on."""
        return self._callers[caller].look(self.grace) is None

    def outcome(self, caller: int) -> Outcome:
        """What a caller's call came to. It raises `StillWaits` where the call doesn't end."""
        outcome = self._callers[caller].look(self.patience)
        if outcome is None:
            raise StillWaits(f"the call of caller {caller} still waits after {self.patience} s")
        return outcome

    def close(self) -> None:
        """Ends the callers. One whose call waits ends with that call, or with the process."""
        for one in self._callers:
            one.calls.put(None)

    def __enter__(self) -> "Callers":
        return self

    def __exit__(self, kind: Optional[Type[BaseException]], error: Optional[BaseException], trace: Optional[TracebackType]) -> None:
        self.close()
