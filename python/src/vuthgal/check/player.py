"""Runs played in a child process: one that ends the library ends no check. It is named, and the others are played."""
import contextlib
import multiprocessing
import signal
import threading
from multiprocessing.connection import Connection
from typing import Generator, Iterable

from .keeping import updated
from .kept import Found, Outcome
from .playing import MOST, outcome

_FORK = multiprocessing.get_context("fork")


def outcomes(all_found: Iterable[Found], update: bool = False, most: int = MOST) -> Generator[Outcome, None, None]:
    """What each of these comes to; with `update` traces are written. A process that has threads plays all by itself: a
    child of it may not call the library."""
    child = None
    try:
        for found in all_found:
            if threading.active_count() > 1:
                yield updated(outcome(found, update, most))
                continue
            if child is None:
                ours, theirs = _FORK.Pipe()
                child = _FORK.Process(target=_serve, args=(update, most, ours, theirs))
                child.start()
                theirs.close()
            try:
                ours.send(found)
                its = ours.recv()
            except (EOFError, OSError):
                child.join()
                status, child = child.exitcode or 0, None
                why = f"signal {-status}" if status < 0 else f"status {status}"
                its = Outcome(f"the library was ended by {why}", 128 - status if status < 0 else 1, found.files[0])
            yield updated(its)
    finally:
        if child and child.pid:
            child.kill()
            child.join()


def _serve(update: bool, most: int, parents: Connection, own: Connection) -> None:
    """In the child: an outcome for each that is asked for. It ends with its parent, and by no signal of a terminal."""
    parents.close()
    for it in (signal.SIGINT, signal.SIGTERM, signal.SIGHUP):
        signal.signal(it, signal.SIG_IGN)
    with contextlib.suppress(EOFError, ConnectionError):
        while True:
            own.send(outcome(own.recv(), update, most))
