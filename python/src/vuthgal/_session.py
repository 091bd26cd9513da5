"""A program that is played choice by choice."""
import threading
from operator import index
from types import TracebackType
from typing import Any, Hashable, Iterator, List, Optional, Tuple, Type, Union

from ._calls import Text, _program, _told
from ._calls import plan as _planned
from ._errors import Closed, Malformed, NoHistory, NoThread, StepLimit
from ._library import Held
from ._shown import Schedule
from ._text import names
from ._trace import HAS_VALUE, Barrier, Cells, Line, Phaser, State, Thread, What

#: The number of a thread, or its name in the program's text.
ThreadName = Union[int, str]

# by their numbers in the header
_STANDINGS = ("live", "stuck", "all")
_STATUSES = ("runs", "throws", "waits", "waits", "ended", "died")
_WHATS = tuple(What)[:11]
_HAVE_VALUE = tuple(number for number, what in enumerate(_WHATS) if what in HAS_VALUE)
_MARKS = (None, "+p", "+b", "-b")
_KINDS = "CHAX"
# where the numbers of a thread stand, behind its eight registers
_VALUE, _ROW, _OBJECT, _OUTPUTS, _ENTRIES, _STATUS, _INTERRUPTED = range(8, 15)


def _event(thread: int, expiry: bool, event: Tuple[int, ...]) -> Line:
    """The line of an event: its number, value, view, row, object, what and mark."""
    number, value, view, row, at, what, mark = event
    return Line(
        number,
        f"{'x' if expiry else 't'}{thread}",
        thread,
        row,
        _WHATS[what],
        value if what in _HAVE_VALUE else None,
        f"{_MARKS[mark]}{at}" if mark else None,
        view if _MARKS[mark] == "+p" else None,
    )


def _thread(number: int, numbers: Tuple[int, ...], stack: List[Any], outputs: List[int]) -> Thread:
    """A thread of the numbers that a look has of it."""
    status = _STATUSES[numbers[_STATUS]]
    return Thread(
        number,
        numbers[_ROW],
        status,
        numbers[_VALUE] if status in ("throws", "died") else None,
        bool(numbers[_INTERRUPTED]),
        numbers[:_VALUE],
        tuple(f"{_KINDS[kind]}{of}" for of, kind in stack),
        tuple(outputs),
    )


def _place(numbers: Tuple[int, ...]) -> Optional[str]:
    """Where a thread of these numbers waits."""
    return {2: f"p{numbers[_OBJECT]}", 3: f"b{numbers[_OBJECT]}"}.get(numbers[_STATUS])


def _played(status: int, no_thread: str) -> None:
    """Raises what a choice was refused for."""
    if status == 7:
        raise NoThread(no_thread)
    if status == 8:
        raise StepLimit("the session has done all its steps")
    _told(status, b"", b"")


class _Use:
    """The use of a session, for one call. It raises `Closed` where another thread uses it, or it is closed."""

    __slots__ = ("held", "lock")

    def __init__(self, held: Held) -> None:
        self.held = held
        self.lock = threading.Lock()

    def __enter__(self) -> Held:
        if not self.lock.acquire(False):
            raise Closed("another thread uses the session")
        if not self.held.is_open:
            self.lock.release()
            raise Closed("the session is closed")
        return self.held

    def __exit__(self, *error: object) -> None:
        self.lock.release()


def _choices(letter: str, word: int) -> Iterator[str]:
    """The choices of the threads whose bits are set."""
    while word:
        yield f"{letter}{(word & -word).bit_length() - 1}"
        word &= word - 1


class Session:
    """A program that is played choice by choice, as `vuthgal debug` plays it: each step takes as long as the first.

        with vuthgal.Session(program) as session:
            event = session.step("ann")
            session.back()

    One thread may use a session at a time. `close`, or the end of `with`, frees what it holds.
    """

    __slots__ = ("_held", "_text", "_used", "threads")

    def __init__(self, program: Text) -> None:
        self._text = text = _program(program)
        #: the names of the threads, where the program is a text
        self.threads: Tuple[str, ...] = ()
        self._held = Held()
        self._used = _Use(self._held)
        status, line = self._held.open(text)
        _told(status, b"", line)
        self.threads = tuple(name for name, word in names(text) if word.startswith("t"))

    def command(self, line: Union[str, bytes]) -> str:
        """The reply to a command of the debugger, such as `k 3` or `g t0*3 t1`. It raises `Malformed` where the reply would be `?`."""
        command = line.encode("utf-8") if isinstance(line, str) else line
        with self._used as held:
            status, reply = held.command(command)
        if reply == b"?\n":
            raise Malformed(f"no command: {line!r}")
        return _told(status, reply, b"").decode("ascii")

    def _number(self, thread: ThreadName) -> int:
        """The number of a thread. It raises `NoThread` where there is none."""
        if isinstance(thread, str):
            if thread not in self.threads:
                raise NoThread(f"no thread is named {thread!r}")
            return self.threads.index(thread)
        number = index(thread)
        if not 0 <= number <= 63:
            raise NoThread(f"no thread has the number {number}")
        return number

    def _choose(self, thread: ThreadName, expiry: bool) -> Line:
        number = self._number(thread)
        with self._used as held:
            status, event = held.step(number, expiry)
        _played(status, f"no thread has the number {number}")
        return _event(number, expiry, event)

    def step(self, thread: ThreadName) -> Line:
        """Plays a step of a thread. It raises `NoThread` or `StepLimit` where the step is refused: then nothing changes."""
        return self._choose(thread, False)

    def expire(self, thread: ThreadName) -> Line:
        """Lets the timed wait of a thread expire."""
        return self._choose(thread, True)

    def go(self, schedule: str) -> str:
        """Plays a schedule: `end N` where all of it was played, `at N` at a breakpoint, `fault N ..` before a refused choice."""
        return self.command(f"g {schedule}").rstrip("\n")

    def back(self, count: int = 1) -> None:
        """Takes back the last choices, one after another. The newest 4,096 are kept."""
        if count < 0:
            raise Malformed(f"{count} choices can't be taken back")
        with self._used as held:
            for _ in range(count):
                if held.back():
                    raise NoHistory("no choice is kept that could be taken back")

    def go_to(self, played: str, number: int) -> None:
        """Goes to the state after the first `number` choices of `played`, the schedule of what was played from the beginning on. They are
        played anew, so they may be more than 4,096 back. Where it raises, nothing changes."""
        if not 0 <= number < 1 << 64:
            raise Malformed(f"no number of choices: {number}")
        with self._used as held:
            status = held.go_to(played.encode("utf-8"), number)
        if status == 1:
            raise Malformed(f"fewer than {number} choices were played")
        if status == 3:
            raise Malformed("no schedule")
        _played(status, "the schedule has a thread that isn't there")

    def play_plan(self, plan: Text, most: int = 1_000_000) -> Schedule:
        """Begins again, plays a plan of at most `most` choices, and returns its schedule. No breakpoint stops it. What was played goes on if
        its schedule stands before the plan. Where it raises, nothing changes; `Refused` has a `mistake`."""
        schedule = _planned(self._text, plan, most)
        self.go_to(schedule, schedule.choices)
        return schedule

    def enabled(self) -> "tuple[str, ...]":
        """The choices that would do something now, as a schedule has them: `t0`, or `x0` where a timed wait can expire."""
        with self._used as held:
            _, turns, expiries = held.enabled()
        return (*_choices("t", turns), *_choices("x", expiries))

    def copy(self) -> "Session":
        """A second session in the same state, with the same breakpoints, which goes on alone. It has nothing of the past to take
        back."""
        other = object.__new__(Session)
        other._text, other.threads = self._text, self.threads
        other._held = Held()
        other._used = _Use(other._held)
        with self._used as held:
            _told(held.copy_to(other._held), b"", b"")
        return other

    __copy__ = copy

    def __deepcopy__(self, known: object) -> "Session":
        return self.copy()

    def other(self, thread: ThreadName, rest: str = "", expiry: bool = False, most: int = 1_000_000) -> str:
        """The schedule of another run, which makes this choice here: its thread goes on until it waits or ends, then come those
        choices of `rest` that still do something, and then all threads take turns."""
        if not 0 <= most < 1 << 32:
            raise Malformed(f"no number of choices: {most}")
        number = self._number(thread)
        self.waits_at(number)
        with self._used as held:
            status, text = held.other(number, expiry, most, rest.encode("utf-8"))
        if status == 3:
            raise Malformed("no schedule, or one of more than 2,000 choices")
        return _told(status, text, b"").decode("ascii")

    def waits_at(self, thread: ThreadName) -> Optional[str]:
        """Where a thread waits, as `p0` or `b1`; None where it doesn't."""
        number = self._number(thread)
        with self._used as held:
            _, _, threads, *_ = held.look()
        if number >= len(threads):
            raise NoThread(f"no thread has the number {number}")
        return _place(threads[number])

    @property
    def state(self) -> State:
        """How all stand now."""
        with self._used as held:
            _, counts, threads, phasers, barriers, cells = held.look()
            stacks = [held.stack(n) if it[_ENTRIES] else [] for n, it in enumerate(threads)]
            outputs = [held.outputs(n) if it[_OUTPUTS] else [] for n, it in enumerate(threads)]
        choices, steps, *_, standing = counts
        return State(
            choices,
            steps,
            _STANDINGS[standing],
            tuple(_thread(n, it, stacks[n], outputs[n]) for n, it in enumerate(threads)),
            tuple(Phaser(n, *it[:4]) for n, it in enumerate(phasers)),
            tuple(Barrier(n, waiting, bool(broken)) for n, (_, waiting, _, broken) in enumerate(barriers)),
            Cells(tuple((n, value) for n, value in enumerate(cells) if value)),
        )

    def fingerprint(self) -> Hashable:
        """A value for a set of the states that were seen: equal where a look at two sessions of one program finds no difference but the
        counts of choices and steps. A look doesn't see which registers a routine has saved, nor how a released wait will end."""
        with self._used as held:
            _, counts, threads, phasers, barriers, cells = held.look()
            stacks = tuple(tuple(held.stack(n)) for n, it in enumerate(threads) if it[_ENTRIES])
            outputs = tuple(tuple(held.outputs(n)) for n, it in enumerate(threads) if it[_OUTPUTS])
            return (counts[5], tuple(threads), tuple(phasers), tuple(barriers), cells, stacks, outputs, held.enabled())

    def close(self) -> None:
        """Frees what the session holds. A session that is closed raises `Closed`."""
        with self._used.lock:
            self._held.close()

    def __enter__(self) -> "Session":
        return self

    def __exit__(self, kind: Optional[Type[BaseException]], error: Optional[BaseException], trace: Optional[TracebackType]) -> None:
        self.close()

    def __del__(self) -> None:
        held = getattr(self, "_held", None)
        if held is not None:
            held.close()

    def __repr__(self) -> str:
        return f"<Session, {'open' if self._held.is_open else 'closed'}>"
