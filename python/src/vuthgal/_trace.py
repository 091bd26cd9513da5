"""A trace and a state, as values. Each prints as the trace has it."""
from enum import Enum
from typing import Iterator, Mapping, NamedTuple, Optional, Tuple

from ._errors import Malformed


class What(str, Enum):
    """What a choice did. Each is equal to its word."""

    IDLE = "idle"
    OK = "ok"
    RESULT = "="
    OUT = "out"
    WAIT = "wait"
    THROW = "throw"
    ENTER = "enter"
    UNWIND = "unwind"
    CATCH = "catch"
    DIE = "die"
    END = "end"
    #: refused: there is no such thread
    NONE = "none"
    #: refused: the limit of steps
    LIMIT = "limit"

    def __str__(self) -> str:
        return self.value


#: what has a number behind its word
HAS_VALUE = frozenset((What.RESULT, What.OUT, What.THROW, What.CATCH, What.DIE))


class Line(NamedTuple):
    """A line of a trace: what a choice did."""

    #: the number of the choice, from 1
    step: int
    #: `t0`, or `x0` where a timed wait of thread 0 expires
    choice: str
    thread: int
    #: the row at which the thread stood, None where there is no such thread
    row: Optional[int]
    what: What
    #: the number behind `=`, `out`, `throw`, `catch` and `die`
    value: Optional[int] = None
    #: `+p0`, `+b0` or `-b0`: the root that ended a phase, the barrier that tripped or broke
    mark: Optional[str] = None
    #: the view behind `+p0`
    view: Optional[int] = None

    @staticmethod
    def parse(text: str) -> "Line":
        """The line that a text is. It raises `Malformed` where it is none."""
        try:
            line = _line(text)
        except (ValueError, IndexError) as error:
            raise Malformed(f"no line of a trace: {text!r}") from error
        if str(line) != text or line.choice not in (f"t{line.thread}", f"x{line.thread}"):
            raise Malformed(f"no line of a trace: {text!r}")
        return line

    @property
    def text(self) -> str:
        """The line, as the trace has it."""
        return str(self)

    def __str__(self) -> str:
        words = [str(self.step), self.choice, "-" if self.row is None else str(self.row), self.what.value]
        words += [str(word) for word in self[5:] if word is not None]
        return " ".join(words)


class Thread(NamedTuple):
    number: int
    row: int
    #: `runs`, `throws`, `waits`, `ended` or `died`
    status: str
    #: the exception that it throws or died of
    exception: Optional[int]
    interrupted: bool
    registers: Tuple[int, ...]
    #: from the bottom: `C5`, `H7`, `A0`, `X2`
    stack: Tuple[str, ...]
    out: Tuple[int, ...]

    def __str__(self) -> str:
        status = self.status if self.exception is None else f"{self.status}:{self.exception}"
        lists = (("regs", self.registers), ("stack", self.stack), ("out", self.out))
        words = [f"t{self.number}", str(self.row), status, str(int(self.interrupted))]
        return " ".join(words + [str(word) for name, values in lists for word in (name, *values)])


class Phaser(NamedTuple):
    number: int
    #: `getPhase`: negative once it is terminated
    view: int
    parties: int
    arrived: int
    unarrived: int

    def __str__(self) -> str:
        return "p" + " ".join(map(str, self))


class Barrier(NamedTuple):
    number: int
    waiting: int
    broken: bool

    def __str__(self) -> str:
        return f"b{self.number} {self.waiting} {int(self.broken)}"


class Cells(Mapping[int, int]):
    """The cells that aren't 0, by number. It can be hashed."""

    __slots__ = ("_cells",)

    def __init__(self, cells: Tuple[Tuple[int, int], ...]) -> None:
        self._cells = cells

    def __getitem__(self, number: int) -> int:
        return dict(self._cells)[number]

    def __iter__(self) -> Iterator[int]:
        return (number for number, _ in self._cells)

    def __len__(self) -> int:
        return len(self._cells)

    def __hash__(self) -> int:
        return hash(self._cells)

    def __repr__(self) -> str:
        return f"Cells({dict(self._cells)})"


class State(NamedTuple):
    """How all stand. Two states are equal where their texts are, and a set of them works."""

    choices: int
    steps: int
    #: `all`, `stuck` or `live`
    word: str
    threads: Tuple[Thread, ...]
    phasers: Tuple[Phaser, ...]
    barriers: Tuple[Barrier, ...]
    #: the cells that aren't 0
    cells: Cells

    @staticmethod
    def parse(text: str) -> "State":
        """The state that lines are, from `state` on. It raises `Malformed` where they are none."""
        try:
            state = _state(text)
        except (ValueError, IndexError, TypeError, KeyError) as error:
            raise Malformed(f"no state: {text!r}") from error
        if str(state) != text:
            raise Malformed(f"no state: {text!r}")
        return state

    def without_counts(self) -> "State":
        """The same without the counts of choices and steps: for a set of the states that were seen."""
        return self._replace(choices=0, steps=0)

    def __str__(self) -> str:
        lines = [f"state {self.choices} {self.steps} {self.word}"]
        lines += [str(it) for kind in (self.threads, self.phasers, self.barriers) for it in kind]
        lines += [f"c{number} {value}" for number, value in self.cells.items()]
        return "".join(f"{line}\n" for line in lines)


def _line(text: str) -> Line:
    words = text.split(" ")
    step, choice, row, word = words[:4]
    rest = words[4:]
    what = What(word)
    value = int(rest.pop(0)) if what in HAS_VALUE else None
    mark = rest.pop(0) if rest else None
    if mark is not None and mark[:2] not in ("+p", "+b", "-b"):
        raise ValueError("no mark")
    view = int(rest.pop(0)) if rest else None
    return Line(int(step), choice, int(choice[1:]), None if row == "-" else int(row), what, value, mark, view)


def _thread(words: "list[str]") -> Thread:
    status, _, exception = words[2].partition(":")
    stack = words.index("stack")
    out = words.index("out")
    return Thread(
        int(words[0][1:]),
        int(words[1]),
        status,
        int(exception) if exception else None,
        words[3] == "1",
        tuple(map(int, words[5:stack])),
        tuple(words[stack + 1 : out]),
        tuple(map(int, words[out + 1 :])),
    )


def _state(text: str) -> State:
    threads, phasers, barriers, cells = [], [], [], []
    lines = [line.split(" ") for line in text.split("\n")[:-1]]
    _, choices, steps, word = lines[0]
    for words in lines[1:]:
        letter, number = words[0][0], int(words[0][1:])
        if letter == "t":
            threads.append(_thread(words))
        elif letter == "p":
            phasers.append(Phaser(number, *map(int, words[1:])))
        elif letter == "b":
            barriers.append(Barrier(number, int(words[1]), words[2] == "1"))
        else:
            cells.append((number, int(words[1])))
    return State(int(choices), int(steps), word, tuple(threads), tuple(phasers), tuple(barriers), Cells(tuple(cells)))


class Trace:
    """The trace of a run. `str()` and `bytes()` are its text, byte for byte; two are equal where these are."""

    __slots__ = ("_bytes", "_lines", "_state")

    def __init__(self, text: bytes) -> None:
        self._bytes = text
        self._lines: Optional[Tuple[Line, ...]] = None
        self._state: Optional[State] = None

    def _end(self) -> int:
        """Where the state begins. No line of a state begins as its first does, so the last one that does is it."""
        at = self._bytes.rfind(b"\nstate ") + 1
        if not at and not self._bytes.startswith(b"state "):
            raise Malformed("a trace has a line that begins with `state`")
        return at

    @property
    def lines(self) -> Tuple[Line, ...]:
        """A line for each choice."""
        if self._lines is None:
            texts = str(self)[: self._end()].split("\n")[:-1]
            self._lines = tuple(map(Line.parse, texts))
        return self._lines

    @property
    def state(self) -> State:
        """How all stand at the end. The lines before aren't looked at."""
        if self._state is None:
            self._state = State.parse(str(self)[self._end() :])
        return self._state

    def __bytes__(self) -> bytes:
        return self._bytes

    def __str__(self) -> str:
        return self._bytes.decode("latin-1")

    def __repr__(self) -> str:
        try:
            return f"<Trace of {self._bytes.count(10, 0, self._end())} lines, {self.state.word}>"
        except Malformed:
            return f"<no trace, {len(self._bytes)} bytes>"

    def __eq__(self, other: object) -> bool:
        return isinstance(other, Trace) and self._bytes == other._bytes

    def __hash__(self) -> int:
        return hash(self._bytes)
