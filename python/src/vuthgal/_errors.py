"""What ends a call that doesn't do as it was asked."""
from typing import TYPE_CHECKING, Optional, Tuple

if TYPE_CHECKING:
    from ._shown import Mistake


class Error(Exception):
    """What each of these is."""


class NoLibrary(Error, ImportError):
    """The library can't be loaded, or is another one. The package can't be imported then: it is an `ImportError`."""


class Refused(Error, ValueError):
    """An input is refused. `str()` is the line of it, and what it means."""

    def __init__(self, told: str, output: bytes = b"") -> None:
        super().__init__(told)
        words = told.split()
        #: the line, as the program writes it
        self.told: str = told
        #: which input is refused: asm, image, load, schedule, plan, show or draw
        self.group: str = words[1]
        numbers = words[2:]
        #: the line of the text, from 1, of a program's text and of a plan; else None
        self.line: Optional[int] = int(numbers.pop(0)) if self.group in ("asm", "plan") else None
        #: the number of the kind
        self.kind: int = int(numbers.pop(0))
        #: where it is, in words: a row, a thread, a byte of the schedule
        self.place: Tuple[str, ...] = tuple(numbers)
        #: what was written before: of a schedule, the lines of the choices before its fault
        self.output: bytes = output
        #: of a plan: the place of the mistake in its text, and what helps
        self.mistake: "Optional[Mistake]" = None

    @property
    def meaning(self) -> str:
        """What the line means and what helps, as `vuthgal explain` says it."""
        from ._calls import explain

        return explain(self.told)

    def __str__(self) -> str:
        return f"{self.told}\n{self.meaning}"


class Differs(Error, AssertionError):
    """A trace isn't that of the run."""

    def __init__(self, told: str, line: int) -> None:
        super().__init__(told)
        #: the first line that differs, from 1
        self.line: int = line

    def __reduce__(self) -> Tuple[object, ...]:
        return type(self), (self.args[0], self.line), self.__dict__


class NotATrace(Differs):
    """It is no trace: `line` is the first that is no line of one. `before` is the schedule of the lines before it."""

    def __init__(self, told: str, line: int, before: str = "") -> None:
        super().__init__(told, line)
        self.before: str = before


class NoLine(Error, LookupError):
    """Words to be explained are those of no line. `explain("")` says what can be asked."""

    def __init__(self, words: str, told: str = "") -> None:
        super().__init__(words, told)
        self.told: str = told

    def __str__(self) -> str:
        return str(self.args[0])


class OutOfMemory(Error, MemoryError):
    """There is no memory for a call. `output` is a beginning of what it would have written."""

    def __init__(self, output: bytes) -> None:
        super().__init__("memory")
        self.output: bytes = output


class TooLong(Error, ValueError):
    """An input has more bytes than it may have."""


class Malformed(Error, ValueError):
    """A text is no command, no schedule, no expectation, no line, no state or no trace; or a number is none that a call takes."""


class NoHistory(Error, LookupError):
    """No choice is kept that could be taken back."""


class Closed(Error, ValueError):
    """A session is closed, or another thread uses it."""


class NoThread(Error, LookupError):
    """There is no such thread."""


class StepLimit(Error, OverflowError):
    """A session has done all its steps: 1,000,000,000 of them, or 1,000,000,000,000 choices."""
