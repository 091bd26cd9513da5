"""The functions."""
import builtins
import os
import re
from typing import Optional, Union

from ._errors import Differs, Malformed, NoLine, NotATrace, OutOfMemory, Refused, TooLong
from ._library import called, expects, mistaken, version_text
from ._page import app_text, with_texts
from ._shown import INPUTS, Drawing, Mistake, Outcome, Page, Schedule
from ._text import is_image
from ._trace import State, Trace

#: What a page can hold.
MOST_CHOICES = 1_000_000
MOST_TRACE = 16_777_216

#: A text; bytes; or the path of a file that holds them.
Text = Union[str, bytes, bytearray, memoryview, "os.PathLike[str]"]


def _bytes(text: Text) -> bytes:
    if isinstance(text, bytes):
        return text
    if isinstance(text, str):
        return text.encode("utf-8")
    if isinstance(text, (bytearray, memoryview)):
        return bytes(text)
    with open(text, "rb") as file:
        return file.read()


def trace_bytes(trace: Union[Trace, Text]) -> bytes:
    """The bytes of a trace, of its text, or of the file that holds it."""
    return bytes(trace) if isinstance(trace, Trace) else _bytes(trace)


def _program(text: Text) -> bytes:
    """The bytes of a program. A string is its text: one line that looks like the name of a file is a mistake, since no program has one
    line. No file is looked for: the string may be that of a stranger."""
    if isinstance(text, str) and "\n" not in text and (text.endswith((".asm", ".image", ".txt")) or ("/" in text and " " not in text)):
        raise Malformed(f"a string is the text of a program: the file of this name is pathlib.Path({text!r})")
    return _bytes(text)


def _told(status: int, output: bytes, line: bytes) -> bytes:
    """The output, where the call did as it was asked."""
    if status < 2:
        return output
    if status == 3:
        raise Refused(line.decode("ascii").rstrip("\n"), output)
    if status == 4:
        raise OutOfMemory(output)
    if status == 5:
        raise TooLong("an input has more bytes than it may have")
    raise AssertionError(f"the library returns status {status}")


def _one(name: str, text: bytes) -> bytes:
    return _told(*called(name, text, len(text)))


def _two(name: str, first: bytes, second: bytes, *more: int) -> bytes:
    return _told(*called(name, first, len(first), second, len(second), *more))


def run(program: Text, schedule: Optional[Text] = None) -> Trace:
    """Plays a program under a schedule, or, with no schedule, a text under that behind its line `.run`."""
    if schedule is None:
        return Trace(_one("both", _program(program)))
    return Trace(_two("run", _program(program), _bytes(schedule)))


def assemble(text: Text) -> bytes:
    """The image of a program's text."""
    return _one("asm", _program(text))


def list(program: Text) -> str:
    """The canonical text of a program."""
    return _one("list", _program(program)).decode("ascii")


def compare(program: Text, trace: Union[Trace, Text]) -> None:
    """Compares a trace with the run that it names. It raises `Differs` where a line differs, `NotATrace` where it is none."""
    told = _two("compare", _program(program), trace_bytes(trace)).decode("ascii").rstrip()
    if told != "same":
        which = NotATrace if told.startswith("not") else Differs
        raise which(told, int(told.split()[-1]))


def choices(trace: Union[Trace, Text]) -> str:
    """The schedule of a trace. It raises `NotATrace` where it is none."""
    text = trace_bytes(trace)
    status, output, line = called("choices", text, len(text))
    told = _told(status, output, line).decode("ascii")
    if status == 0:
        return told.rstrip("\n")
    lines = told.splitlines()
    raise NotATrace(lines[-1], int(lines[-1].split()[-1]), lines[0] if len(lines) > 1 else "")


def _count(number: int, least: int = 0) -> int:
    """A count, as the library takes it."""
    if not least <= number < 1 << 32:
        raise Malformed(f"no count from {least} to 4294967295: {number}")
    return number


def plan(program: Text, plan: Text, most: int = 1_000_000, names: bool = False) -> Schedule:
    """The schedule that a plan stands for on a program, of at most `most` choices. With `names` threads have their names: it is a plan,
    too. A schedule is a plan, so this also writes a schedule by names. `Refused` has a `mistake`."""
    first, second = _program(program), _bytes(plan)
    status, output, line = called("plan", first, len(first), second, len(second), _count(most), names)
    try:
        schedule = Schedule(_told(status, output, line).decode("ascii").rstrip("\n"))
    except Refused as refused:
        refused.mistake = mistake(first, plan=second)
        raise
    schedule.stopped = status == 1
    return schedule


def seeds(program: Text, plan: Text = "", first: int = 0, count: int = 100, limit: Optional[int] = None, names: bool = False) -> "builtins.list[Outcome]":
    """What a plan and then an order by each of these seeds leads to, the most frequent outcome first: at most 100,000 seeds, each of at
    most `limit` choices."""
    text, steps = _program(program), _bytes(plan)
    most = 0 if limit is None else _count(limit, 1)
    output = _told(*called("seeds", text, len(text), steps, len(steps), _count(first), _count(count), most, names))
    return [Outcome.parse(line) for line in output.decode("ascii").split("\n")[:-1]]


def page(program: Text, schedule: Text, height: int = 720) -> Page:
    """The page that shows a run: the app with its program, its schedule and its trace. It raises `TooLong` where a page would hold more
    choices than 1,000,000, or a longer trace than 16,777,216 bytes."""
    source, tokens = _program(program), _bytes(schedule)
    if sum(int(count or 1) for count in re.findall(rb"[tx]\d+(?:\*(\d{1,10}))?", tokens)) > MOST_CHOICES:
        raise TooLong(f"a page has at most {MOST_CHOICES} choices")
    trace = bytes(run(source, tokens))
    if len(trace) > MOST_TRACE:
        raise TooLong(f"the trace of a page has at most {MOST_TRACE} bytes")
    text = "" if is_image(source) else source.decode("ascii")
    page = with_texts(app_text(), listing=list(source), source=text, schedule=" ".join(tokens.decode("ascii").split()), trace=trace.decode("ascii"))
    return Page(page, height)


def draw(program: Text, schedule: Text, width: int = 80) -> Drawing:
    """A run drawn as text, in lines of at most `width` bytes, from 60 to 1000."""
    if not 60 <= width <= 1000:
        raise Malformed("the width is from 60 to 1000")
    return Drawing(_two("draw", _program(program), _bytes(schedule), width).decode("utf-8"))


def debug(program: Text, commands: Union[Text, "builtins.list[str]"]) -> str:
    """The replies of the debugger to lines of commands."""
    if isinstance(commands, builtins.list):
        commands = "".join(f"{command}\n" for command in commands)
    return _two("debug", _program(program), _bytes(commands)).decode("ascii")


def explain(words: str = "") -> str:
    """What the words of a line mean; without words, what can be asked."""
    text = words.encode("utf-8")
    status, output, line = called("explain", text, len(text))
    if status == 2:
        raise NoLine(words, line.decode("utf-8"))
    return _told(status, output, line).decode("utf-8")


def mistake(program: Text, plan: Optional[Text] = None, schedule: Optional[Text] = None) -> Optional[Mistake]:
    """Where a program is refused, or a plan or a schedule of it, and what helps, as the program shows it at a terminal. None if nothing is
    wrong. Without a plan and a schedule, a text with a line `.run` has its schedule behind that."""
    text = _program(program)
    if plan is not None:
        kind, steps = 1, _bytes(plan)
    elif schedule is not None:
        kind, steps = 2, _bytes(schedule)
    else:
        kind, steps = 0 if is_image(text) else 3, b""
    status, hint, line, place = mistaken(text, kind, steps)
    if status != 3:
        _told(status, b"", line)
        return None
    return Mistake(line.decode("ascii").rstrip("\n"), INPUTS[place[3]], place[0] or None, place[1] or None, place[2], hint.decode("ascii").rstrip("\n"))


def version() -> str:
    """The version of the library, and the sum of its sources, a line each."""
    return version_text()


#: The version of the library, as `2.0.0`.
__version__ = version_text().split("\n")[0].split(" ")[0]


def expect(state: Union[State, Trace, Text], expectation: str) -> bool:
    """Whether a state is as an expectation says, as `vuthgal run --expect` decides it: `all`, `ended`, `stuck`, `live`, or words of a
    line of the state, as `t0 waits`. A trace stands for the state at its end."""
    if isinstance(state, Trace):
        state = state.state
    text = str(state).encode("ascii") if isinstance(state, State) else _bytes(state)
    status = expects(text, expectation.encode("utf-8"))
    if status == 3:
        raise Malformed(f"no expectation: {expectation!r}")
    return status == 0
