"""For tests: two traces, and where they part."""
from typing import List, Optional, Union

from ._calls import Text, choices, draw, run, trace_bytes
from ._errors import Error
from ._text import lines_of
from ._trace import Trace


def _shown(lines: List[bytes], at: int) -> str:
    """A line, with what can't be seen of it."""
    if at >= len(lines):
        return "(no line)"
    text = lines[at].decode("ascii", "backslashreplace")
    body = text[:-1] if text.endswith("\n") else f"{text} (no LF)"
    return "".join(sign if sign.isprintable() else repr(sign)[1:-1] for sign in body)


def parting(program: Text, wanted: Union[Trace, Text], got: Union[Trace, Text], width: int = 80) -> Optional[str]:
    """None where two traces of a program are the same. Else the first line in which they part, and a drawing of the run up to it."""
    left, right = (lines_of(trace_bytes(it)) for it in (wanted, got))
    if left == right:
        return None
    at = next((n for n, pair in enumerate(zip(left, right)) if pair[0] != pair[1]), min(len(left), len(right)))
    told = [f"the traces part at line {at + 1}:"]
    told += [f"  {sign} {_shown(lines, at)}" for sign, lines in (("-", left), ("+", right))]
    try:
        played = b"".join(line for line in left[: at + 1] if line[:1].isdigit())
        drawing: str = draw(program, choices(played + b"state\n"), width)
    except Error:
        drawing = ""
    return "\n".join([*told, drawing]).rstrip("\n")


def assert_same_trace(program: Text, wanted: Union[Trace, Text], got: Optional[Union[Trace, Text]] = None) -> None:
    """For pytest: fails with the line in which a trace parts from the one that is wanted. Without `got` the program is played."""
    if got is None:
        got = run(program, choices(wanted))
    told = parting(program, wanted, got)
    if told is not None:
        __tracebackhide__ = True
        raise AssertionError(told)
