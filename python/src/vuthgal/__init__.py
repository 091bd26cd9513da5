"""Vuthgal's commands as functions in this process: the proved code of the program, by ctypes alone.

    >>> import vuthgal
    >>> trace = vuthgal.run(".phaser p 1\\n.thread a main\\nmain: parr r0 p\\nhalt\\n", "t0*2")
    >>> print(trace.lines[0], "|", trace.state.phasers[0])
    1 t0 0 = 0 +p0 1 | p0 1 1 0 1

A program is a text (a string), or the bytes of a text or of an image; a path (`pathlib.Path`) names the file that holds one. The name
of a file as a string is `Malformed`. docs/README.md lists the formats.

Commands with another name here: `asm` is `assemble`, `show` is `page`, and `vuthgal` without arguments is `run` of one text.
"""
from ._calls import (
    __version__,
    assemble,
    choices,
    compare,
    debug,
    draw,
    expect,
    explain,
    list,
    mistake,
    page,
    plan,
    run,
    seeds,
    version,
)
from ._errors import (
    Closed,
    Differs,
    Error,
    Malformed,
    NoHistory,
    NoLibrary,
    NoLine,
    NoThread,
    NotATrace,
    OutOfMemory,
    Refused,
    StepLimit,
    TooLong,
)
from ._library import free_rooms
from ._playground import Playground, playground
from ._session import Session
from ._shown import Drawing, Mistake, Outcome, Page, Schedule
from ._trace import Barrier, Cells, Line, Phaser, State, Thread, Trace, What

__all__ = [
    "Barrier",
    "Cells",
    "Closed",
    "Differs",
    "Drawing",
    "Error",
    "Line",
    "Malformed",
    "Mistake",
    "NoHistory",
    "NoLibrary",
    "NoLine",
    "NoThread",
    "NotATrace",
    "Outcome",
    "OutOfMemory",
    "Page",
    "Phaser",
    "Playground",
    "Refused",
    "Schedule",
    "Session",
    "State",
    "StepLimit",
    "Thread",
    "TooLong",
    "Trace",
    "What",
    "__version__",
    "assemble",
    "choices",
    "compare",
    "debug",
    "draw",
    "expect",
    "explain",
    "free_rooms",
    "list",
    "mistake",
    "page",
    "plan",
    "playground",
    "run",
    "seeds",
    "version",
]
