"""What the package itself reads of texts: lines, and of a program's the line `.run` and the names. The library reads all else."""
import re
from typing import List, Optional, Tuple

_RUN = re.compile(rb"^[ \t\r]*\.run(?:[ \t\r;][^\n]*)?(?:\n|\Z)", re.M)
_LETTERS = {b".thread": "t", b".phaser": "p", b".barrier": "b", b".cell": "c"}


def is_image(program: bytes) -> bool:
    return program.startswith((b"PBW1", b"PBW2"))


def lines_of(text: bytes) -> List[bytes]:
    """The lines of a text, each with its LF: only an LF ends a line, and the last line may lack it."""
    return re.findall(rb"[^\n]*\n|[^\n]+", text)


def parts(text: bytes) -> Tuple[bytes, Optional[bytes]]:
    """The program of a text, and the schedule behind its line `.run`; None where it has no such line."""
    found = _RUN.search(text)
    return (text[: found.start()], text[found.end() :]) if found else (text, None)


def names(text: bytes) -> List[Tuple[str, str]]:
    """The name of each thread, phaser, barrier and cell of a text, and its word in the state, as `t0`. An image has no names."""
    found: List[Tuple[str, str]] = []
    counts = dict.fromkeys("tpbc", 0)
    for line in [] if is_image(text) else parts(text)[0].split(b"\n"):
        words = line.split(b";")[0].split()
        if len(words) > 1 and words[0] in _LETTERS:
            letter = _LETTERS[words[0]]
            found.append((words[1].decode("latin-1"), f"{letter}{counts[letter]}"))
            counts[letter] += 1
    return found
