"""What is written of kept runs: traces anew, and a run from a line of counts."""
import contextlib
import os
import re
from pathlib import Path
from typing import Dict, Sequence

from .. import _calls as vuthgal
from .._errors import Error
from .kept import ENDINGS, Outcome

_WRITABLE = "a folder and a file that may be written, and free space"
_COUNTED = re.compile(r"[0-9]+ ((?:all|stuck|live)(?:[+]died)?)(?: [?][0-9]+)?((?: [^ ]+)+)")


def updated(outcome: Outcome) -> Outcome:
    """Writes the trace that is to be written, whole or not at all. It is another outcome where this can't be done."""
    if outcome.trace is None or outcome.path is None:
        return outcome
    path = Path(os.path.realpath(outcome.path))
    beside = path.with_name(f".{path.name}.{os.urandom(4).hex()}")
    try:
        if path.exists() and not os.access(path, os.W_OK):
            raise PermissionError(f"{path} may not be written")
        with open(beside, "xb") as file:
            file.write(outcome.trace)
        if path.exists():
            beside.chmod(path.stat().st_mode)
        beside.replace(path)
        return outcome
    except OSError:
        return Outcome(f"{outcome.path.name} can't be written", 5, outcome.path, help=_WRITABLE)
    finally:
        if os.path.lexists(beside):
            beside.unlink()


def keep(name: str, lines: Sequence[str], which: str = "") -> str:
    """Keeps a run of NAME.asm from the line of counts whose number or word this is, and returns the run's name. It
    writes NAME.schedule (or NAME.plan) and NAME.expect, both or none."""
    at = name[:-4] if name.endswith(".asm") else name
    for it in ENDINGS[2:]:
        if os.path.lexists(f"{at}.{it}"):
            why = f"{at}.{it} is there already: a copy of the program by another name takes another run"
            raise Outcome(why, 5, help="the files of the other run taken away")
    choices: Dict[str, Sequence[str]] = {}
    for number, line in enumerate(lines, 1):
        counted = _COUNTED.fullmatch(line)
        if not counted:
            raise Outcome(f"line {number} of standard input isn't one that `live --runs` or `plan --seeds` writes", 1)
        choices[str(number)] = counted.groups()
        choices.setdefault(counted[1], counted.groups())
    if not which and len(lines) > 1:
        raise Outcome(f"standard input has {len(lines)} lines: WHICH is the number or the word of one, as stuck", 2)
    if (which or "1") not in choices:
        raise Outcome(f"standard input has no line {which or 'at all'}, so nothing is kept", 1)
    word, order = choices[which or "1"]
    try:
        program = Path(f"{at}.asm").read_bytes()
        state = vuthgal.run(program, vuthgal.plan(program, order)).state
    except Error as error:
        raise Outcome(str(error).split("\n")[0], 3) from None
    dead = [f"t{it.number} died:{it.exception}" for it in state.threads if it.status == "died"]
    ends = state.word + ("+died" if dead else "")
    if ends != word:
        raise Outcome(f"this line is of another program: its run ends as {ends}, so nothing is kept", 1)
    ending = "schedule" if re.fullmatch(r"(?: [tx][0-9]+(?:\*[0-9]+)?)+", order) else "plan"
    expected = "ended" if word == "all" else "\n".join([state.word, *dead])
    with contextlib.ExitStack() as undo:
        try:
            for path, text in ((f"{at}.{ending}", order.strip()), (f"{at}.expect", expected)):
                with open(path, "x") as file:
                    undo.callback(os.unlink, path)
                    file.write(f"{text}\n")
        except OSError as error:
            raise Outcome(f"{at} can't be kept: {error.strerror}", 5, help=_WRITABLE) from None
        undo.pop_all()
    return at
