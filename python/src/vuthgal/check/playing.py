"""What a kept run comes to: it is played in this process, and compared with what was kept. Nothing is written here. Of
what is expected `vuthgal.expect` decides; here the names of the program become those of the state."""
import difflib
import itertools
import re
import shlex
from pathlib import Path
from typing import Dict, List, Optional, Set, Tuple

from .. import _calls as vuthgal
from .._errors import Differs, Error, Malformed, NotATrace, Refused, TooLong
from .._shown import Mistake
from .._text import is_image, lines_of, names, parts
from .kept import WITH_RUN, Found, Outcome

#: how many choices a run may have, so that one without an end doesn't hold up the others
MOST = 1_000_000
_WIDE = 5  # so many lines of the trace, of the run, and of expectations are shown
_LOOKED = 2000  # a longer run isn't drawn
_LONGEST = 1 << 24  # so many bytes of an input are read
_WANTED = "wanted STEP tN ROW WHAT, STEP xN ROW WHAT, or the lines of a state, from state CHOICES STEPS WORD on"
_NONE = "error: --expect STATE: STATE is ended, all, stuck or live, or words of a line of the state"
_WORDS = "all, ended, stuck or live, or words of a line of the final state, behind the name of its thing"
#: what no file of expectations has, so that none is taken for one that has a trace, or is of another coding
_STRANGE = (
    (rb"\A()\xef\xbb\xbf", "a byte order mark"),
    (rb"(?s)\A().*\0", "a NUL byte, as UTF-16 has"),
    (rb"(?s)\A().{65537}", "more than 65536 bytes, and a trace has room for more"),
    (rb"(?m)^[^;\n]*?([^\t-\r -~])", "a byte that isn't printable ASCII"),
)
#: the number of a line, what the program says, as `expected t0 out 2: ..`, and what else there is to show
_Unmet = Tuple[int, str, List[str]]


def outcome(found: Found, update: bool = False, most: int = MOST) -> Outcome:
    """What is found comes to: a run of at most so many choices is played, and compared with what was kept. With
    `update` a trace that differs, or of which there is none yet, is `written`: `outcomes` writes it."""
    try:
        return found.left or _Look(found, most).outcome(update)
    except Outcome as ends:
        return ends.with_traceback(None)


def _read(path: Path) -> bytes:
    try:
        if path.is_file():
            return path.read_bytes()
        path.stat()
        why = "it is a folder" if path.is_dir() else "it is no ordinary file"
    except OSError as error:
        why = "it is a link that leads nowhere" if path.is_symlink() and not path.exists() else error.strerror
    raise Outcome(f"{path.name} can't be read: {why}", 5, path, help="a file that may be read")


def _count(schedule: bytes) -> int:
    """How many choices a schedule has at most, without its being played."""
    counts = re.findall(rb"\*0*([0-9]{1,10})", schedule)
    return len(schedule.split()) + sum(map(int, counts)) - len(counts)


def _expectations(path: Path, text: bytes) -> List[Tuple[int, str]]:
    """The expectations of a file, each with its line. A comment begins at `;`. Words have any blanks between them."""
    for pattern, what in _STRANGE:
        strange = re.search(pattern, text)
        if strange:
            line = text.count(b"\n", 0, strange.start(1)) + 1
            raise Outcome(f"{path.name} has {what}", 2, path, line, help="plain text, one expectation a line")
    lines = (" ".join(line.partition(b";")[0].decode("ascii").split()) for line in text.split(b"\n"))
    found = [(number, words) for number, words in enumerate(lines, 1) if words]
    for number, words in found:
        try:
            vuthgal.expect(b"state 0 0 live\n", words)
        except Malformed:
            raise Outcome(_NONE, 2, path, number, f"line {number}: {words}", help=_WORDS) from None
    return found


def _cells(program: bytes) -> Set[str]:
    """The cells that some row of a program reads or writes."""
    rows = vuthgal.list(program if is_image(program) else vuthgal.assemble(program))
    return {f"c{number}" for number in re.findall(r"^(?:lds|sts) \w+ #(\d+)$", rows, re.M)}


def _unmet(program: bytes, state: bytes, refused: Optional[str], expected: List[Tuple[int, str]]) -> List[_Unmet]:
    """What an end doesn't meet: a state, and the line of a choice that was refused, if one was. A cell that the program
    doesn't have isn't 0."""
    things = dict(names(program))
    lines = state.decode("ascii").splitlines()
    by_word = {line.partition(" ")[0]: line for line in reversed(lines)}
    found = []
    for number, text in expected:
        name, _, rest = text.partition(" ")
        word = things.get(name, name) if rest else name
        numbered = f"{word} {rest}" if rest else word
        met, line = vuthgal.expect(state, numbered), by_word.get(word)
        if not rest:
            line = next((it for it in lines if word == "ended" and " all" in lines[0] and " died:" in it), lines[0])
        elif line is None and word[0] == "c":
            is_cell = word in things.values() or word in _cells(program)
            met, line = met and is_cell, f"{word} 0" if is_cell else None
        if refused or not met:
            near = difflib.get_close_matches(name, [*things, *things.values()], 1) if rest and line is None else []
            said = f"expected {numbered}: {refused or line or 'no such line'}"
            found.append((number, said, [f"line {number}: {text}", *(f"near: {it}" for it in near)]))
    return found


class _Look:
    """A look at a run. Its parts are named by the endings of its files."""

    def __init__(self, found: Found, most: int) -> None:
        self.folder, self.name, self.most = found.folder, found.files[0].stem, most
        self.its = found.files[0].suffix[1:]
        self.texts: Dict[str, bytes] = {path.suffix[1:]: _read(path) for path in found.files}
        self.text, self.trace = self.texts[self.its], self.texts.get("trace", b"")
        self.program, behind = parts(self.text) if self.its == "txt" else (self.text, None)
        orders = [it for it in ("txt", "schedule", "plan") if it in self.texts]
        #: which file the schedule is of, and what this has of it
        self.of = (*orders, "trace")[0]
        self.schedule = self.texts.get(self.of, b"") if behind is None else behind
        if self.its == "txt" and behind is None:
            raise self._fails(f"{self.name}.txt has no line `.run`", self.its, WITH_RUN)
        if len(orders) > 1:
            other = "in its text and another" if self.its == "txt" else "and a plan"
            raise self._fails(f"it has a schedule {other}", self.of, "one of them taken away")
        if self.of not in self.texts:
            helps = f"a plan in {self.name}.plan, or a schedule in {self.name}.schedule"
            raise self._fails("it has no schedule", self.its, helps)

    def _path(self, ending: str) -> Path:
        return self.folder / f"{self.name}.{ending}"

    def _fails(self, said: str, ending: str, helps: str) -> Outcome:
        return Outcome(said, 1, self._path(ending), help=helps)

    def _find_schedule(self) -> None:
        """Finds the schedule of a plan or of a trace. It isn't too long."""
        if self.of == "plan":
            planned = vuthgal.plan(self.program, self.schedule, self.most)
            if planned.stopped:
                helps = "a count in place of the dot, or behind `..`, `?7` or `)`, as in `ann*50` and `..*50`"
                said, what = f"stopped at {self.most} choices", "the plan needs more choices"
                raise Outcome(said, 1, self._path("plan"), 1, what=what, help=helps)
            self.schedule = planned.encode()
        elif self.of == "trace":
            self.schedule = vuthgal.choices(self.trace).encode()
        count = _count(self.schedule)
        if count > self.most:
            said = f"it has {count} choices, and may have {self.most}"
            raise self._fails(said, self.of, "fewer choices, or --choices N")

    def _placed(self, said: str, status: int, ending: str, what: str, its: Optional[Mistake], above: int) -> Outcome:
        """What is wrong in a file: of a mistake, that is behind so many lines, its line with a mark, and what helps."""
        if not its or not its.line:
            return Outcome(said, status, self._path(ending), None, *([its.hint] if its else []), what=what)
        line, column = above + its.line, its.column
        shown = [self.texts[ending].split(b"\n")[line - 1].decode("ascii", "replace").rstrip()[:72]]
        if column and column < 72:
            shown.append(" " * (column - 1) + "^" * its.length)
        return Outcome(said, status, self._path(ending), line, *shown, its.hint, column=column, what=what)

    def _refused(self, error: Error) -> Outcome:
        """Why an input is refused."""
        if isinstance(error, TooLong):
            ending = self.its if len(self.text) > _LONGEST else self.of
            return Outcome("read", 5, self._path(ending), what=f"it has more than {_LONGEST} bytes")
        if not isinstance(error, Refused):
            return Outcome(str(error), 4, self._path(self.its))  # out of memory
        ending = self.its if error.group in ("asm", "load", "image") else self.of
        means = re.search(r"^  Means: +(.*)", error.meaning, re.M)
        steps = {self.of: self.texts[self.of]} if self.of in ("plan", "schedule") else {}
        return self._placed(error.told, 3, ending, means[1] if means else "", vuthgal.mistake(self.text, **steps), 0)

    def _see(self) -> str:
        """The command that shows the run."""
        program, order = (shlex.quote(str(self._path(it))) for it in (self.its, self.of))
        lead = {"plan": f" --plan-file {order}", "schedule": f" {order}", "trace": f" --at {order}", "txt": ""}[self.of]
        return f"see: vuthgal {'debug' if self.of == 'trace' else 'draw'} {program}{lead}"

    def _of_trace(self, run: bytes, none: Optional[NotATrace] = None) -> Outcome:
        """How the trace differs from the run; or, without a run, why it names no choices that could be played."""
        other = ""
        if self.trace.startswith(b"\xef\xbb\xbf"):
            other = "the file has a byte order mark"
        elif run and self.trace.replace(b"\r\n", b"\n") == run:
            other = "its lines end with CR LF, perhaps of git: `*.trace -text` in .gitattributes keeps them"
        elif run and self.trace + b"\n" == run:
            other = "its last line has no LF at its end"
        both = enumerate(itertools.zip_longest(lines_of(self.trace), lines_of(run)), 1)
        differ = [(number, pair) for number, pair in both if pair[0] != pair[1]]
        if none:
            differ = differ[none.line - 1 : none.line]
        else:
            try:
                vuthgal.compare(self.program, self.trace)
            except Differs as error:
                none = error if isinstance(error, NotATrace) else None
        shown = []
        for _, pair in differ[: 1 if other else _WIDE]:
            its = (f"{who} {line[:400].decode('latin-1')}" for who, line in zip(("trace", "run"), pair) if line)
            shown += [it.replace("\r", "^M").rstrip("\n") for it in its]
        if self.of == "trace" and not other:
            other = f"{self.name}.schedule, or a trace as `vuthgal run` writes it; --update needs the schedule"
        helps = other or "a plan or schedule that fits the program; or where the change was meant, --update"
        more = [*(shown or ["trace ends here"]), *([_WANTED] if none else []), f"help: {helps}"]
        more += [self._see()] if run else []
        said, line = (str(none.args[0]), none.line) if none else (f"differs {differ[0][0]}", differ[0][0])
        return Outcome(said, 1, self._path("trace"), line, *more)

    def _otherwise(self, wrong: List[_Unmet], refused: Optional[str]) -> Outcome:
        """How the end isn't as expected, and who waits where then, or died."""
        (line, said, _), text = wrong[0], self.texts[self.of]
        if refused and refused.endswith(" none") and self.of in ("schedule", "txt"):
            why = "none: the program has no such thread, and the rest of the schedule wasn't played"
            above = text.count(b"\n", 0, len(text) - len(self.schedule))
            return self._placed(said, 1, self.of, why, vuthgal.mistake(self.program, plan=self.schedule), above)
        more: List[str] = []
        for _, its, (first, *near) in wrong[:_WIDE]:
            more += [first, *([its] if more else []), *near]
        if len(wrong) > _WIDE:
            more.append(f"and {len(wrong) - _WIDE} more")
        if _count(self.schedule) <= _LOOKED:
            try:
                drawn = vuthgal.draw(self.program, self.schedule, 1000).splitlines()
                more += [it for it in drawn if re.match(r"\S+ (waits at|died of) ", it)]
            except Error:
                pass
        return Outcome(said, 1, self._path("expect"), line, *more, self._see())

    def outcome(self, update: bool) -> Outcome:
        has_trace, has_expect = "trace" in self.texts, "expect" in self.texts
        expectations = _expectations(self._path("expect"), self.texts["expect"]) if has_expect else []
        if not has_trace and not expectations and (has_expect or not update):
            helps = f"what shall hold in {self.name}.expect, or --update, which writes {self.name}.trace"
            raise self._fails("nothing is expected of it", self.its, helps)
        try:
            self._find_schedule()
            run = bytes(vuthgal.run(self.text) if self.its == "txt" else vuthgal.run(self.program, self.schedule))
        except NotATrace as error:
            return self._of_trace(b"", error)
        except Error as error:
            return self._refused(error)
        if self.of == "trace" and self.trace != run:
            return self._of_trace(run)
        at = run.rfind(b"\nstate ") + 1
        last = run[:at].rstrip(b"\n").rpartition(b"\n")[2].decode()
        refused = last if last.endswith((" none", " limit")) else None
        wrong = _unmet(self.program, run[at:], refused, expectations)
        if wrong:
            return self._otherwise(wrong, refused)
        if self.trace == run:
            return Outcome("same")
        if update and (has_trace or not has_expect):
            return Outcome("written", path=self._path("trace"), trace=run)
        return self._of_trace(run) if has_trace else Outcome("as expected")
