"""What a folder has of kept runs, and what it has besides; and what each comes to. Nothing is played here."""
import difflib
import os
import re
from pathlib import Path
from typing import Collection, Dict, List, NamedTuple, Optional, Sequence, Tuple, Union

#: the endings of a run's files
ENDINGS = ("asm", "txt", "schedule", "plan", "trace", "expect")
#: endings of documents, and of what pytest reads: these stand anywhere
IGNORED = ("md", "py", "ini", "toml", "cfg")
_A_PROGRAM = "a program NAME.asm, and NAME.schedule or NAME.plan"
_A_RUN = "a folder with runs, or one run: NAME.asm with NAME.schedule or NAME.plan, or NAME.txt with a line `.run`"
WITH_RUN = "`.run` and the schedule behind it, or the ending .asm"


class Outcome(Exception):
    """What a run came to: `same`, `as expected`, `written`, `differs 4`, .. The status is as the program's: 0 is good.
    It is raised where a look ends before all is looked at, and where a command can't do what it is asked for."""

    def __init__(
        self, said: str, status: int = 0, path: Optional[Path] = None, line: Optional[int] = None, *more: str,
        column: Optional[int] = None, what: str = "", help: str = "", trace: Optional[bytes] = None,
    ) -> None:
        super().__init__(said)
        self.said, self.status, self.trace = said, status, trace
        #: where it is: the file, and perhaps the line and the column from 1; and what is wrong there
        self.path, self.line, self.column, self.what = path, line, column, what
        #: what else there is to show: the lines that differ, what is near, what helps, the command that shows the run
        self.more: Tuple[str, ...] = (*more, f"help: {help}") if help else more

    @property
    def place(self) -> str:
        return ":".join(str(it) for it in (self.path, self.line, self.column) if it)


class Found(NamedTuple):
    """A kept run, or a file or a folder that isn't played."""

    #: its name, behind those of the folders in the one that was named
    title: str
    folder: Path
    #: of a run its program first, then its schedule or plan and what is expected of it; of a folder none
    files: Tuple[Path, ...] = ()
    #: why it isn't played; with the status 0 this is only told
    left: Optional[Outcome] = None


def near_ending(ending: str) -> Optional[str]:
    """Which ending of a run's files this one is, or nearly is: in capitals, cut, with more behind it, other letters."""
    small = ending.lower()
    if small in ENDINGS or len(small) < 3:
        return small if small in ENDINGS else None
    begins = [it for it in ENDINGS[2:] if it.startswith(small) or small.startswith(it)]
    near = begins or difflib.get_close_matches(small, ENDINGS[2:], 1, 0.65)
    return near[0] if near else "expect" if small in ("want", "wanted") else None


def _is_part(name: str) -> bool:
    """Whether a file seems to be of a run."""
    stem, _, ending = name.rpartition(".")
    return bool(stem) and ending != "txt" and near_ending(ending) is not None


def _has_line(path: Path, word: bytes) -> bool:
    """Whether a text has a line that begins with this word, or can't be read, so that it may have one."""
    try:
        found = path.is_file() and re.search(rb"^[ \t\r]*" + word + rb"(?:[\s;]|$)", path.read_bytes(), re.M)
        return bool(found) or path.is_symlink() and not path.exists()
    except OSError:
        return True


def _entries(folder: Path) -> Tuple[List[str], List[str]]:
    """The files and the folders in a folder, in the order of their names, but for what git keeps."""
    with os.scandir(folder) as entries:
        its = sorted((os.fsencode(it.name), it.name, it.is_dir()) for it in entries if it.name != ".git")
    return [name for _, name, is_folder in its if not is_folder], [name for _, name, is_folder in its if is_folder]


def _has_parts(folder: Path, depth: int = 4) -> bool:
    """Whether a folder that isn't looked at has what seems to be of a run, or can't be read."""
    try:
        files, folders = _entries(folder)
    except OSError:
        return True
    return any(map(_is_part, files)) or depth > 0 and any(_has_parts(folder / it, depth - 1) for it in folders)


def _run(folder: Path, stem: str, names: Collection[str], lead: str = "") -> Optional[Found]:
    """The run of this name, where the folder has one among these files. NAME.asm goes before NAME.txt."""
    endings = [it for it in ENDINGS if stem and f"{stem}.{it}" in names]
    if endings[:2] == ["asm", "txt"]:
        del endings[1]
    if endings[:1] not in (["asm"], ["txt"]) or endings == ["txt"] and not _has_line(folder / f"{stem}.txt", rb"\.run"):
        return None
    return Found(lead + stem, folder, tuple(folder / f"{stem}.{it}" for it in endings))


def run_of(path: Union[str, Path]) -> Optional[Found]:
    """The run that a path names: by one of its files, or by its name alone."""
    path = Path(path)
    stems = [path.name, *([path.name.rpartition(".")[0]] if os.path.lexists(path) else [])]
    names = [it for it in (f"{stem}.{it}" for stem in stems for it in ENDINGS) if os.path.lexists(path.parent / it)]
    return next(filter(None, (_run(path.parent, stem, names) for stem in stems)), None)


def _left(path: Path, run: Optional[Found]) -> Optional[Tuple[str, str]]:
    """Why a file is left out, and what helps; or None where it belongs to the run of its name, or to nothing played."""
    stem, dot, ending = path.name.rpartition(".")
    near = near_ending(ending) if dot else None
    if ending in IGNORED or near is None and (run or path.name.startswith(".")) or run and path in run.files:
        return None
    if near and near != ending:
        return f"its ending is written .{near}", "this ending, or one that is less like it"
    if run:
        played = (f"{stem}.asm is played in its place", "another name for one of them")
        return played if ending == "txt" and _has_line(path, rb"\.run") else None
    if ending == "txt" and stem and _has_line(path, rb"\.thread"):
        return "it has no line `.run`", WITH_RUN
    why = f"there is no {stem}.asm" if near and near != "txt" else "it belongs to no run"
    return why, "a program of this name, or else the file taken away"


def _walk(folder: Path, lead: str, below: bool, found: List[Found], has: Dict[str, bool]) -> bool:
    """Finds the runs of a folder in the order of their names, then its files that belong to none; then what is in the
    folders in it. Titles have `lead` in front; where there is one, a folder without a part of a run is passed over.
    Returns whether there is a program. `has` knows this of those that were seen: none is looked at again by a link."""
    try:
        where = os.path.realpath(folder)
        if where in has:
            return has[where]
        names, folders = _entries(folder)
    except OSError as error:
        why = Outcome(f"it can't be read: {error.strerror}", 5, folder, help="permission to read it and to go into it")
        found.append(Found(lead.rstrip("/") or str(folder), folder, (), why))
        return True
    there, stems = frozenset(names), sorted({name.rpartition(".")[0] for name in names}, key=os.fsencode)
    runs = {run.title: run for run in (_run(folder, stem, there, lead) for stem in stems) if run}
    has[where] = bool(runs)
    found += runs.values()
    for name in names if runs or not lead or any(map(_is_part, names)) else []:
        left = _left(folder / name, runs.get(lead + name.rpartition(".")[0]))
        if left:
            found.append(Found(lead + name, folder, (folder / name,), Outcome(left[0], 1, folder / name, help=left[1])))
    for name in folders:
        if below:
            has[where] |= _walk(folder / name, f"{lead}{name}/", True, found, has)
        elif _has_parts(folder / name):
            found.append(Found(f"{lead}{name}/", folder / name, (), Outcome("it isn't looked at")))
    return has[where]


def named(paths: Sequence[Union[str, Path]], below: bool = False) -> List[Found]:
    """All that arguments name: runs, and folders, with `below` with those in them. Hidden files count. A folder without
    a run fails; one that isn't looked at is told. It raises an outcome where an argument is nothing."""
    found: List[Found] = []
    has: Dict[str, bool] = {}
    for it in paths:
        path, run = Path(it), None if os.path.isdir(it) else run_of(it)
        if run:
            found.append(run)
        elif not os.path.isdir(it):
            why = f"{it} belongs to no run" if os.path.lexists(it) else f"there is no folder or run {it}"
            raise Outcome(why, 5, path, help=_A_RUN)
        elif not _walk(path, "", below, found, has):
            helps = _A_PROGRAM if below else "--below looks at the folders in it, too"
            found.append(Found(str(path), path, (), Outcome("no program is in it", 1, path, help=helps)))
    return [it for it in found if not it.left or it.left.status or os.path.realpath(it.folder) not in has]
