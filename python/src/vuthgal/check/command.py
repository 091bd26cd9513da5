"""Plays kept runs and compares each with what was kept. A run is NAME.asm with its schedule, NAME.schedule, or with a
plan instead, NAME.plan; or NAME.txt, a text with its schedule after `.run`. What is expected of it is NAME.trace, the
whole trace, or NAME.expect, one expectation a line as `--expect` takes it (what follows `;` is a comment), or both.
Without a schedule NAME.trace is compared with the run of the choices that it names.
  bin/check [OPTION].. FOLDER|RUN..
  bin/check --keep NAME [WHICH]
  FOLDER          each run of the folder, not of the folders in it
  RUN             one run: any of its files, or FOLDER/NAME
  --below         includes the folders in FOLDER, and those in them; one without a run, or a part of one, is skipped
  --show          shows for a failed run the file and the line, what differs (at most five lines of the trace and of the
                  run) or is wrong, and what helps
  --explain WHEN  `always` is `--show`, `never` leaves out what explains and helps, `auto` does neither; without this
                  option VUTHGAL_EXPLAIN decides, as it does for the program
  --tap           prints TAP, version 13, instead of the plain lines
  --junit FILE    also writes FILE, in JUnit's XML: a testcase for each run
  --choices N     a run of more choices fails, and isn't played; without it 1000000
  --jobs N        changes nothing: no run is waited for
  --update        writes traces: each NAME.trace that differs, and one for each run of which nothing is expected yet
  --keep NAME     keeps a run of NAME.asm: writes NAME.schedule (or NAME.plan of a line with names) and NAME.expect from
                  a line on standard input, as `live --runs` and `plan --seeds` write them, and checks the run. WHICH is
                  the line's number, or its word, such as `stuck`; you can leave it out if there is one line
  --help          prints this
Each run has a line: `NAME: same`, `NAME: as expected` (there is no trace), `NAME: differs 4` (the first line of the
trace that differs), or what the program reported. A file of the folder that belongs to no run is left out, and has a
line that says why; a file NAME.OTHER belongs to the run NAME, unless OTHER is nearly one of these endings. Documents
(`.md`) and what pytest reads (`.py`, `.ini`, `.toml`, `.cfg`) are ignored. The last line is `N passed, N failed`, and
`, N left out` if files are. It names folders with runs that weren't looked at. The exit status is 0 if there are runs
and all passed, 1 if a run isn't as expected or a file is left out, and otherwise that of the first program or schedule
that was refused; 2 is a wrong command line, 5 what can't be read or written or isn't there, 130 and 143 are an
interrupt and SIGTERM. VUTHGAL_LIBRARY names another library.
"""
import getopt
import itertools
import os
import re
import signal
import sys
from contextlib import closing
from typing import Dict, List, Optional, Sequence, Tuple

from .keeping import keep
from .kept import ENDINGS, Found, Outcome, named
from .player import outcomes
from .playing import MOST

#: the options that have a value: what it looks like, and what is said of another one
_VALUES = {
    "--explain": ("always|auto|never", "is always, auto or never"),
    "--junit": ("(?s).+", "has nothing behind it"),
    "--choices": ("[1-9][0-9]{0,8}", "is a number from 1 to 999999999"),
    "--jobs": ("[1-9][0-9]{0,3}", "is a number from 1 on"),
    "--keep": ("(?s).+", "has nothing behind it"),
}

#: what was found, what it came to, and all lines that are said of that
_Told = Tuple[Found, Outcome, List[str]]


def clean(text: str) -> str:
    """A text of one line without what steers a terminal, or what GitHub takes for a command."""
    text = re.sub(r"[\x00-\x08\x0a-\x1f\x7f-\x9f\u2028\u2029]|[\ud800-\udfff]", "?", text).replace("##[", "#?[")
    return re.sub(r"^([ \t]*:):", r"\1?", text)


def _lines_of(outcome: Outcome, explain: bool) -> List[str]:
    """What a run came to; of a failure the place, what is wrong there, and with explanations what else there is."""
    if not outcome.status:
        return [outcome.said]
    place = f"{outcome.place}: {outcome.what}" if outcome.what and explain else outcome.place
    return [outcome.said, place, *(it for it in outcome.more if explain or it.startswith(("trace ", "run ", "line ")))]


def _sum_of(told: Sequence[_Told], unlooked: Sequence[str]) -> str:
    """How many passed, failed and were left out, and which folders weren't looked at."""
    passed = sum(not outcome.status for _, outcome, _ in told)
    left = sum(bool(found.left and found.files) for found, _, _ in told)
    line = f"{passed} passed, {len(told) - passed - left} failed" + (f", {left} left out" if left else "")
    if unlooked:
        more = f", and {len(unlooked) - 5} more" if len(unlooked) > 5 else ""
        line += f", not looked at: {', '.join(unlooked[:5])}{more} (--below)"
    return clean(line)


def _junit_of(told: Sequence[_Told]) -> bytes:
    """The report in JUnit's XML: a suite a folder, and a case a run."""
    from xml.etree import ElementTree as xml

    root = xml.Element("testsuites")
    for folder, its in itertools.groupby(told, lambda it: clean(str(it[0].folder))):
        suite = xml.SubElement(root, "testsuite", name=folder)
        for found, outcome, lines in its:
            case = xml.SubElement(suite, "testcase", classname=folder, name=clean(found.title))
            if outcome.status:
                kind, text = "left out" if found.left and found.files else str(outcome.status), [*map(clean, lines)]
                xml.SubElement(case, "failure", type=kind, message=text[0]).text = "\n".join(text)
    for part in (root, *root):
        tests, failures = (str(len([*part.iter(it)])) for it in ("testcase", "failure"))
        part.attrib.update(tests=tests, failures=failures, errors="0")
    return bytes(xml.tostring(root, "us-ascii", xml_declaration=True)).replace(b"><", b">\n<") + b"\n"


def _read(words: Sequence[str]) -> Tuple[Dict[str, str], List[str]]:
    """The options of a command line with their values, and the words besides."""
    options = ["below", "show", "tap", "update", "help", *(f"{it[2:]}=" for it in _VALUES)]
    try:
        found, paths = getopt.gnu_getopt([*words], "h", options)
    except getopt.GetoptError as error:
        raise Outcome(error.msg, 2) from None
    given = dict(found)
    for option, (fits, what) in _VALUES.items():
        if option in given and not re.fullmatch(fits, given[option]):
            raise Outcome(f"{option} {what}", 2)
    when = os.environ.get("VUTHGAL_EXPLAIN") or "auto"
    if not re.fullmatch(_VALUES["--explain"][0], when):
        print(clean(f"VUTHGAL_EXPLAIN is always, auto or never: {when} counts for nothing"), file=sys.stderr)
    if given.setdefault("--explain", when) == "always":
        given["--show"] = ""
    if "--keep" in given and len(paths) > 1:
        raise Outcome("--keep takes NAME, and one word for the line", 2)
    return given, paths


def _write_report(path: str, text: bytes = b"") -> None:
    """Writes a report, over no other file."""
    begin = b""
    try:
        if os.path.isfile(path):
            with open(path, "rb") as file:
                begin = file.read(5)
        if path.rpartition(".")[2] in ENDINGS or os.path.isdir(path) or begin not in (b"", b"<?xml"):
            raise Outcome(f"--junit takes a file to write, and {path} is another file, or a folder", 2)
        with open(path, "wb") as file:
            file.write(text)
    except OSError as error:
        raise Outcome(f"{path} can't be written", 5, help=error.strerror) from None


def _check(given: Dict[str, str], paths: List[str]) -> int:
    """Plays all that is named, and tells of each as soon as it is played. Returns the status of all: the first that
    isn't 1, else whether each passed, and there was one."""
    junit, tap = given.get("--junit"), "--tap" in given
    if junit:
        _write_report(junit)  # what an earlier check wrote there isn't taken for this one's
    if "--keep" in given:
        paths = [keep(given["--keep"], sys.stdin.read().splitlines(), *paths)]
    own = [os.path.realpath(junit)] if junit else [""]
    all_found = [it for it in named(paths, "--below" in given) if [os.path.realpath(file) for file in it.files] != own]
    unlooked = [it.title for it in all_found if it.left and not it.left.status]
    all_found = [it for it in all_found if not it.left or it.left.status]
    told: List[_Told] = []
    if tap:
        print("TAP version 13")
    with closing(outcomes(all_found, "--update" in given, int(given.get("--choices", MOST)))) as played:
        for number, (found, outcome) in enumerate(zip(all_found, played), 1):
            told.append((found, outcome, _lines_of(outcome, given["--explain"] != "never")))
            line, lead = f"{found.title}: {outcome.said}", "    "
            if tap:
                line, lead = f"{'not ' if outcome.status else ''}ok {number} - " + line.replace("#", "\\#"), "#   "
            print(clean(line), *(clean(lead + it) for it in told[-1][2][1:] if "--show" in given), sep="\n")
    print(f"1..{len(told)}\n# {_sum_of(told, unlooked)}" if tap else _sum_of(told, unlooked), flush=True)
    if junit:
        _write_report(junit, _junit_of(told))
    statuses = [outcome.status for _, outcome, _ in told]
    return next((it for it in statuses if it > 1), max(statuses, default=1))


def main(words: Optional[Sequence[str]] = None, name: str = "vuthgal-check") -> int:
    """The command. Returns its status."""
    for it in (signal.SIGHUP, signal.SIGINT, signal.SIGTERM):
        if signal.getsignal(it) != signal.SIG_IGN:
            signal.signal(it, lambda number, _: sys.exit(128 + number))
    for stream in filter(None, (sys.stdout, sys.stderr)):
        stream.reconfigure(encoding="utf-8", errors="replace", newline="\n")  # type: ignore[attr-defined]
    given: Dict[str, str] = {}
    try:
        given, paths = _read(sys.argv[1:] if words is None else words)
        if sys.stdout is None:
            raise OSError(9, "Bad file descriptor")
        if "--help" in given or "-h" in given:
            print((__doc__ or "").replace("bin/check", name), end="", flush=True)
            return 0
        if "--keep" in given or paths:
            return _check(given, paths)
        raise Outcome("", 2)
    except Outcome as ends:
        usage = f"{name} --help says more than this usage: {name} [OPTION].. FOLDER|RUN.." if ends.status == 2 else ""
        helps = [f"    {it}" for it in ends.more] if "--show" in given else []
        print(*map(clean, filter(None, [ends.said, *helps, usage])), sep="\n", file=sys.stderr)
        return ends.status
    except BrokenPipeError:
        os._exit(128 + signal.SIGPIPE)
    except OSError as error:
        why = f"{error.filename} can't be read: " if error.filename else "standard output can't be written: "
        print(clean(why + (error.strerror or "")), file=sys.stderr, flush=True)
        os._exit(5)
