"""Kept runs: each mistake in a folder of them is seen, named and placed, and what is right stays green, by the command
and by pytest. `units.py Kept` needs no pytest, `units.py ByPytest` does."""
import io
import os
import re
import resource
import shlex
import signal
import sys
import tempfile
import unittest
from contextlib import redirect_stderr, redirect_stdout
from pathlib import Path
from unittest import mock
from xml.etree import ElementTree as xml

sys.path.insert(0, str(Path(__file__).resolve().parents[2] / "python" / "src"))
import vuthgal  # noqa: E402
from vuthgal.check import command, playing  # noqa: E402

MEETING = b".phaser p 2\n.thread a main\n.thread b main\nmain: paaa r0 p\nout r0\nhalt\n"
# by hand, of docs/PHASER.md: a waits, b ends phase 0, a goes on with its result 1
TRACE = (
    b"1 t0 0 wait\n2 t1 0 = 1 +p0 1\n3 t0 0 = 1\n4 t0 1 out 1\n5 t0 2 end\n6 t1 1 out 1\n7 t1 2 end\nstate 7 7 all\n"
    b"t0 2 ended 0 regs 1 0 0 0 0 0 0 0 stack out 1\nt1 2 ended 0 regs 1 0 0 0 0 0 0 0 stack out 1\np0 1 2 0 2\n"
)
DOOR = (
    b".phaser meet 2\n.cell open\n.thread ann waits\n.thread bob looks\nwaits: ldi r0 1\nsts r0 open\npaaa r1 meet\n"
    b"halt\nlooks: lds r0 open\nbeq r0 r2 gone\npaaa r1 meet\ngone: halt\n"
)
CLOSED = DOOR.replace(b".cell open", b".cell open\n.cell closed")
SPIN, STORE = b".thread a m\nm: jmp m\n", b".thread a m\nm: sts r0 #7\njmp m\n"
RIGHT = {
    "m.asm": MEETING, "m.schedule": b"t0 t1 t0*3 t1*2", "m.trace": TRACE, "r.md": b"",
    "d.asm": DOOR, "d.plan": b"bob. ann.", "d.expect": b"stuck\nann \t waits\r\nopen 1 ; it is open\n",
}
# what is planted beside the runs that are right: files, and with None one is taken away. All is right ..
GREEN = [
    {}, {"m.schedule": None}, {"m.expect": b"p 1 2"}, {".gitattributes": b"*.trace -text"}, {"test_kept.py": b""},
    {"d.asm": CLOSED, "d.expect": b"closed 0\nc1 0"}, {"s.asm": STORE, "s.schedule": b"t0", "s.expect": b"c7 0"},
    {"t.txt": MEETING + b" .run ; its turns\nt0", "t.expect": b"a waits"},
    # none of these endings is taken for one of ours
    {f"m.{it}": b"" for it in (
        "java commands session c go rs js ts py kt html css png svg pdf json yaml yml xml csv log out err sh sed lua"
        " image bak orig png.md text table expr train").split()},
]
# .. or one run isn't: what is said of it, the status, its line, and a part of what is shown
RED = [
    ({"m.trace": TRACE.replace(b"out 1", b"out 5", 1)}, "m: differs 4", 1, 4, "run 4 t0 1 out 1"),
    ({"m.trace": TRACE.replace(b"\n", b"\r\n")}, "m: differs 1", 1, 1, "CR LF"),
    ({"m.trace": b"\xef\xbb\xbf" + TRACE}, "m: not a trace 1", 1, 1, "byte order mark"),
    ({"m.trace": TRACE[:-1]}, "m: differs 11", 1, 11, "no LF"),
    ({"m.trace": TRACE + b"\n"}, "m: differs 12", 1, 12, "trace "),
    ({"m.trace": TRACE[:30]}, "m: not a trace 3", 1, 3, "wanted"),
    ({"m.trace": None}, "m: nothing is expected of it", 1, None, "m.expect"),
    ({"m.trace": TRACE[:30], "m.schedule": None}, "m: not a trace 3", 1, 3, "m.schedule, or a trace"),
    ({"m.schedule": b"t0\nt"}, "m: refused schedule 1 4", 3, 2, "\n ^"),
    ({"m.schedule": b"t0*00000000001000000000"}, "m: ", 1, None, "--choices"),
    ({"m.schedule": b"t0 " * 1000001}, "m: it has 1000001 choices, and may have 1000000", 1, None, "--choices"),
    ({"m.asm": None}, "m.trace: there is no m.asm", 1, None, "taken away"),
    ({"m.plan": b"a."}, "m: it has a schedule and a plan", 1, None, "taken away"),
    ({"m.expect": b"c31 0"}, "m: expected c31 0: no such line", 1, 1, "line 1: c31 0"),
    ({"d.expect": b"closed 0\nc1 0\n#2 0", "d.asm": CLOSED}, "d: expected #2 0: no such line", 1, 3, "#2 0"),
    ({"s.asm": SPIN, "s.plan": b"..", "s.expect": b"live"}, "s: stopped at 1000000 choices", 1, 1, "a count in place"),
    ({"s.asm": b" " * 16777217, "s.schedule": b"t0", "s.expect": b"live"}, "s: read", 5, None, "16777216"),
    ({"d.plan": None}, "d: it has no schedule", 1, None, "d.plan"),
    ({"d.plan": b"bob. anne."}, "d: refused plan 1 4", 3, 1, "NotNamed"),
    ({"d.asm": DOOR.replace(b"lds", b"lsd")}, "d: refused asm 9 3", 3, 9, "looks: lsd"),
    ({"d.asm": b""}, "d: refused load", 3, None, ""),
    ({"d.expect": b"; stuck"}, "d: nothing is expected of it", 1, None, "help"),
    ({"d.expect": b"ended\nann out 5"}, "d: expected ended: state 6 6 stuck", 1, 1, "ann waits at meet (1 of 2"),
    ({"d.expect": b"stuck\n" + b"ann out 7\n" * 5000}, "d: expected t0 out 7: t0 2 waits 0", 1, 2, "and 4995"),
    ({"d.expect": b"anne waits"}, "d: expected anne waits: no such line", 1, 1, "near: ann"),
    ({"d.expect": b"?"}, "d: error: --expect STATE: STATE is ended, all, stuck or live, or words", 2, 1, "line 1: ?"),
    ({"d.expect": b"stu\0ck\n"}, "d: d.expect has a NUL byte, as UTF-16 has", 2, 1, "plain text"),
    ({"d.expect": b"\xef\xbb\xbfstuck\n"}, "d: d.expect has a byte order mark", 2, 1, "plain text"),
    ({"d.expect": b"stuck ; \xe9\n\nann \xe9\n"}, "d: d.expect has a byte that isn't printable ASCII", 2, 3, "plain"),
    ({"d.expect": b"a" * 65537}, "d: d.expect has more than 65536 bytes, and a trace has room for", 2, 1, "plain text"),
    # behind `.run` the lines of the file are counted; a refused choice counts, also where the rest is as expected
    ({"t.txt": MEETING + b".run\nt0 t", "t.expect": b"b ended"}, "t: refused schedule 1 4", 3, 8, "t0 t"),
    ({"t.txt": MEETING + b".run t0", "t.expect": b"b ended"}, "t: refused asm 7 ", 3, 7, ".run t0"),
    ({"t.txt": MEETING + b".run\nt0 t1*3 t7", "t.expect": b"b ended"}, "t: expected t1 ended: 5 t7 -", 1, 8, "from 0"),
    ({"t.txt": MEETING + b".run\nt0", "t.schedule": b""}, "t: it has a schedule in its text and", 1, None, "away"),
    ({"t.txt": MEETING}, "t.txt: it has no line `.run`", 1, None, ".run"),
    ({"m.txt": MEETING + b".run\n"}, "m.txt: m.asm is played in its place", 1, None, "another name"),
    *(({f"m.{it}": b""}, f"m.{it}: its ending is written .{ending}", 1, None, "this ending") for ending, its in (
        ("expect", "expected expects Expect exp expct xpct exct except want"), ("trace", "traces trcae trc trace~"),
        ("plan", "plans pln PLAN plna"), ("schedule", "sched schedul shedule"), ("txt", "TXT")) for it in its.split()),
    ({".h.trace": b""}, ".h.trace: there is no .h.asm", 1, None, ""),
]
USAGE = "bin/check --help says more than this usage: bin/check [OPTION].. FOLDER|RUN..\n"
# a command line, its status, and what it says, or a part of that
SAID = [
    ("kept", 0, "d: as expected\nm: same\n2 passed, 0 failed, not looked at: .sub/ (--below)\n"),
    ("--below kept", 0, "d: as expected\nm: same\n.sub/d: as expected\n.sub/m: same\n4 passed, 0 failed\n"),
    ("kept kept/.sub", 0, "d: as expected\nm: same\nd: as expected\nm: same\n4 passed, 0 failed\n"),
    ("kept/m kept/m.trace --jobs=4 -- kept/m.java", 0, "m: same\nm: same\nm: same\n3 passed, 0 failed\n"),
    ("kept/empty kept/m", 1, "kept/empty: no program is in it\nm: same\n1 passed, 1 failed\n"),
    ("--below kept kept/empty", 1, "4 passed, 1 failed\n"),
    ("other", 1, "n.txt: it belongs to no run\nother: no program is in it\n0 passed, 1 failed, 1 left out\n"),
    ("nowhere", 5, "there is no folder or run nowhere\n"), ("kept/m.gone", 5, "there is no"), ("''", 5, "there is no"),
    ("kept/m other/n.txt", 5, "other/n.txt belongs to no run\n"), ("--keep a", 1, "no line at all"),
    ("--junit nowhere/a.xml kept", 5, "nowhere/a.xml can't be written\n"),
    ("", 2, USAGE), ("--junit", 2, USAGE), ("--junit= kept", 2, "--junit has nothing behind it\n" + USAGE),
    ("--wrong kept", 2, USAGE), ("kept --jobs 0", 2, "--jobs is a number"), ("--choices 0 kept", 2, "--choices is a"),
    ("kept --explain some", 2, "--explain is always, auto or never"), ("--keep a b c", 2, "--keep takes NAME"),
    # no file is written over
    *((f"--junit {it} kept", 2, "--junit takes a file to write, and") for it in (
        "kept/m.asm", "kept/new.plan", "other/n.md", "r.xml", "kept")),
    ("--choices 6 kept/m", 1, "m: it has 7 choices, and may have 6\n"), ("--choices 7 kept/m", 0, "m: same\n"),
    ("--help", 0, "  bin/check --keep NAME [WHICH]\n"), ("red", 1, "d: expected ended: state 6 6 stuck\nm: same\n"),
    ("--show red", 1, "see: vuthgal draw red/d.asm --plan-file red/d.plan\n"),
    ("--show --explain never red/d", 1, "stuck\n    red/d.expect:1\n    line 1: ended\n0 passed"),
]
# lines of counts, which of them, the status of --keep, and what it says
LINES = "521 all t0*3 t1*3 t0*2 t1\n9 stuck ?1 bob*3 ann*3\n"
NOT_KEPT = [
    ("x", "", 1, "line 1 of standard input isn't one"), (LINES, "", 2, "standard input has 2 lines"),
    (LINES, "live", 1, "no line live"), (LINES, "3", 1, "no line 3"), ("", "", 1, "no line at all"),
    ("1 all t1*3 t0*3", "", 1, "its run ends as stuck"), ("1 all t1*3 anne*3", "", 3, "refused plan 1 4"),
]
NAMES = {"\x1b[31m": "?[31m", "\x9b31m": "?31m", "##[error]": "#?[error]", "x\nok": "x?ok", "é": "é", "\udcff": "?"}
# the folders of pytest.ini, the words behind pytest, its status, what its last line counts, and the tests that fail
EMPTY = "empty::no program is in it"
BY_PYTEST = [
    ("kept", "", 0, "3 passed"), ("kept", "test_own.py", 0, "1 passed"), ("kept", "kept/d.plan", 0, "1 passed"),
    ("kept", "kept/m.asm::m test_own.py", 0, "2 passed"), ("", "--vuthgal kept", 0, "2 passed"),
    ("", "--vuthgal kept empty", 1, "1 failed, 2 passed", EMPTY), ("kept empty", "", 1, "1 failed, 3 passed", EMPTY),
    ("kept nowhere", "", 4, ""), ("", "--vuthgal kept", 1, "3 failed, 1 passed", "kept/m.schedule::there is no m.asm",
     "kept/m.trace::there is no m.asm", "kept/.hidden::it has runs, and pytest doesn't look at it"),
]


class Folder(unittest.TestCase):
    """A folder `kept` with a run of a schedule, `m`, and one of a plan, `d`."""

    def setUp(self):
        room = tempfile.TemporaryDirectory()
        self.addCleanup(room.cleanup)
        self.addCleanup(os.chdir, os.getcwd())
        os.chdir(room.name)
        self.put({})

    def put(self, files, folder="kept"):
        """Writes the runs that are right, and these files beside them or in their place."""
        os.makedirs(folder, exist_ok=True)
        for name, its in {**RIGHT, **files}.items():
            if its is not None:
                Path(folder, name).write_bytes(its)

    def run_command(self, *words, stdin=""):
        """The status, and what the command says."""
        said = io.TextIOWrapper(io.BytesIO())
        with redirect_stdout(said), redirect_stderr(said), mock.patch("sys.stdin", io.StringIO(stdin)):
            status = command.main(words, "bin/check")
        said.flush()
        return status, said.buffer.getvalue().decode()

    def red(self, *words):
        """The status, and each line that isn't green, with what is shown of it."""
        status, told = self.run_command("--show", *words)
        lines = re.findall(r"(?m)^(?! )(.*)\n((?:    .*\n)*)", told)[:-1]
        return status, {said: shown for said, shown in lines if not said.endswith((": same", ": as expected"))}


class Kept(Folder):
    def test_each_mistake(self):
        for n, files in enumerate(GREEN):
            self.put(files, f"green{n}")
            self.assertEqual(self.red(f"green{n}"), (0, {}), [*files])
        for n, (files, said, status, line, part) in enumerate(RED):
            with self.subTest(said=said):
                self.put(files, f"red{n}")
                its_status, red = self.red(f"red{n}")
                shown = red[next((it for it in red if it.startswith(said)), said)]
                self.assertEqual((its_status, len(red)), (status, 2 if files.get("m.asm", b"") is None else 1))
                self.assertEqual(re.match(r"    [^:]*(?::(\d+))?", shown).group(1), line and str(line))
                self.assertIn(part, shown.replace("\n    ", "\n"))

    def test_what_is_said(self):
        none = dict.fromkeys(RIGHT)
        self.put({"m.java": b""}), self.put({}, "kept/.sub"), self.put(none, "kept/empty")
        self.put({"d.expect": b"ended"}, "red"), self.put({**none, "n.txt": b"notes", "n.md": b"notes"}, "other")
        os.symlink("..", "kept/.sub/up"), os.symlink("kept/m.asm", "r.xml")
        for words, status, part in SAID:
            told = self.run_command(*shlex.split(words))
            self.assertEqual((told[0], part in told[1]), (status, True), (words, told))
        for when, part in (("always", "see: "), ("yes", "yes counts for nothing")):
            with mock.patch.dict(os.environ, VUTHGAL_EXPLAIN=when):
                self.assertIn(part, self.run_command("red")[1])
        self.assertEqual(Path("kept/m.asm").read_bytes(), MEETING)

    def test_what_cant_be_read(self):
        """Also by another user, since nothing is forbidden for root."""
        os.mkfifo("kept/m.expect")
        os.symlink("nowhere", "kept/gone.asm")
        odd = "gone: gone.asm can't be read: it is a link that leads nowhere\nm: m.expect can't be read: it is no ordin"
        self.assertIn(odd, self.run_command("kept/gone", "kept/m")[1])
        self.put({"d.trace": b"old"}, "other")
        os.mkdir("other/closed")
        for mode, names in ((0o755, ". other"), (0, "other/closed other/m.trace"), (0o444, "other/d.trace")):
            for name in names.split():
                os.chmod(name, mode)
        child = os.fork()
        if child == 0:
            if os.getuid() == 0:
                os.setuid(65534)
            told = self.run_command("--update", "other")[1] + self.run_command("other/closed")[1]
            lines = "d: d.trace can't be written\nm: m.trace can't be read: Permission denied\n"
            lines += "0 passed, 2 failed, not looked at: closed/ (--below)\n"
            lines += "other/closed: it can't be read: Permission denied\n0 passed, 1 failed\n"
            os._exit(told != lines)
        self.assertEqual(os.waitpid(child, 0)[1], 0)

    def test_a_run_that_ends_the_library(self):
        def plays(program, *order):
            if program == DOOR:
                os.kill(os.getpid(), signal.SIGSEGV)
            return vuthgal.run(program, *order)

        with mock.patch.object(playing.vuthgal, "run", plays):
            told = self.run_command("kept")
        self.assertEqual(told, (139, "d: the library was ended by signal 11\nm: same\n1 passed, 1 failed\n"))

    def test_traces_whole_or_not_at_all(self):
        self.put({"m.trace": b"old"})
        os.unlink("kept/d.expect")
        before = resource.getrlimit(resource.RLIMIT_FSIZE)
        for most, told, trace in (
            (9, (5, "d: d.trace can't be written\nm: m.trace can't be written\n0 passed, 2 failed\n"), b"old"),
            (before[0], (0, "d: written\nm: written\n2 passed, 0 failed\n"), TRACE),
        ):
            resource.setrlimit(resource.RLIMIT_FSIZE, (most, before[1]))
            self.assertEqual(self.run_command("--update", "kept"), told)
            self.assertEqual(Path("kept/m.trace").read_bytes(), trace)
        self.assertEqual(len(os.listdir("kept")), 7)

    def test_a_line_of_counts(self):
        Path("k.asm").write_bytes(DOOR)
        for lines, which, status, part in NOT_KEPT:
            told = self.run_command("--keep", "k", *which.split(), stdin=lines)
            self.assertEqual((told[0], part in told[1], len(os.listdir("."))), (status, True, 2), told)
        told = self.run_command("--keep", "k.asm", "stuck", stdin=LINES)
        self.assertEqual(told, (0, "k: as expected\n1 passed, 0 failed\n"))
        self.assertEqual((Path("k.plan").read_text(), Path("k.expect").read_text()), ("bob*3 ann*3\n", "stuck\n"))
        self.assertEqual(self.run_command("--keep", "k", "1", stdin=LINES)[0], 5)
        name = "k" * 250  # NAME.plan can be written, and NAME.expect is too long
        os.rename("k.asm", f"{name}.asm")
        self.assertEqual(self.run_command("--keep", name, "2", stdin=LINES)[0], 5)
        self.assertEqual(len(os.listdir(".")), 4)

    def test_reports(self):
        """Plain lines, TAP and JUnit. No name steers a terminal, TAP or GitHub."""
        self.put({f"{name}.trace": b"" for name in (*NAMES, "::error::b", "a#")})
        told = self.run_command("kept")[1]
        for said in NAMES.values():
            self.assertIn(f"\n{said}.trace: there is no {said}.asm\n", told)
        self.assertIn("\n:?error::b.trace: there is no ::error::b.asm\n", told)
        self.put({"a#\x1b[31m.trace": b"", "m.schedule": b"t0 t"}, "other")
        status, told = self.run_command("--tap", "--show", "--junit", "other/r.xml", "other")
        self.assertRegex(told, re.compile("""TAP version 13
ok 1 - d: as expected
not ok 2 - m: refused schedule 1 4
#   other/m.schedule:1:5: Byte: (.*\n)+?\
not ok 3 - a\\\\#\\?\\[31m.trace: there is no a\\\\#\\?\\[31m.asm
#   other/a#\\?\\[31m.trace
#   help: a program of this name, or else the file taken away
1..3
# 1 passed, 1 failed, 1 left out
\\Z"""))
        suite = xml.parse("other/r.xml").getroot().find("testsuite")
        self.assertEqual([suite.get(it) for it in ("name", "tests", "failures", "errors")], ["other", "3", "2", "0"])
        failures = [(case.get("name"), it.get("type"), it.get("message")) for case in suite for it in case]
        left = ("a#?[31m.trace", "left out", "there is no a#?[31m.asm")
        self.assertEqual((status, failures), (3, [("m", "3", "refused schedule 1 4"), left]))


class ByPytest(Folder):
    def pytest(self, *words):
        """The status, what the last line counts, what fails with what is said of it, and all lines: of a forked child,
        which has pytest already, and has to load the rest."""
        import pytest
        child = os.fork()
        if child == 0:
            with open("told", "wb") as told:
                os.dup2(told.fileno(), 1), os.dup2(told.fileno(), 2)
            for it in [it for it in sys.modules if it.startswith("vuthgal")]:
                del sys.modules[it]
            os.environ.update(PYTEST_DISABLE_PLUGIN_AUTOLOAD="1", COLUMNS="160")
            os._exit(pytest.main(["-qrfE", "-p", "no:cacheprovider", "-p", "vuthgal_pytest", *words]))
        status, lines = os.waitpid(child, 0)[1] >> 8, Path("told").read_text().splitlines()
        red = [line.partition(" ")[2] for line in lines if line.startswith(("FAILED", "ERROR "))]
        return status, lines[-1].split(" in ")[0], red, lines

    def test_what_is_asked_for(self):
        """Where nobody asks for it, neither the package nor the library is loaded."""
        own = "import sys\ndef test():\n    assert 'vuthgal_pytest' in sys.modules and 'vuthgal' not in sys.modules\n"
        Path("test_own.py").write_text(own)
        self.assertEqual(self.pytest()[:2], (0, "1 passed"))
        Path("test_own.py").write_text("def test(): pass\n")
        os.mkdir("empty"), os.mkdir("kept/.hidden")
        for folders, words, *told in BY_PYTEST:
            if "kept/.hidden" in str(told) and os.path.exists("kept/m.asm"):
                os.rename("kept/m.asm", "kept/.hidden/m.asm")
            Path("pytest.ini").write_text(f"[pytest]\nvuthgal = {folders}\n")
            status, counted, red, _ = self.pytest(*words.split())
            self.assertEqual([status, counted, *(it.partition(" - ")[0] for it in red)], told)

    def test_places_and_options(self):
        self.put({"m.trace": RED[0][0]["m.trace"], "d.asm": DOOR.replace(b"lds", b"lsd"), "late.plan": b""})
        status, _, _, lines = self.pytest("--vuthgal", "kept", "--junitxml", "report.xml")
        for line in (
            "kept/m.trace:4: differs 4", "    run 4 t0 1 out 1", "    see: vuthgal draw kept/m.asm kept/m.schedule",
            "kept/d.asm:9: refused asm 9 3", "    near: lds", "           ^^^", "kept/late.plan:1: there is no late.asm"
        ):
            self.assertIn(line, lines)
        self.assertEqual((status, len([*xml.parse("report.xml").getroot().iter("failure")])), (1, 3))
        self.assertEqual(self.pytest("--vuthgal", "kept", "--junitxml=kept/m.trace")[0], 4)  # it isn't written over
        told = self.pytest("--vuthgal", "kept/m.asm", "--vuthgal-choices=6")[3]
        self.assertIn("m: it has 7 choices, and may have 6", told)
        self.assertEqual(self.pytest("--vuthgal", "kept/m.asm", "--vuthgal-update")[0], 0)
        self.assertEqual(Path("kept/m.trace").read_bytes(), TRACE)

    def test_each_mistake(self):
        """What the command sees, pytest sees: each row of both tables has a folder here."""
        for n, files in enumerate([it[0] for it in RED] + GREEN):
            self.put(files, f"all/{n}")
        status, _, red, _ = self.pytest("--vuthgal", "all")
        self.assertEqual((status, {it.split("/")[1] for it in red}), (1, {str(n) for n in range(len(RED))}))


if __name__ == "__main__":
    unittest.main()
