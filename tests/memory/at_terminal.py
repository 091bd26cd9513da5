#!/usr/bin/env python3
"""Has each request for memory refused where standard error is a terminal, alone and with all behind it: the call ends with status 4
and `memory`, or all is as ever, but that lines for a person may be missing on the terminal, may end early, or may be the general ones:
without a line and a column, or with what helps anyone.
usage: at_terminal.py VUTHGAL LIBRARY EXAMPLES, the library made of refuse.c"""
import multiprocessing
import os
import re
import select
import sys
import tempfile
import termios
from pathlib import Path

FILES = {
    "bad.asm": ".thread a m\nm: ldi r8 5\nhalt\n",
    "far.asm": ".thread a main\nmain: jmp mian\nhalt\n",
    "twice.asm": ".cell x\n.cell x\n",
    "unloaded.asm": ".phaser p 1\n.thread a m\nm: parr r0 #3\nhalt\n",
    "faulty": "t0 t1\nt0*3 t64\n",
}
COMMANDS = [
    "list bad.asm",
    "list far.asm",
    "list twice.asm",
    "run unloaded.asm faulty",
    "run meeting.asm faulty",
    "show meeting.asm faulty",
    "draw both",
    "run meeting.asm none",
    "asm meeting.asm meeting.asm",
    "rnu",
    "meeting.asm",
    "live meeting.asm --runs 0",
    "live meeting.asm --runs",
    "explain x",
]
# these read from the terminal too, which is at its end
SESSIONS = ["debug meeting.asm", "debug bad.asm", "", "compare meeting.asm -"]


class Terminal:
    """A pseudo-terminal, and the calls whose standard error it is."""

    def __init__(self, program, library):
        self.program = program
        self.library = library
        self.master, self.slave = os.openpty()
        modes = termios.tcgetattr(self.slave)
        modes[1] &= ~termios.OPOST
        termios.tcsetattr(self.slave, termios.TCSANOW, modes)
        os.set_blocking(self.master, False)

    def call(self, words, is_session, environment):
        """Status, standard output, what the terminal was shown, and whether nothing was refused."""
        made = os.O_WRONLY | os.O_CREAT | os.O_TRUNC
        files = [
            (os.POSIX_SPAWN_DUP2, self.slave, 0) if is_session else (os.POSIX_SPAWN_OPEN, 0, "/dev/null", os.O_RDONLY, 0),
            (os.POSIX_SPAWN_OPEN, 1, "output", made, 0o644),
            (os.POSIX_SPAWN_DUP2, self.slave, 2),
            (os.POSIX_SPAWN_OPEN, 3, "told", made, 0o644),
        ]
        process = os.posix_spawn(self.program, ["vuthgal", *words], environment, file_actions=files)
        if is_session:
            os.write(self.master, b"\x04")
        shown, status = b"", None
        while status is None:
            ended, waited = os.waitpid(process, os.WNOHANG)
            status = os.waitstatus_to_exitcode(waited) if ended else None
            while select.select([self.master], [], [], 0 if ended else 0.002)[0]:
                shown += os.read(self.master, 65536)
        return status, Path("output").read_bytes(), shown, Path("told").read_bytes() == b"none\n"

    def refused(self, words, is_session, refusal, request):
        return self.call(words, is_session, {"LD_PRELOAD": self.library, refusal: str(request)})


READ = b"a file or standard input can't be read, doesn't exist, or is too long"


def without_place(line):
    return re.sub(rb"(:[0-9]+)+: ", b": ", line, count=1)


def is_left_of(line, usual):
    """Whether a line may stand where there is less memory than there was for these."""
    return (line in (READ, *usual) or line.startswith(b"help: ") or any(one.startswith(line.rstrip()) for one in usual)
            or without_place(line) in map(without_place, usual))


def judge(answer, usual):
    status, output, shown, _ = answer
    lines = usual[2].splitlines()
    if status == 4 and b"memory\n" in shown and usual[1].startswith(output):
        return "memory"
    if (status, output) != usual[:2] or not all(is_left_of(line, lines) for line in shown.splitlines()):
        return f"status {status}, {output!r}, {shown!r}"
    return "as ever" if shown == usual[2] else "fewer words"


def swept(refused):
    """What comes of one refused request after another: of the first 300, then of one in 89, since a loop asks alike, and of all of
    the last 89. None where there is no last one."""
    request, is_near_end = 1, False
    while request < 20000:
        step = 1 if request <= 300 or is_near_end else 89
        answer = refused(request)
        yield answer
        if answer[3] and step == 1:
            return
        is_near_end = is_near_end or answer[3]
        request += 1 - 2 * step if answer[3] else step
    yield None


def sweep(program, library, examples, command, is_session):
    """What came of a command's calls."""
    came = set()
    with tempfile.TemporaryDirectory() as folder:
        os.chdir(folder)
        meeting = Path(examples, "meeting.asm").read_text()
        for name, text in {**FILES, "meeting.asm": meeting, "both": meeting + ".run\nt0 t99\n"}.items():
            Path(name).write_text(text)
        terminal = Terminal(program, library)
        usual = terminal.call(command.split(), is_session, {})
        for refusal in ("REFUSE_REQUEST", "REFUSE_FROM"):
            for answer in swept(lambda request: terminal.refused(command.split(), is_session, refusal, request)):
                came.add(judge(answer, usual) if answer else "requests without an end")
        os.chdir("/")
    return came


def main(program, library, examples):
    calls = [(command, command in SESSIONS) for command in COMMANDS + SESSIONS]
    parts = [(program, library, examples, *call) for call in calls]
    with multiprocessing.Pool(len(os.sched_getaffinity(0))) as pool:
        answers = pool.starmap(sweep, parts, chunksize=1)
    for (command, _), came in zip(calls, answers):
        for wrong in sorted(came - {"memory", "as ever", "fewer words"}):
            print(f"{command}: {wrong}")
    print(", ".join(sorted(set().union(*answers))))


if __name__ == "__main__":
    main(*map(os.path.abspath, sys.argv[1:]))
