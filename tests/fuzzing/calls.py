"""Calls of the program in a folder of their own, each judged by the table of exit statuses: the status, and what standard error says
with it; no signal; the last byte of its output; time and memory."""
import functools
import os
import re
import resource
import shlex
import signal

REFUSED = rb"""(?x)refused[ ](
    asm[ ]\d+[ ]([1-9]|1[0-3])
    | image[ ]([12368]|[45][ ]\d+)
    | load[ ]([29]|1[ ](row|thread|phaser|barrier)[ ]\d+|[3-6][ ]\d+|7[ ]\d+[ ][1-6]|8[ ]\d+)
    | schedule[ ][1-3][ ]\d+
    | plan[ ]\d+[ ][1-8]
    | show[ ](1000000|16777216)
    | draw[ ]2000
    )\n"""
# clap's own texts, and below them what may have been meant; `explain` says so itself
WRONG_WORDS = rb"""(?xs)error:[ ](
    .*\nFor[ ]more[ ]information,[ ]try[ ]'--help'\.\n(help:[ ][^\n]*\n)?
    | unrecognized[ ]subcommand[ ].*\nUsage:[ ]vuthgal[ ]help[ ]\[COMMAND\]\.\.\.\n(help:[ ][^\n]*\n)?
    | `explain`[ ]doesn't[ ]know[ ]these[ ]words.*\n
    )"""
# a run that ended otherwise, or a plan that wanted more choices than there are
UNLIKE = rb"(expected [^\n]+\n)*|stopped at 1000000 choices\n"
# what standard error says with each status
SAID = {0: rb"", 1: UNLIKE, 2: WRONG_WORDS, 3: REFUSED, 4: rb"(memory|spawn)\n", 5: rb"(read|write)\n"}
SECONDS_OF_PROCESSOR = 5
SECONDS = 60
MEMORY = 96 * 2**20
ADDRESSES = 2 * 2**30


class Finding(Exception):
    """What is wrong with an answer."""


class Answer:
    """What a call came to."""

    def __init__(self, status, output, errors):
        self.status = status
        self.output = output
        self.errors = errors

    def __eq__(self, other):
        return (self.status, self.output, self.errors) == (other.status, other.output, other.errors)


class Room:
    """A folder in which the program is called, and the calls that were made in it."""

    def __init__(self, program, folder):
        self.program = program
        self.folder = folder
        self.calls = []
        self.is_checked = is_checked(program)

    def put(self, name, data):
        """Writes a file, and answers its name."""
        with open(os.path.join(self.folder, name), "wb") as file:
            file.write(data)
        return name

    def get(self, name):
        with open(os.path.join(self.folder, name), "rb") as file:
            return file.read()

    def call(self, *words, reads="/dev/null", may=(0, 3)):
        """Calls the program with these words and this standard input; only these statuses are right."""
        words = [os.fsencode(word) for word in words]
        self.calls.append(shlex.join([self.program, *map(os.fsdecode, words)]) + " < " + reads)
        status, used = self.spawned(words, reads)
        answer = Answer(status, self.get("output"), self.get("errors"))
        judge(answer, used, self.is_checked)
        if answer.status not in may:
            raise Finding(f"status {answer.status}, {answer.errors[:200]!r}, where only {may} can be")
        return answer

    def spawned(self, words, reads):
        """Runs the program in the folder until it ends, and no longer than the bound; its status, and what it used."""
        made = os.O_WRONLY | os.O_CREAT | os.O_TRUNC
        os.chdir(self.folder)
        streams = [
            (os.POSIX_SPAWN_OPEN, 0, reads, os.O_RDONLY, 0),
            (os.POSIX_SPAWN_OPEN, 1, "output", made, 0o644),
            (os.POSIX_SPAWN_OPEN, 2, "errors", made, 0o644),
        ]
        process = os.posix_spawn(self.program, [b"vuthgal", *words], {}, file_actions=streams)
        if not self.is_checked:
            resource.prlimit(process, resource.RLIMIT_AS, (ADDRESSES, ADDRESSES))
        signal.signal(signal.SIGALRM, lambda number, frame: os.kill(process, signal.SIGKILL))
        signal.alarm(SECONDS)
        _, ended, used = os.wait4(process, 0)
        signal.alarm(0)
        return os.waitstatus_to_exitcode(ended), used


@functools.cache
def is_checked(program):
    """Whether a program looks at each access of its own, as `rt try` builds it: that one may take ten times as long, and as much
    memory as it likes."""
    with open(program, "rb") as file:
        return b"AddressSanitizer" in file.read()


def judge(answer, used, is_checked):
    """Whether an answer is one of the table, within the bounds."""
    said = SAID.get(answer.status)
    if said is None:
        raise Finding(f"status {answer.status}" if answer.status >= 0 else f"signal {-answer.status}")
    if not re.fullmatch(said, answer.errors):
        raise Finding(f"status {answer.status}, and on standard error {answer.errors[:200]!r}")
    if answer.output and not answer.output.endswith(b"\n"):
        raise Finding(f"the output doesn't end with LF: {answer.output[-40:]!r}")
    is_schedule = answer.errors.startswith(b"refused schedule ")
    if answer.status in (2, 3) and answer.output and not is_schedule:
        raise Finding(f"status {answer.status}, and an output: {answer.output[:80]!r}")
    if used.ru_utime + used.ru_stime > (10 * SECONDS_OF_PROCESSOR if is_checked else SECONDS_OF_PROCESSOR):
        raise Finding(f"it took {used.ru_utime + used.ru_stime:.1f} s of a processor")
    # a process that is spawned has this one's memory for a moment, and its peak says so
    own = resource.getrusage(resource.RUSAGE_SELF).ru_maxrss
    if used.ru_maxrss * 1024 > MEMORY and used.ru_maxrss > own and not is_checked:
        raise Finding(f"it took {used.ru_maxrss} kB of memory")
