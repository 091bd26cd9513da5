"""Makes the programs that README and docs/ show, and what the program prints. The first mark names a file, or has in lines of its
own the commands of a run, as a reader types them:

<!-- the program examples/meeting.asm, by bin/made examples -->
<!-- end of the program -->

<!-- the run, by bin/made examples
./vuthgal draw examples/two-threads-meet.txt -->
<!-- end of the run -->

Between them comes the text of the file; or the commands, and then what they print. A command knows the variables that a run
before it in the same document has set. A short run needs no marks. It is a block in which each command follows a `$`:

    $ ./vuthgal draw examples/methods/arrive.asm --plan 'ann bob'

With --check each other command of these documents is run, too, as it stands there, in their order and in a folder like a clone:
each block that begins with a command, and of a text what stands in backticks and begins with the program, bin/check or sed. It
has to end with status 0 and say nothing on standard error. Before a command may stand what a reader has been told to make, or
that the status may be 1, or why the command isn't run. And a command may stand that nobody sees, by which what a text says
holds, such as the answer to a question:

<!-- first, by bin/made examples: cp -r examples/tutorial kept -->
<!-- status 0 or 1, by bin/made examples -->
<!-- not run, by bin/made examples: kit/play makes this file -->
<!-- holds, by bin/made examples: ./vuthgal run $lesson --plan 'ann. bob. ann. cem.' --expect ended -->"""
import os
import re
import subprocess
import sys
import tempfile
from pathlib import Path

from marks import TOP

PROGRAM = Path(os.environ.get("VUTHGAL", TOP / "bin" / "vuthgal")).resolve()
PAGES = (TOP / "README.md", *sorted((TOP / "docs").glob("*.md")))
MADE = re.compile(r"(<!-- the (program|run)(?: (\S+))?, by bin/made examples(?:\n([^>]*?))? -->\n).*?(<!-- end of the \2 -->)", re.S)
SHORT = re.compile(r"(?<=\n\n)(?:    \$ (?:\./vuthgal|bin/check|cat|[a-z]+=)[^\n]*\n(?:    (?!\$ )[^\n]*\n)*)+")
FILLED = re.compile(f"{MADE.pattern}|{SHORT.pattern}", re.S)
TOLD = re.compile(r"<!-- (first|status 0 or 1|not run|holds), by bin/made examples(?:: )?([^>]*?) -->")

# how a command begins, in a block and within a text; and why some are never run here
BLOCK = re.compile(r"(\$ )?\(?(\./vuthgal|\.ci/|(bin|tests|kit|benchmarks)/|(git|rt|javac|g\+\+|rustc|cd|cp|for|printf|echo|[A-Za-z_]+=\S*)\b)")
SPAN = re.compile(r"(?<!`)`((?:\./vuthgal|bin/vuthgal|bin/check|vuthgal|sed) [^`]+)`")
NEVER = {
    r"kit/": "they want a JDK or a reader's port; kit/run plays on both",
    r"benchmarks/": "they take minutes",
    r"\./vuthgal --prove": "it takes half an hour; the gate builds the program itself",
}
SETS = re.compile(r"\w+=\S+$")

# what a reader's machine may lack: a command that wants it is then not run, and is named
LACKED = re.compile(r": (go|cargo|rustc|cc|gcc|g\+\+|python3|pip|java|javac): command not found")


def room_of(folder):
    """A folder that has what the top has, but the program itself in the place of `vuthgal` and of `bin/vuthgal`."""
    for it in TOP.iterdir():
        if it.name != "bin":
            (folder / it.name).symlink_to(PROGRAM if it.name == "vuthgal" else it)
    (folder / "bin").mkdir()
    for it in (TOP / "bin").iterdir():
        (folder / "bin" / it.name).symlink_to(PROGRAM if it.name == "vuthgal" else it)
    return folder


def run(commands, variables, room):
    """What comes of commands where these variables were set before."""
    script = "\n".join(["set -euo pipefail", *variables, commands])
    known = {**os.environ, "VUTHGAL": str(PROGRAM), "PATH": f"{room}:{os.environ['PATH']}"}
    return subprocess.run(["bash", "-c", script], cwd=room, env=known, stdin=subprocess.DEVNULL, capture_output=True, text=True)


def variables_in(commands):
    return [line for line in commands.split("\n") if SETS.match(line)]


def printed(commands, variables, room):
    done = run(commands, variables, room)
    if done.returncode or done.stderr:
        sys.exit(f"{commands}\nends with status {done.returncode}: {done.stderr}")
    return done.stdout


def block(text):
    return re.sub(r"(?m)^(?=.)", "    ", text.rstrip("\n")) + "\n"


def filled(page, room):
    """The text of a document, with what stands between its marks made anew."""
    variables = []

    def short(command):
        output = printed(command, variables, room)
        variables.extend(variables_in(command))
        if "\n\n" in output:
            sys.exit(f"{command}\nprints an empty line, so that it needs marks")
        return block(f"$ {command}\n{output}")

    def made(marks):
        if not marks[1]:
            return "".join(short(command) for command in re.findall(r"(?m)^    \$ (.*)", marks[0]))
        begin, kind, path, commands, end = marks.groups()
        if kind == "program":
            return f"{begin}\n{block((TOP / path).read_text())}\n{end}"
        output = printed(commands, variables, room)
        variables.extend(variables_in(commands))
        return f"{begin}\n{block(commands)}\n{block(output)}\n{end}"

    text = page.read_text()
    if text.count(", by bin/made examples") != len(MADE.findall(text)) + len(TOLD.findall(text)):
        sys.exit(f"{page.relative_to(TOP)} has a mark of bin/made that is spelled otherwise, or has no end")
    return FILLED.sub(made, text)


def made():
    with tempfile.TemporaryDirectory() as folder:
        room = room_of(Path(folder))
        return {page: filled(page, room) for page in PAGES}


def commands_of(text):
    """The commands of a document in their order, each with its line and what is told before it, as a mark's kind and words."""
    text = MADE.sub(lambda it: "\0" + (it.group(4) or "").replace("\n", "\1") + "\0" + "\n" * it.group().count("\n"), text)
    tokens = re.compile(rf"\0(?P<made>[^\0]*)\0|(?P<mark>{TOLD.pattern})|(?P<block>(?:(?<=\n\n)|(?<=\A))(?: {{4}}.*\n)+)|{SPAN.pattern}")
    told = []
    for it in tokens.finditer(text):
        line = text.count("\n", 0, it.start()) + 1
        if it["made"] is not None:
            yield line, it["made"].replace("\1", "\n"), [("made", "")]
        elif it["mark"] and it[3] == "holds":
            yield line, it[4], []
        elif it["mark"]:
            told.append((it[3], it[4]))
        else:
            commands = re.sub(r"(?m)^ {4}", "", it["block"]).rstrip("\n") if it["block"] else it[it.lastindex].replace("\n", " ")
            if it["block"] and not BLOCK.match(commands):
                continue
            if commands.startswith("$ "):
                commands = "\n".join(line[2:] for line in commands.split("\n") if line.startswith("$ "))
            yield line, commands, told
            told = []


def is_run(commands, told):
    """Whether a command is run here: not where that is told, nor what is never run, nor how one is called, in capital letters."""
    if any(kind in ("made", "not run") for kind, _ in told) or re.match(r"vuthgal .*\b[A-Z]{3,}", commands):
        return False
    return not any(re.search(rf"(?m)(^|[;&|(] *|\S+=\S+ ){begin}", commands) for begin in NEVER)


def wrong_in(page):
    """The commands of a document that don't do as they stand there."""
    variables = []
    with tempfile.TemporaryDirectory() as folder:
        room = room_of(Path(folder))
        for line, commands, told in commands_of(page.read_text()):
            if is_run(commands, told):
                first = "\n".join(words for kind, words in told if kind == "first")
                done = run(f"{first}\n{commands}", variables, room)
                lacked = LACKED.search(done.stderr)
                if done.returncode == 127 and lacked:
                    print(f"{page.relative_to(TOP)}:{line}: not run, since there is no {lacked[1]}")
                    continue
                may_be = (0, 1) if ("status 0 or 1", "") in told else (0,)
                if done.returncode not in may_be or done.stderr:
                    said = done.stderr.strip().split("\n")[0]
                    yield f"{page.relative_to(TOP)}:{line}: `{commands}` ends with status {done.returncode}: {said}"
            variables.extend(variables_in(commands))


def wrong():
    return [it for page in PAGES for it in wrong_in(page)]
