#!/usr/bin/env python3
"""The picture of a run, made a second way: from the program's text and from what `debug` says of each choice. Nothing here
knows how `draw` makes it; docs/TRACES.md, "Picture", is the rule that both follow.
usage: picture.py VUTHGAL PROGRAM [SCHEDULE] [WIDTH]"""
import re
import subprocess
import sys

OBJECTS = {"p": "phaser", "b": "barrier", "t": "thread", "c": "cell"}


def answers(vuthgal, words, text=""):
    done = subprocess.run([vuthgal] + words, input=text.encode(), capture_output=True)
    if done.returncode:
        sys.exit("%s: status %d, %s" % (words, done.returncode, done.stderr.decode().strip()))
    return done.stdout.decode()


def choices_of(schedule):
    for token in schedule.split():
        name, _, times = token.partition("*")
        for _ in range(int(times) if times else 1):
            yield name


class Names:
    """The names of a text; an image has none."""

    def __init__(self, source):
        self.of = {kind: [] for kind in OBJECTS}
        self.labels = {}
        row = 0
        for line in source.split("\n"):
            words = line.split(";")[0].split()
            if words and words[0].endswith(":"):
                self.labels.setdefault(row, words.pop(0)[:-1])
            if words and words[0][0] == ".":
                self.of[words[0][1]].append(words[1])
            elif words:
                row += 1

    def name(self, letter, number):
        if letter == "#":
            return self.labels.get(number, "#%d" % number)
        known = self.of[letter]
        return known[number] if number < len(known) else letter + str(number)


def operand_letters(word, operands):
    """What each `#n` of a listed row names: by the row's word."""
    if word in ("lds", "sts"):
        return "c"
    if word == "intr":
        return "t"
    if word[0] == "p":
        return "p"
    if word[0] == "c" and word != "call":
        return "b"
    return "#"


def caption(row, names):
    word, operands = row[0], row[1:]
    letter = operand_letters(word, operands)
    return " ".join([word] + [names.name(letter, int(x[1:])) if x[0] == "#" else x for x in operands])


def shortened(room, text):
    return text if len(text) <= room else (text[:max(room - 1, 0)] + "~")[:room]


def kept_behind(room, front, back):
    return shortened(room, shortened(max(room - len(back), 0), front) + back)


def put_at(column, text, line):
    return line if text == "" else line.ljust(column) + text


class Run:
    """What `debug` says: each choice's line, and before the first and after each the state and who may go on."""

    def __init__(self, vuthgal, path, schedule):
        self.rows = [x.split() for x in answers(vuthgal, ["list", path]).split("\n") if x and x[0] != "."]
        threads = len(re.findall(r"^\.thread ", answers(vuthgal, ["list", path]), re.M))
        tries = [k + str(t) for t in range(threads) for k in "tx"]
        choices = list(choices_of(schedule))
        commands = []
        for choice in [None] + choices:
            if choice:
                commands.append("s " + choice)
            commands.append("p")
            for name in tries:
                commands += ["s " + name, "b"]
        lines = iter(answers(vuthgal, ["debug", path], "\n".join(commands) + "\n").split("\n"))
        self.events, self.states = [], []
        for choice in [None] + choices:
            if choice:
                event = next(lines)
                self.events.append(event)
                if event.endswith((" - none", " limit")):
                    break
            self.states.append(self.state(lines, tries))

    @staticmethod
    def state(lines, tries):
        state = {"word": next(lines).split()[3], "t": [], "p": [], "b": [], "ready": {}}
        after = next(lines)
        while True:
            words = after.split()
            if not re.match(r"[tpbc]\d+$", words[0]):
                break
            if words[0][0] != "c":
                state[words[0][0]].append(words)
            after = next(lines)
        for number, name in enumerate(tries):
            event = after if number == 0 else next(lines)
            if not event.endswith(" idle"):
                state["ready"][name] = event
            next(lines)
        return state


def standing(state, t):
    status = state["t"][t][2]
    if status == "waits":
        return ":" if "t%d" % t in state["ready"] else "#"
    return {"runs": "|", "throws": "!", "ended": "", "died": ""}[status.split(":")[0]]


def missing_for(run, state, number):
    """Where somebody is missing for whom one waits at this phaser: a phaser all of whose parties have arrived has at its parent."""
    parents = re.findall(r"^\.phaser \S+ \d+(?: parent #(\d+))?", run.listing, re.M)
    while parents[number]:
        _, view, parties, arrived, _ = state["p"][number]
        if int(view) < 0 or parties == "0" or parties != arrived:
            break
        number = int(parents[number])
    return number


def released(letter, throws):
    """What ended a wait that can end, and what its thread does then."""
    if not throws:
        return "its phase has ended" if letter == "p" else "tripped", ": can go on"
    return "broken" if throws[1] == "4" else None, ": throws " + throws[1]


def closing(run, state, names, room, width):
    out = []
    for t, words in enumerate(state["t"]):
        who = shortened(room, names.name("t", t))
        status = words[2]
        if status.startswith("died:"):
            out.append("%s died of exception %s" % (who, status[5:]))
        if status != "waits":
            continue
        row = run.rows[int(words[1])]
        letter = "p" if row[0][0] == "p" else "b"
        number = int(row[2][1:])
        of = state[letter][number]
        if letter == "p":
            arrived, parties = of[3], of[2]
        else:
            arrived = of[1]
            parties = re.findall(r"^\.barrier \S+ (\d+)", run.listing, re.M)[number]
        hope = ": can expire" if "x%d" % t in state["ready"] else ": stuck" if state["word"] == "stuck" else ""
        front = "%s waits at %s" % (who, shortened(room, names.name(letter, number)))
        turn = state["ready"].get("t%d" % t)
        if turn:
            by, hope = released(letter, re.search(r" throws (\S+)", turn))
            if by:
                out.append(kept_behind(width, "%s (%s)" % (front, by), hope))
                continue
        at = missing_for(run, state, number) if letter == "p" else number
        if at == number:
            out.append(kept_behind(width, "%s (%s of %s arrived)" % (front, arrived, parties), hope))
        else:
            front += " (arrived at " + shortened(room, names.name("p", at))
            out.append(kept_behind(width, front, ": %s of %s)" % (state["p"][at][3], state["p"][at][2]) + hope))
    return out


def drawn(run, names, width):
    threads = len(run.states[0]["t"])
    most = max(1, (width - 23) // 19)
    blocks = (threads + most - 1) // most
    beside = (threads + blocks - 1) // blocks
    column = min(27, (width - 23) // beside)
    marks = 8 + beside * column
    out = []
    for first in range(0, threads, beside):
        shown = range(first, min(first + beside, threads))
        if first:
            out.append("")
        line = "choice"
        for n, t in enumerate(shown):
            line = put_at(8 + n * column, shortened(column - 1, names.name("t", t)), line)
        out.append(line)
        for number, event in enumerate(run.events, 1):
            words = event.split(" ")
            refused = event.endswith((" - none", " limit"))
            state = run.states[number - 1 if refused else number]
            turn = int(words[1][1:])
            did, told = told_of(run, names, words, column - 1, width - marks, refused)
            line = "%6d" % number
            for n, t in enumerate(shown):
                line = put_at(8 + n * column, did if t == turn else standing(state, t), line)
            out.append(put_at(marks, told, line))
    state = run.states[-1]
    return out + closing(run, state, names, (width - 46) // 2, width)


def told_of(run, names, words, room, mark_room, refused):
    turn = words[1]
    if refused:
        told = shortened(mark_room, "no thread t" + turn[1:]) if words[-1] == "none" else ""
        return shortened(room, "refused: limit"), told
    rest = words[3:]
    mark = None
    for at, word in enumerate(rest):
        if re.match(r"[+-][pb]\d+$", word):
            mark, rest = rest[at:], rest[:at]
            break
    what = " ".join(rest)
    answer = "" if what == "ok" else " " + what
    row = caption(run.rows[int(words[2])], names)
    if turn[0] == "x":
        did = kept_behind(room, "expiry", answer)
    elif rest[0] in ("ok", "=", "wait", "throw", "enter"):
        did = kept_behind(room, row, answer)
    else:
        did = shortened(room, what)
    if not mark:
        return did, ""
    what = names.name(mark[0][1], int(mark[0][2:]))
    if mark[0][1] == "p":
        fact = ": terminated" if mark[1][0] == "-" else ": phase " + mark[1]
    else:
        fact = " trips" if mark[0][0] == "+" else " breaks"
    return did, kept_behind(mark_room, what, fact)


def main():
    vuthgal, path = sys.argv[1:3]
    schedule = open(sys.argv[3]).read() if len(sys.argv) > 3 else ""
    width = int(sys.argv[4]) if len(sys.argv) > 4 else 80
    raw = open(path, "rb").read()
    names = Names("" if raw[:4] in (b"PBW1", b"PBW2") else raw.decode())
    run = Run(vuthgal, path, schedule)
    run.listing = answers(vuthgal, ["list", path])
    for line in drawn(run, names, width):
        print(line[:width])


main()
