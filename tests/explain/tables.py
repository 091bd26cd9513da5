"""Compares what `explain` tells with the tables of the documents, kind by kind: each has an entry of its name and number, and
no other number has one. Then runs the command that each entry gives as its example, and looks for just the words that the
entry says it makes. Prints what differs; the last line is how many entries were compared.
    tables.py PROGRAM TOP"""
import os
import re
import subprocess
import sys
import tempfile

program, top = sys.argv[1:]
ROOM = tempfile.mkdtemp()
wrong = []


def section(document, heading):
    text = open(f"{top}/docs/{document}.md").read()
    begin = re.search(rf"^#+ {heading}$", text, re.M).end()
    end = re.search(r"^#", text[begin:], re.M)
    return text[begin : begin + end.start() if end else None]


def told(words):
    """The entry that the words ask for, by its labels; nothing where they ask for none."""
    done = subprocess.run([program, "explain", *words.split()], capture_output=True, text=True)
    if done.returncode:
        return None
    first, *lines = done.stdout.splitlines()
    return {"told": first} | {label: text for label, text in (re.fullmatch(r"  (\w+): +(.*)", line).groups() for line in lines)}


def rows(table):
    return [[cell.strip() for cell in line.strip("|").split("|")] for line in table.split("\n") if line.startswith("|")]


def kinds_in(text):
    """The numbers of a text and their names, which begin with a capital letter, as `4 Field`; or the first two cells of a row."""
    pairs = re.findall(r"(?<![\w.,`])(\d+) ([A-Z]\w+)", text) + [row[:2] for row in rows(text) if row[0].isdigit()]
    return {int(number): name for number, name in pairs}


def named(document, heading, group):
    """Each number of a section has an entry of the same name; the numbers from 0 to 20 that it lacks have none."""
    kinds = kinds_in(section(document, heading))
    for number in range(21):
        entry = told(f"{group} {number}")
        if (entry is not None) != (number in kinds):
            wrong.append(f"{group} {number}: {'an' if entry else 'no'} entry, and the documents have {kinds.get(number)}")
        elif entry:
            if not entry["Means"].startswith(kinds[number] + ":"):
                wrong.append(f"{group} {number}: {entry['Means']}, and the documents say {kinds[number]}")
            yield f"{group} {number}", entry


def declared():
    """The faults of a declaration are the second table of their section."""
    text = section("FORMATS", "Load faults")
    for number, name in kinds_in(text[text.index("the faults of a declaration") :]).items():
        entry = told(f"declare {number}")
        if not entry or not entry["Means"].startswith(name + ":"):
            wrong.append(f"declare {number}: {entry}, and the documents say {name}")
        yield f"declare {number}", entry


def loads():
    text = section("FORMATS", "Load faults")
    for number, name in kinds_in(text[: text.index("the faults of a declaration")]).items():
        entry = told(f"load {number}")
        if not entry or not entry["Means"].startswith(name + ":"):
            wrong.append(f"load {number}: {entry}, and the documents say {name}")
        yield f"load {number}", entry


def statuses():
    for number in range(7):
        entry = told(f"status {number}")
        if (entry is not None) != (number < 6):
            wrong.append(f"status {number}: {entry}")
        elif entry:
            yield f"status {number}", entry


LINES = ["show", "draw", "memory", "spawn", "read", "write", "not a trace", "differs", "expected", "stopped", "all", "stuck", "live", "none", "limit", "?", "no history"]
EVENTS = ["ok", "=", "1 t0 0 out 1", "wait", "throws", "enter", "unwind", "catches", "die", "ends", "idle", "marks"]
TERMS = ["trace", "state", "schedule", "plan", "seed", "stray", "image"]
JAVA = ["locks", "latch", "join", "volatile", "spurious wakeup", "tiers", "time", "loop"]


def pattern(entry):
    """What the example has to write: the told words, each in capitals a number, LINE, PLACE and so on."""
    words = re.escape(entry["told"]).replace(r"\ ", " ")
    words = words.replace("STATE: LINE", r"\w+: .+").replace("PLACE", r"(row|thread|phaser|barrier) \d+").replace("FAULT", r"\d+")
    return re.sub(r"\b[A-Z]{3,}\b", r"\\d+", words)


def made(words, entry):
    """Whether the entry's example makes what it says."""
    if entry["Example"].startswith("none: "):
        return
    command = f"vuthgal() {{ {program} \"$@\"; }}; {entry['Example']}"
    done = subprocess.run(["bash", "-c", command], capture_output=True, text=True, cwd=ROOM)
    said = done.stdout + done.stderr
    if words in TERMS:
        is_made = done.returncode == 0
    elif words.startswith("status"):
        is_made = done.returncode == int(words.split()[1])
    elif words.startswith("exception"):
        is_made = re.search(rf"^\d+ t\d+ \d+ throw {words.split()[1]}\b", said, re.M)
    else:
        is_made = re.search(rf"(^|[ ]){pattern(entry)}$", said, re.M)
    if not is_made:
        wrong.append(f"{words}: {entry['Example']} makes {said[-200:]!r}, status {done.returncode}")


entries = [
    *named("LANGUAGE", "Kinds of fault", "asm"),
    *named("FORMATS", "Images", "image"),
    *loads(),
    *declared(),
    *named("TRACES", "Schedule text", "schedule"),
    *named("TRACES", "Plan text", "plan"),
    *named("BEHAVIOUR", "Exceptions", "exception"),
    *statuses(),
    *((words, told(words)) for words in LINES + EVENTS + TERMS + JAVA),
]
for words, entry in entries:
    if entry:
        made(words, entry)
        where, heading = re.fullmatch(r'docs/(\w+)\.md, "(.*)"', entry["More"]).groups()
        if not re.search(rf"^#+ {re.escape(heading)}$", open(f"{top}/docs/{where}.md").read(), re.M):
            wrong.append(f"{words}: there is no {entry['More']}")
    else:
        wrong.append(f"{words}: no entry")
print("\n".join(wrong) or f"{len(entries)} entries")
