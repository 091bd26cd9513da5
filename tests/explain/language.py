"""Compares what `explain` tells of each row and each directive with the tables of the documents: its operands, Java's method, its
events. Then plays the text that each entry gives as its example, and looks for the row and one of its events in the trace.
Prints what differs; the last line is how many words were compared.
    language.py PROGRAM TOP"""
import os
import re
import subprocess
import sys
import tempfile

program, top = sys.argv[1:]
LANGUAGE = open(f"{top}/docs/LANGUAGE.md").read()
ROOM = tempfile.mkdtemp()
LABELS = ["Operands", "Java", "Means", "Event", "More", "Example"]
wrong = []


def table(heading):
    """The cells of the table below a heading, row by row."""
    begin = re.search(rf"^#+ {heading}$", LANGUAGE, re.M).end()
    text = LANGUAGE[begin : begin + re.search(r"^#", LANGUAGE[begin:], re.M).start()]
    lines = text[text.index("|---") :].split("\n\n")[0].split("\n")[1:]
    return [[cell.strip().replace(r"\|", "|") for cell in re.split(r"(?<!\\)\|", line.strip("|"))] for line in lines]


def asked(*words, text=None):
    return subprocess.run([program, *words], input=text, capture_output=True, text=True)


def entry(word):
    """The parts of a word's entry: its form, what stands behind each label, and its example."""
    done = asked("explain", word)
    if done.returncode or done.stderr:
        wrong.append(f"{word}: status {done.returncode}, {done.stderr[:80]!r}")
        return None
    form, *lines = done.stdout.splitlines()
    pairs = [re.fullmatch(r"  (\w+): +(.*)", line) for line in lines[: len(LABELS)]]
    if [pair and pair[1] for pair in pairs] != LABELS:
        wrong.append(f"{word}: {done.stdout}")
        return None
    return form, {pair[1]: pair[2] for pair in pairs}, "\n".join(lines[len(LABELS) :]) + "\n"


def names_heading(word, more):
    where, heading = re.fullmatch(r'docs/(\w+)\.md, "(.*)"', more).groups()
    if not re.search(rf"^#+ {re.escape(heading)}$", open(f"{top}/docs/{where}.md").read(), re.M):
        wrong.append(f"{word}: there is no {more}")


def played(word, example):
    """What the trace of the example says of the rows that begin with the word."""
    done = asked(text=example)
    if done.returncode or done.stderr:
        wrong.append(f"{word}: its example comes to status {done.returncode}, {done.stderr!r}")
    with open(f"{ROOM}/text", "w") as file:
        file.write(example[: example.index(".run")])
    rows = {line.split()[0]: line.split(None, 2)[2] for line in asked("list", "--rows", f"{ROOM}/text").stdout.splitlines()}
    said = []
    for line in done.stdout.splitlines():
        what = re.fullmatch(r"\d+ [tx]\d+ (\d+) (.*)", line)
        if what and re.sub(r"^\w+: *", "", rows[what[1]]).split()[0] == word:
            said.append(what[2])
    return said


def row(form, does, event):
    word = form.split()[0]
    told = entry(word)
    if not told:
        return
    told_form, told, example = told
    if told_form != form:
        wrong.append(f"{word}: {told_form}, and the documents say {form}")
    letters = re.findall(r"\b[a-cnLPBTC](?=[,:])", told["Operands"])
    if sorted(letters) != sorted(form.split()[1:]):
        wrong.append(f"{word}: the operands {told['Operands']}")
    method = re.match(r"`(\w+)", does)
    if method and f"{method[1]}(" not in told["Java"]:
        wrong.append(f"{word}: {told['Java']}, and the documents say {method[1]}")
    events = re.findall(r"`([^`]*)`", told["Event"])
    for other in re.findall(r"`([^`]*)`", event):
        if other not in events:
            wrong.append(f"{word}: {told['Event']}, and the documents say {other} too")
    said = played(word, example)
    forms = [re.escape(it).replace("v", r"-?\d+") for it in events]
    if not any(re.match(rf"({'|'.join(forms)})( |$)", line) for line in said):
        wrong.append(f"{word}: the example shows {said}, and {told['Event']} is told")
    names_heading(word, told["More"])


def directive(form):
    word = form.split()[0]
    told = entry(word)
    if not told:
        return
    if told[0] != form:
        wrong.append(f"{word}: {told[0]}, and the documents say {form}")
    played(word, told[2])
    if not re.search(rf"^{re.escape(word)}\b", told[2], re.M):
        wrong.append(f"{word}: the example has none")
    names_heading(word, told[1]["More"])


ROWS = [cells for cells in table("Instruction table") if cells[0].isdigit()]
DIRECTIVES = [cells[0].strip("`") for cells in table("Directives")] + [".run"]
for _, text, does in ROWS:
    event = re.search(r"\(((?:`[^`]*`(?:, )?)+)\)$", does)
    row(text.strip("`"), does, event[1] if event else "")
for form in DIRECTIVES:
    directive(form)
os.remove(f"{ROOM}/text")
os.rmdir(ROOM)
print("\n".join(wrong) or f"{len(ROWS)} rows, {len(DIRECTIVES)} words with a dot")
