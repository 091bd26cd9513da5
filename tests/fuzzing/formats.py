"""An own reader of the formats (docs/FORMATS.md and the pages that it names), to compare with what the program writes: rows,
images, schedules, traces, and the lines of `debug`. The rows' words and operands are read from the table in docs/LANGUAGE.md."""
import re
import struct
from pathlib import Path

LANGUAGE = Path(__file__).resolve().parent.parent.parent / "docs" / "LANGUAGE.md"
BLANKS = b" \t\r\n"
LONGEST_LINE = 65_536


class Row:
    """An entry of the instruction table: its word, how many registers it has, and the letter of its other operand, if any."""

    def __init__(self, opcode, text):
        self.opcode = opcode
        self.word, *operands = text.split()
        self.registers = sum(operand in "abc" for operand in operands)
        self.operands = operands
        self.other = next((operand for operand in operands if operand not in "abc"), "")
        self.has_timeout = opcode >= 40


TABLE = LANGUAGE.read_text().partition("## Instruction table\n")[2].partition("\n## ")[0]
ROWS = [Row(int(opcode), text) for opcode, text in re.findall(r"(?m)^\| (\d+) \| `(.*?)` \|", TABLE)]
assert [row.opcode for row in ROWS] == list(range(42)), "the instruction table of docs/LANGUAGE.md"


def is_row(data):
    """Whether 8 bytes are a row."""
    if data[0] >= len(ROWS):
        return False
    row = ROWS[data[0]]
    used, unused = data[1 : 1 + row.registers], data[1 + row.registers : 4]
    number = int.from_bytes(data[4:], "little", signed=True)
    if any(register > 7 for register in used) or any(unused):
        return False
    return row.other == "n" or 0 <= number <= (65535 if row.other else 0)


def field_fault(data, phasers, barriers, threads):
    """The place of the first field that is out of its range; the rows begin behind the last one."""
    for at in range(12, 12 + 12 * phasers, 12):
        parent, policy, _, phase, argument = struct.unpack_from("<BBHii", data, at)
        least, most = ((0, 0), (0, 0), (0, 2**31 - 1), (0, 65535))[policy] if policy < 4 else (0, 0)
        wrong = (parent > 63 and parent != 255, policy > 3, phase < 0, not least <= argument <= most)
        if any(wrong):
            return at + (0, 1, 4, 8)[wrong.index(True)]
    first = 12 + 12 * phasers
    for at in range(first, first + 8 * barriers, 8):
        _, action, row = struct.unpack_from("<HHi", data, at)
        if action > 1:
            return at + 2
        if not 0 <= row <= 65535 * action:
            return at + 4
    first += 8 * barriers
    for at in range(first, first + 4 * threads, 4):
        if not 0 <= struct.unpack_from("<i", data, at)[0] <= 65535:
            return at
    return None


def image_fault(data):
    """The words behind `refused` of bytes that are no image, by the first fault; of an image None."""
    if len(data) < 12:
        return "image 1"
    if data[:4] not in (b"PBW1", b"PBW2"):
        return "image 2"
    phasers, barriers, threads, rows = struct.unpack_from("<4H", data, 4)
    if max(phasers, barriers, threads) > 64:
        return "image 3"
    first = 12 + 12 * phasers + 8 * barriers + 4 * threads
    if len(data) != first + 8 * rows:
        return "image 1" if len(data) < first + 8 * rows else "image 6"
    place = field_fault(data, phasers, barriers, threads)
    if place is not None:
        return f"image 4 {place}"
    codes = [data[at : at + 8] for at in range(first, len(data), 8)]
    timed = [code[0] >= 40 for code in codes]
    for number, code in enumerate(codes):
        if not is_row(code) or timed[number] and data[3:4] == b"1":
            return f"image 5 {number}"
    if data[3:4] == b"2" and not any(timed):
        return "image 8"
    return None


class Schedule:
    """What a schedule spells: its runs, each a name and a count, and its first fault, if any: kind and offset."""

    def __init__(self, text):
        self.runs = []
        self.fault = None
        at = 0
        while at < len(text) and self.fault is None:
            if text[at] in BLANKS:
                at += 1
            else:
                at = self.read_token(text, at)

    def read_token(self, text, at):
        """Reads the token that begins here; answers where it ends."""
        if text[at : at + 1] not in (b"t", b"x"):
            return self.fails(1, at)
        first = at + 1
        at = self.read_number(text, first, 2, 63, 2)
        if self.fault is not None:
            return at
        name, count = text[first - 1 : first] + b"%d" % int(text[first:at]), 1
        if text[at : at + 1] == b"*":
            first = at + 1
            at = self.read_number(text, first, 10, 1_000_000_000, 3)
            if self.fault is not None:
                return at
            count = int(text[first:at])
        if at < len(text) and text[at] not in BLANKS:
            return self.fails(1, at)
        if count == 0:
            return self.fails(3, first)
        self.runs.append((name, count))
        return at

    def read_number(self, text, first, digits, most, kind):
        """Reads digits from here on, at least one; answers where they end."""
        at = first
        while text[at : at + 1].isdigit():
            at += 1
            if at - first > digits or int(text[first:at]) > most:
                return self.fails(kind, first)
        return at if at > first else self.fails(1, at)

    def fails(self, kind, at):
        self.fault = (kind, at)
        return at

    def count(self):
        """How many choices it has before a fault."""
        return sum(count for _, count in self.runs)

    def choices(self):
        return [name for name, count in self.runs for _ in range(count)]


def schedule_of(choices):
    """Choices as `choices` writes them: a token for each run of one choice."""
    runs = []
    for choice in choices:
        if runs and runs[-1][0] == choice:
            runs[-1][1] += 1
        else:
            runs.append([choice, 1])
    return b" ".join(name if count == 1 else b"%s*%d" % (name, count) for name, count in runs)


def choice_in(line):
    """The choice that a line of a trace names, if it does."""
    found = re.match(rb"[0-9]{1,13} ([tx])([0-9]{1,2})(?: |\Z)", line)
    return found[1] + b"%d" % int(found[2]) if found and int(found[2]) <= 63 else None


def choices_of_trace(trace):
    """The choices that a trace's lines name up to the state, and the number of the first line that is none of a trace, if any."""
    choices = []
    for number, line in enumerate(trace.split(b"\n"), 1):
        if len(line) > LONGEST_LINE:
            return choices, number
        if line.split(b" ")[0] == b"state":
            return choices, None
        choice = choice_in(line)
        if choice is None:
            return choices, number
        choices.append(choice)
    return choices, len(choices) + 1


def verdict(trace, run):
    """What `compare` says of a trace, by the trace of the run of its choices."""
    lines, wanted = trace.split(b"\n"), run.split(b"\n")
    events = next(at for at, line in enumerate(wanted) if line.startswith(b"state "))
    choices, fault = choices_of_trace(trace)
    for number in range(1, len(choices) + 1):
        if number > events or lines[number - 1] != wanted[number - 1]:
            return b"differs %d" % number
    if fault is not None:
        return b"not a trace %d" % fault
    for number in range(len(choices), len(lines)):
        is_due = number < len(wanted) - 1
        if not is_due and number == len(lines) - 1 and not lines[number]:
            return b"same"
        if len(lines[number]) > LONGEST_LINE:
            return b"not a trace %d" % (number + 1)
        if not is_due or lines[number] != wanted[number]:
            return b"differs %d" % (number + 1)
    return b"differs %d" % (len(lines) + (len(lines) < len(wanted) - 1))
