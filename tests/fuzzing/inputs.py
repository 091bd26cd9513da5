"""Programs, schedules and sessions that are made by chance, and changes of any bytes by chance."""
from formats import ROWS

NUMBERS = [0, 1, 2, 3, 7, 31, 32, 63, 64, 65, 127, 128, 255, 256, 4095, 4096, 65535, 65536, 2**31 - 1, 2**31, 2**32, 10**9, 10**10]
WORDS = [row.word for row in ROWS] + (
    ".phaser .barrier .thread .cell .run never until onadvance action parent phase r0 r7 r8 #0 #1 #-0 #65535 #65536 l0: l1 p0 b0 t0 "
    "c0 ; \r \t : # - -5 +5 00000000001 x0 t1 t63 t64 t0*3 x1*2 t0*0 *"
).split(" ")
# rows that are drawn more often than others
CALLS = [row for row in ROWS if row.opcode >= 20]


class Shape:
    """How many things a program has, by the letter of the operand that names one."""

    def __init__(self, chance):
        many = chance.random() < 0.03
        self.counts = {
            "P": chance.randint(0, 64 if many else 4),
            "B": chance.randint(0, 64 if many else 3),
            "T": chance.randint(1, 64 if many else 5),
            "C": chance.randint(0, 32 if many else 3),
            "L": chance.randint(1, 60),
        }

    def operand(self, chance, letter):
        if letter in "abc":
            return f"r{chance.randint(0, 7)}"
        if letter == "n":
            return str(chance.choice([0, 1, 1, 2, 3, -1, chance.randint(-(2**31), 2**31 - 1)]))
        number = chance.randrange(self.counts[letter])
        return chance.choice([f"#{number}", f"{letter.lower()}{number}"])

    def row(self, chance):
        while True:
            row = chance.choice(chance.choice([ROWS, CALLS]))
            if all(self.counts.get(letter, 1) for letter in row.operands):
                return " ".join([row.word, *(self.operand(chance, letter) for letter in row.operands)])

    def phaser(self, chance, number):
        words = [f".phaser p{number} {chance.randint(0, 4)}"]
        is_child = number > 0 and chance.random() < 0.5
        if is_child:
            words.append(f"parent p{chance.randrange(number)}")
        elif chance.random() < 0.2:
            words.append(f"phase {chance.choice([0, 1, 2**31 - 2, 2**31 - 1])}")
        policies = ["", "", "never", f"until {chance.choice([0, 1, 3])}", f"onadvance {self.operand(chance, 'L')}"]
        return " ".join([*words, chance.choice(policies)])

    def barrier(self, chance, number):
        return f".barrier b{number} {chance.randint(1, 4)} " + chance.choice(["", f"action {self.operand(chance, 'L')}"])


def program(chance):
    """A program's text, of which most are accepted and loaded."""
    shape = Shape(chance)
    lines = [shape.phaser(chance, number) for number in range(shape.counts["P"])]
    lines += [shape.barrier(chance, number) for number in range(shape.counts["B"])]
    lines += [f".thread t{number} {shape.operand(chance, 'L')}" for number in range(shape.counts["T"])]
    lines += [f".cell c{number}" for number in range(shape.counts["C"])]
    if chance.random() < 0.2:
        chance.shuffle(lines)
    lines += [f"l{number}: {shape.row(chance)}" for number in range(shape.counts["L"] - 1)]
    lines.append(f"l{shape.counts['L'] - 1}: {chance.choice(['halt', 'ret', 'jmp l0', 'throw r0'])}")
    return "\n".join(lines).encode() + b"\n"


def schedule(chance, threads=5):
    """A schedule, of which most are faultless."""
    tokens = []
    for _ in range(chance.randint(0, 40)):
        token = chance.choice("tttttttttx") + str(chance.randrange(threads) if chance.random() < 0.98 else chance.randint(0, 63))
        if chance.random() < 0.4:
            token += f"*{chance.randint(1, 9 if chance.random() < 0.9 else 120)}"
        tokens.append(token)
    return chance.choice([" ", " ", "\n", "\r\n", "\t "]).join(tokens).encode() + chance.choice([b"", b"\n"])


def plan_word(chance, names):
    """A word of a plan that plays threads."""
    name = chance.choice([*names, *(f"t{number}" for number in range(len(names)))])
    count = chance.choice(["", "", f"*{chance.randint(1, 9)}", f"*{chance.randint(1, 60)}"])
    rule = chance.choice(["..", f"?{chance.choice([0, 7, chance.randrange(2**64)])}"])
    return chance.choice([name, f"{name}.", f"{name}{count}", f"{name}.", f"x{name}", rule + (count or "*30")])


def nest(chance, names):
    """Groups in groups of a plan, each to be played often; many of their passes make no choice."""
    words = ["(", *chance.choices(["..", "?7", f"{chance.choice(names)}."], k=chance.randint(0, 2)), ")"]
    for _ in range(chance.choice([2, 15, 15, chance.randint(1, 16)])):
        beside = [plan_word(chance, names) if chance.random() < 0.05 else "..", "()*1000000"]
        words[-1] += f"*{chance.choice([2, 9, 1_000_000, 1_000_000])}"
        words = ["(", *chance.choices(beside, k=chance.choice([0, 0, 1])), *words, *chance.choices(beside, k=chance.choice([0, 0, 1])), ")"]
    return " ".join(words)


def plan(chance, names):
    """A plan, of which most are faultless."""
    if chance.random() < 0.3:
        return " ".join([chance.choice(["", ".."]), nest(chance, names), plan_word(chance, names)]).encode()
    words, depth = [], 0
    for _ in range(chance.randint(0, 20)):
        words.append(plan_word(chance, names))
        if chance.random() < 0.2:
            words.append("(")
            depth += 1
        elif depth and chance.random() < 0.4:
            words.append(f")*{chance.randint(1, 5)}")
            depth -= 1
        if chance.random() < 0.1:
            words.append("; as far as here\n")
    words += [")*2"] * depth + chance.choice([[], [], [".."], ["?3"]])
    return " ".join(words).encode() + chance.choice([b"", b"\n"])


def session(chance):
    """Lines of `debug`."""
    lines = []
    for _ in range(chance.randint(0, 30)):
        thread, row = chance.randint(0, 4), chance.randint(0, 12)
        lines.append(
            chance.choice(
                [f"s t{thread}", f"s t{thread}", f"s x{thread}", f"g t{thread}*{row} t0", "g " + schedule(chance).decode()]
                + ["b", "b", f"k {row}", f"c {row}", "p"]
            ).replace("\n", " ")
        )
    if chance.random() < 0.1:
        lines.insert(chance.randint(0, len(lines)), "q")
    return "\n".join(lines).encode() + chance.choice([b"\n", b"\n", b""])


def near(chance, number):
    """Another number, at a bound or beside this one."""
    return chance.choice([chance.choice(NUMBERS), -chance.choice(NUMBERS), number + chance.choice([-1, 1])])


def with_byte(chance, data):
    at = chance.randint(0, len(data))
    return data[:at] + bytes([chance.choice([chance.randrange(256), 0, 10, 13, 32, 127, 255])]) + data[at + chance.randint(0, 1) :]


def without_part(chance, data):
    at = chance.randint(0, len(data))
    return data[:at] + data[at + chance.choice([1, 1, 2, 8, len(data)]) :]


def with_part_again(chance, data):
    first = chance.randint(0, len(data))
    at = chance.randint(0, len(data))
    return data[:at] + data[first : first + chance.choice([1, 4, 12, 100])] + data[at:]


def with_other_lines(chance, data):
    lines = data.split(b"\n")
    one, other = chance.randrange(len(lines)), chance.randrange(len(lines))
    if chance.random() < 0.4:
        lines[one], lines[other] = lines[other], lines[one]
    elif chance.random() < 0.5:
        lines.insert(one, lines[other])
    else:
        del lines[one]
    return b"\n".join(lines)


def with_word(chance, data):
    lines = data.split(b"\n")
    one = chance.randrange(len(lines))
    words = lines[one].split(b" ")
    at = chance.randrange(len(words))
    words[at : at + chance.randint(0, 1)] = [chance.choice(WORDS).encode()]
    lines[one] = b" ".join(words)
    return b"\n".join(lines)


def with_number(chance, data):
    ends = [at for at in range(len(data)) if data[at : at + 1].isdigit() and not data[at + 1 : at + 2].isdigit()]
    if not ends:
        return data
    end = first = chance.choice(ends) + 1
    while first > 0 and data[first - 1 : first].isdigit():
        first -= 1
    return data[:first] + b"%d" % near(chance, int(data[first:end][:12])) + data[end:]


def with_field(chance, data):
    """A byte or a number of an image changed."""
    if not data:
        return data
    at, width = chance.randrange(len(data)), chance.choice([1, 1, 2, 4])
    value = chance.choice([chance.randrange(256), 0, 1, 3, 4, 7, 8, 39, 40, 41, 42, 63, 64, 65, 127, 128, 255, 65535, 65536, 2**32 - 1])
    return data[:at] + (value % 256**width).to_bytes(width, "little") + data[at + width :]


CHANGES = [with_byte, without_part, with_part_again, with_other_lines, with_word, with_word, with_number, with_number]
CHANGES_OF_IMAGES = [with_field, with_field, with_field, with_field, with_byte, without_part, with_part_again]


def changed(chance, data, changes=CHANGES):
    """These bytes with one to four changes."""
    for _ in range(chance.choice([1, 1, 1, 2, 4])):
        data = chance.choice(changes)(chance, data)
    return data
