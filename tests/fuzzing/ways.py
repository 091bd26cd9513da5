"""What each kind of input is put to: the ways that must agree, and what an own reader says of it."""
import re

import inputs
from calls import Finding
from formats import BLANKS, Schedule, choices_of_trace, image_fault, schedule_of, verdict

MOST_CHOICES = 5_000
MOST_PLANNED = 1_000_000
# how many choices a page and a drawing have at most, and how many bytes the trace of a page
SHOWN = {"show": 1_000_000, "draw": 2_000}
MOST_TRACE = 16_777_216
KEPT = 4_096
RUN_LINE = re.compile(rb"(?m)^[ \t\r]*\.run[ \t\r]*(;.*)?$")


def agrees(found, wanted, what):
    if found != wanted:
        raise Finding(f"{what}: {brief(found)}, not {brief(wanted)}")


def brief(value):
    value = (value.status, value.output, value.errors) if hasattr(value, "status") else value
    text = repr(value)
    return text if len(text) < 400 else text[:200] + " .. " + text[-150:]


def split_trace(trace):
    """The lines of the choices, and the state's text."""
    at = trace.index(b"state ")
    return trace[:at], trace[at:]


def read_text(room, chance, sources):
    """A text: refused by all alike, or its image is one, whose text has this image."""
    text = inputs.changed(chance, chance.choice(sources)) if chance.random() < 0.85 else inputs.program(chance)
    room.put("text", text)
    schedule = room.put("schedule", inputs.schedule(chance))
    made = room.call("asm", "text", "image")
    if made.status == 3:
        agrees(room.get("image"), b"", "what stands in OUT of a refused text")
        line = int(made.errors.split()[2])
        if not 1 <= line <= text.count(b"\n") + 1:
            raise Finding(f"a fault in line {line}")
        refused_alike(room, made, text, schedule)
        return
    image = room.get("image")
    agrees(image_fault(image), None, "the reader of the image that asm wrote")
    if not text.startswith((b"PBW1", b"PBW2")):
        agrees(room.call("list", "text"), room.call("list", "image"), "list of a text, beside its image")
    listed_again(room, image)
    rows = room.call("list", "--rows", "image", may=(0,)).output
    numbers = [line.split(b" ")[0] for line in room.call("list", "--rows", "text", may=(0,)).output.split(b"\n")[:-1]]
    agrees(numbers, [b"%d" % number for number in range(rows.count(b"\n"))], "the numbers of list --rows of a text")
    play(room, chance, text, "image", inputs.schedule(chance))


def refused_alike(room, made, text, schedule):
    ways = [("list", "text"), ("run", "text", schedule), ("debug", "text"), ("draw", "text", schedule), ("live", "text")]
    if not text.startswith((b"PBW1", b"PBW2")):
        for words in ways:
            agrees(room.call(*words), made, f"{words[0]} of a refused text, beside asm")
    if not RUN_LINE.search(text):
        room.put("both", text + b"\n.run\nt0\n")
        agrees(room.call(reads="both"), made, "a refused text on standard input, beside asm")


def listed_again(room, image):
    room.put("listing", room.call("list", "image", may=(0,)).output)
    room.call("asm", "listing", "again", may=(0,))
    agrees(room.get("again"), image, "the image of the listing, beside the image")


def read_image(room, chance, sources):
    """An image, beside an own reader."""
    room.put("text", chance.choice(sources) if chance.random() < 0.5 else inputs.program(chance))
    room.call("asm", "text", "image", may=(0,))
    image = inputs.changed(chance, room.get("image"), inputs.CHANGES_OF_IMAGES)
    room.put("image", image)
    listed = room.call("list", "image")
    if not image.startswith((b"PBW1", b"PBW2")):
        return
    fault = image_fault(image)
    if fault is None:
        agrees(listed.status, 0, "list of what is an image")
        listed_again(room, image)
        play(room, chance, None, "image", inputs.schedule(chance))
        return
    schedule = room.put("schedule", inputs.schedule(chance))
    for words in [("list", "image"), ("run", "image", schedule), ("debug", "image"), ("show", "image"), ("live", "image")]:
        answer = room.call(*words)
        agrees((answer.status, answer.output, answer.errors), (3, b"", f"refused {fault}\n".encode()), f"{words[0]} of no image")


def play_schedule(room, chance, sources):
    """A schedule, beside an own reader."""
    text = accepted(room, chance, sources)
    schedule = inputs.schedule(chance)
    other = inputs.changed(chance, schedule)
    play(room, chance, text, "image", other if Schedule(other).count() <= MOST_CHOICES else schedule)


def accepted(room, chance, sources):
    """The text of a program that can be played; its image stands in `image`."""
    for text in [inputs.program(chance), chance.choice(sources), sources[0]]:
        room.put("text", text)
        if chance.random() < 0.7 or text is sources[0]:
            room.call("asm", "text", "image", may=(0,))
            if room.call("debug", "image").status == 0:
                return text
    raise Finding("an example can't be played")


def play(room, chance, text, program, schedule):
    """A program under a schedule, by all ways; of an image there may be no text."""
    room.put("schedule", schedule)
    run = room.call("run", program, "schedule")
    if text is not None:
        room.put("both", text + b"\n.run\n" + schedule)
        agrees(room.call(reads="both"), run, "the form without arguments, beside run of the image")
        if not text.startswith((b"PBW1", b"PBW2")):
            agrees(room.call("run", "text", "schedule"), run, "run of the text, beside its image")
    if run.errors.startswith(b"refused load"):
        for words in [("debug", program), ("show", program), ("draw", program, "schedule"), ("live", program)]:
            agrees(room.call(*words), run, f"{words[0]} of what isn't loaded, beside run")
        return
    asked = Schedule(schedule)
    look_at(room, chance, program, asked)
    if asked.fault is None:
        agrees(run.status, 0, "run under a faultless schedule")
        play_again(room, chance, program, asked, run.output)
    else:
        agrees(run.errors, b"refused schedule %d %d\n" % asked.fault, "a schedule's fault")
        room.put("schedule", schedule_of(asked.choices()))
        before = room.call("run", program, "schedule", may=(0,))
        agrees(run.output, split_trace(before.output)[0], "the lines before a schedule's fault")


def look_at(room, chance, program, asked):
    """The page and the picture of a run, if there is one."""
    fault = b"" if asked.fault is None else b"refused schedule %d %d\n" % asked.fault
    width = chance.choice([60, 61, 80, 100, 1000])
    for words in [("show", program, "schedule"), ("draw", program, "schedule", "--width", str(width))]:
        if chance.random() < 0.5:
            continue
        answer = room.call(*words)
        most = SHOWN[words[0]]
        if asked.count() > most:
            agrees((answer.status, answer.errors), (3, b"refused %s %d\n" % (words[0].encode(), most)), f"{words[0]} of too many choices")
            continue
        if answer.errors == b"refused show %d\n" % MOST_TRACE and len(room.call("run", program, "schedule").output) > MOST_TRACE:
            continue
        agrees((answer.status, answer.errors), (3 if fault else 0, fault), words[0])
        if any(byte not in b"\n\r\t" and not 32 <= byte < 127 for byte in answer.output):
            raise Finding(f"{words[0]} writes other bytes than printable ASCII")
        if words[0] == "draw" and any(len(line) > width for line in answer.output.split(b"\n")):
            raise Finding("a line of draw is wider than was asked for")


def play_again(room, chance, program, asked, trace):
    """A trace is the same again, names its choices, and is what `debug` replies, forwards and back; live runs are runs."""
    room.put("trace", trace)
    events, state = split_trace(trace)
    choices = asked.choices()[: events.count(b"\n")]
    agrees(room.call("compare", program, "trace", may=(0,)).output, b"same\n", "compare of a run")
    named = room.call("choices", "trace", may=(0,)).output
    agrees(named, schedule_of(choices) + b"\n", "choices of a run")
    room.put("schedule", named)
    agrees(room.call("run", program, "schedule").output, trace, "run of a trace's choices")
    debug(room, program, choices, events, state)
    if chance.random() < 0.15:
        play_live(room, chance, program)


def debug(room, program, choices, events, state):
    room.put("schedule", b"")
    _, first = split_trace(room.call("run", program, "schedule", may=(0,)).output)
    is_refused = events.endswith((b" none\n", b" limit\n"))
    played = len(choices) - is_refused
    lines = [b"s " + choice for choice in choices] + [b"p"] + [b"b"] * played + [b"b", b"p", b"g " + schedule_of(choices), b"p"]
    room.put("session", b"\n".join(lines) + b"\n")
    wanted = events + state + b"".join(b"back %d\n" % left for left in reversed(range(max(0, played - KEPT), played)))
    if played <= KEPT:
        wanted += b"no history\n" + first
        wanted += (b"fault %d %s\n" % (played, events.split()[-1]) if is_refused else b"end %d\n" % played) + state
        agrees(room.call("debug", program, reads="session", may=(0,)).output, wanted, "debug, beside run")


def play_live(room, chance, program):
    limit = str(chance.choice([1, 10, 1000]))
    stir = chance.choice([(), ("--stir", "1")])
    room.put("trace", room.call("live", program, "--limit", limit, *stir, may=(0,)).output)
    agrees(room.call("compare", program, "trace", may=(0,)).output, b"same\n", "compare of a live run")
    lines = room.call("live", program, "--limit", limit, "--runs", "3", *stir, may=(0,)).output.splitlines()
    agrees(sum(int(line.split(b" ")[0]) for line in lines), 3, "the sum of three runs")
    for line in lines:
        _, word, schedule = line.split(b" ", 2) if line.count(b" ") > 1 else (*line.split(b" "), b"")
        room.put("schedule", schedule)
        _, state = split_trace(room.call("run", program, "schedule", may=(0,)).output)
        if not word.startswith(b"live"):
            agrees(state.split()[3], word.removesuffix(b"+died"), "the end of a live run's schedule")


def compare_trace(room, chance, sources):
    """A trace, beside an own reader."""
    accepted(room, chance, sources)
    room.put("schedule", inputs.schedule(chance))
    whole = room.call("run", "image", "schedule").output
    trace = inputs.changed(chance, whole) if chance.random() < 0.9 else whole
    room.put("trace", trace)
    choices, fault = choices_of_trace(trace)
    named = room.call("choices", "trace", may=(0, 1))
    wanted = schedule_of(choices) + b"\n" if choices or fault is None else b""
    agrees(named.output, wanted + (b"not a trace %d\n" % fault if fault is not None else b""), "choices")
    room.put("schedule", schedule_of(choices))
    run = room.call("run", "image", "schedule", may=(0,)).output
    said = verdict(trace, run)
    compared = room.call("compare", "image", "-", reads="trace", may=(0, 1))
    agrees((compared.status, compared.output), (int(said != b"same"), said + b"\n"), "compare")
    shown = room.call("compare", "image", "trace", "--show", may=(0, 1))
    agrees((shown.status, shown.output[: len(said) + 1]), (compared.status, said + b"\n"), "compare --show")
    if said.startswith(b"differs"):
        number = int(said.split()[1]) - 1
        told = [b"trace " + line_at(trace, number), b"run " + line_at(run, number)]
        agrees(re.sub(rb"(?m) $", b"", shown.output[len(said) + 1 :]), b"".join(line.rstrip(b" ") + b"\n" for line in told), "--show")
    debug_at(room, choices, fault, run)


def line_at(text, number):
    lines = text.split(b"\n")
    return lines[number] if number < len(lines) else b""


def debug_at(room, choices, fault, run):
    answer = room.call("debug", "image", "--at", "trace", may=(0, 1))
    events, _ = split_trace(run)
    is_refused = events.endswith((b" none\n", b" limit\n"))
    if fault is not None:
        wanted = (1, b"not a trace %d\n" % fault)
    elif is_refused:
        wanted = (0, b"fault %d %s\n" % (events.count(b"\n") - 1, events.split()[-1]))
    else:
        wanted = (0, b"end %d\n" % len(choices))
    agrees((answer.status, answer.output), wanted, "debug --at")


class Session:
    """Lines of `debug`, and what the replies to them have to be, by runs of the choices that stand."""

    def __init__(self, room, rows):
        self.room = room
        self.rows = rows
        self.choices = []
        self.lines = []
        self.back = 0
        self.breaks = set()

    def state(self):
        self.room.put("schedule", schedule_of(self.choices))
        return split_trace(self.room.call("run", "image", "schedule", may=(0,)).output)

    def follow(self, line, replies):
        """What is left of the replies behind the reply to this line."""
        letter, rest = re.fullmatch(rb"[ \t\r]*([^ \t\r]*)(.*)", line, re.DOTALL).groups()
        tokens, words = Schedule(rest), rest.strip(BLANKS).split()
        reply, left = replies.split(b"\n", 1) if b"\n" in replies else (replies, b"")
        if letter == b"s" and tokens.fault is None and len(tokens.runs) == 1 and b"*" not in rest:
            self.step(tokens.runs[0][0], reply)
        elif letter == b"g" and tokens.fault is None:
            self.go(tokens.choices(), reply)
        elif letter == b"b" and not words:
            self.take_back(reply)
        elif letter in (b"k", b"c") and re.fullmatch(rb"[ \t\r]*[0-9]{1,5}[ \t\r]*", rest):
            self.mark(letter, int(words[0]), reply)
        elif letter == b"p" and not words:
            state = self.state()[1]
            agrees(replies[: len(state)], state, "p")
            left = replies[len(state) :]
        else:
            agrees(reply, b"?", f"the reply to {line!r}")
        return left

    def step(self, choice, reply):
        if not reply.endswith((b" none", b" limit")):
            self.add([choice], reply)
        number = len(self.choices) + reply.endswith((b" none", b" limit"))
        agrees(reply.split(b" ")[:2], [b"%d" % number, choice], "s")

    def go(self, choices, reply):
        how, count, *why = reply.split(b" ")
        played = int(count)
        if how == b"end":
            agrees(played, len(choices), "g")
        elif how == b"at":
            if not (self.breaks and 1 <= played <= len(choices)):
                raise Finding(f"g: {reply!r}")
        else:
            agrees((how, played < len(choices), why in ([b"none"], [b"limit"])), (b"fault", True, True), "g")
        self.add(choices[:played], None)

    def add(self, choices, line):
        self.choices += choices
        self.lines += [line] * len(choices)
        self.back = min(self.back + len(choices), KEPT)

    def take_back(self, reply):
        agrees(reply, b"back %d" % (len(self.choices) - 1) if self.back else b"no history", "b")
        if self.back:
            self.choices.pop()
            self.lines.pop()
            self.back -= 1

    def mark(self, letter, row, reply):
        word = b"break" if letter == b"k" else b"clear"
        agrees(reply, b"%s %d" % (word, row) if row < self.rows else b"?", word.decode())
        if row < self.rows:
            (self.breaks.add if letter == b"k" else self.breaks.discard)(row)


def hold_session(room, chance, sources):
    """A session of `debug`, reply by reply."""
    accepted(room, chance, sources)
    lines = inputs.session(chance)
    other = inputs.changed(chance, lines)
    if sum(Schedule(line.strip(BLANKS)[1:]).count() for line in other.split(b"\n")) <= MOST_CHOICES:
        lines = other
    room.put("session", lines)
    rows = room.call("list", "--rows", "image", may=(0,)).output.count(b"\n")
    replies = room.call("debug", "image", reads="session", may=(0,)).output
    session = Session(room, rows)
    commands = lines.split(b"\n")
    for line in commands if commands[-1] else commands[:-1]:
        if line.strip(b" \t\r") == b"q":
            break
        replies = session.follow(line, replies)
    agrees(replies, b"", "replies to no command")
    told = session.state()[0].split(b"\n")
    agrees([line or told[at] for at, line in enumerate(session.lines)], told[: len(session.lines)], "the replies to s that stand")


def has_plans(room):
    """Whether the program has the command `plan`."""
    return room.call("help", "plan", may=(0, 2)).status == 0


def play_plan(room, chance, sources):
    """A plan: the same schedule each time, and each choice of it can be made."""
    if not has_plans(room):
        return
    text = accepted(room, chance, sources)
    names = [name.decode() for name in re.findall(rb"(?m)^[ \t]*\.thread[ \t]+(\w+)", text)]
    plan = inputs.plan(chance, names)
    room.put("plan", inputs.changed(chance, plan) if chance.random() < 0.3 else plan)
    made = room.call("plan", "text", "plan", may=(0, 1, 3))
    agrees(room.call("plan", "text", "-", reads="plan", may=(0, 1, 3)), made, "plan of standard input, beside that of a file")
    if made.status == 3:
        if not re.fullmatch(rb"refused plan \d+ \d\n", made.errors):
            raise Finding(f"plan of a program that is loaded: {made.errors!r}")
        agrees(1 <= int(made.errors.split()[2]) <= room.get("plan").count(b"\n") + 1, True, "the line of a plan's fault")
        return
    schedule = Schedule(made.output)
    agrees(schedule.fault, None, "the fault of a plan's schedule")
    agrees((schedule.count() <= MOST_PLANNED, made.status == 0 or schedule.count() == MOST_PLANNED), (True, True), "a plan's choices")
    if schedule.count() <= MOST_CHOICES:
        room.put("schedule", made.output)
        events, _ = split_trace(room.call("run", "text", "schedule", may=(0,)).output)
        agrees((events.count(b"\n"), b" - none\n" in events), (schedule.count(), False), "run of a plan's schedule")


COMMANDS = [
    "plan text schedule",
    "plan text -",
    "run text schedule",
    "run text -",
    "run image schedule --expect all",
    "--expect stuck",
    "compare text trace",
    "compare text trace --show",
    "choices trace",
    "debug text",
    "debug text --at trace",
    "show text schedule",
    "show both",
    "draw text schedule --width 80",
    "draw both --width=60",
    "live text --limit 10 --stir 1",
    "live text --runs 2 --expect live",
    "asm text other",
    "list text",
    "list --rows image",
    "race --parties 2 --rounds 3",
    "explain asm 5",
    "explain status 4",
    "help run",
    "--version",
    "",
]
HOSTILE = (
    "- -- --- -h --help -V --version --expect --expect=all --expect= --show --at --rows --width --limit --stir --runs --parties --rounds "
    "-1 0 00 1 2 60 59 1000 1001 100 +1 1e1 0x10 99999999999 4294967295 4294967296 all stuck live . / /dev/null /dev/full none text "
    "image schedule trace both other missing missing/none run rnu help explain refused ? memory not a differs"
).split() + ["", " ", "\n", "a b", "\x1b[31m", "\udcff", "é", "x" * 5000, "-" * 300]


def read_arguments(room, chance, sources):
    """Words of a command line; the table alone judges them."""
    text = sources[0]
    room.put("text", text)
    room.put("schedule", b"t0 t1 t0*3 t1*2")
    room.put("both", text + b"\n.run\nt0 t1 t0*3 t1*2")
    room.call("asm", "text", "image", may=(0,))
    room.put("trace", room.call("run", "text", "schedule", may=(0,)).output)
    for _ in range(8):
        words = chance.choice(COMMANDS).split()
        for _ in range(chance.choice([0, 1, 1, 1, 2, 3])):
            at = chance.randint(0, len(words))
            words[at : at + chance.randint(0, 1)] = chance.choice([[], [chance.choice(HOSTILE)], [chance.choice(HOSTILE)], words[:2]])
        for at, word in enumerate(words):
            if word.startswith("--") and "=" not in word and at + 1 < len(words) and chance.random() < 0.1:
                words[at : at + 2] = [word + "=" + words[at + 1]]
                break
        room.call(*words, reads=chance.choice(["/dev/null", "both", "schedule", "trace"]), may=(0, 1, 2, 3, 5))


KINDS = {
    "texts": read_text,
    "images": read_image,
    "schedules": play_schedule,
    "traces": compare_trace,
    "sessions": hold_session,
    "plans": play_plan,
    "arguments": read_arguments,
}
