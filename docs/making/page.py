"""Makes crates/page_frame/src/fixed.rt of the app: what a page of `vuthgal show` has before, between and behind its texts, as constants.
The page is vuthgal.html with these texts in their places (docs/making/app.py)."""
import re
import sys

import app
from marks import TOP

WIDTH = 140
# the compiler takes no larger constant
MOST = 130_000
BEFORE = {
    "HEAD": "What a page begins with, up to the listing.",
    "BEFORE_SOURCE": "What stands between the listing and the program's text.",
    "BEFORE_SCHEDULE": "What stands between the program's text and the schedule.",
    "BEFORE_TRACE": "What stands between the schedule and the trace.",
}
TAILS = 4


def packed(text):
    """A text as the inside of a byte string, in lines that go on behind a backslash. Rust skips the spaces that such a line begins
    with, so none does."""
    lines, line = [], ""
    for at, letter in enumerate(text):
        line += {"\n": "\\n", '"': '\\"', "\\": "\\\\"}.get(letter, letter)
        if len(line) >= WIDTH and text[at + 1:at + 2] != " ":
            lines.append(line)
            line = ""
    return "\\\n".join(lines + [line])


def divided(tail):
    """The tail in parts of about one size, none of which begins with a space."""
    places = [len(tail) * number // TAILS for number in range(TAILS + 1)]
    for number in range(1, TAILS):
        while tail[places[number]] == " ":
            places[number] += 1
    return [tail[begin:end] for begin, end in zip(places, places[1:])]


def constant(name, about, text):
    if re.search(r"[^ -~\n]", text) or len(text) > MOST:
        sys.exit(f"the page's {name} holds a byte that isn't ASCII, or more than {MOST} bytes: it has {len(text)}")
    return f'\n/// {about}\n#[rattlefmt::skip]\npub const {name}: &[u8] = b"\\\n{packed(text)}";\n'


def made():
    *before, tail = app.parts()
    if len(before) != len(BEFORE):
        sys.exit(f"the app has {len(before)} places for the texts of a page, and not {len(BEFORE)}")
    text = "// The parts of a page that are the same of every run, made by bin/made of the app.\n"
    text += "".join(constant(name, about, it) for (name, about), it in zip(BEFORE.items(), before))
    for number, part in enumerate(divided(tail), 1):
        text += constant(f"TAIL_{number}", f"Part {number} of what a page ends with: the app, and the machine in it.", part)
    return {TOP / "crates" / "page_frame" / "src" / "fixed.rt": text}
