"""What is made of a document stands between two marks: `<!-- the map, by bin/made crates -->` and `<!-- end of the map -->`."""
import sys
from pathlib import Path

TOP = Path(__file__).resolve().parent.parent.parent


def begin_of(mark, part):
    return f"<!-- {mark}, by bin/made {part} -->\n"


def end_of(mark):
    return f"<!-- end of {mark} -->"


def between(page, text, mark, part, made):
    """The text of a page with what is made between two marks."""
    begin, end = begin_of(mark, part), end_of(mark)
    if text.count(begin) != 1 or text.count(end) != 1:
        sys.exit(f"{page.relative_to(TOP)} has to have the lines {begin.strip()} and {end} once")
    before, _, rest = text.partition(begin)
    return f"{before}{begin}\n{made}\n{end}{rest.partition(end)[2]}"
