"""Makes two tables of the kit. In kit/cases/README.md that of the cases: for each heading of the rules how many cases of each folder
name it in their first line, in the order of the headings. In kit/wrong/README.md that of the adapters in kit/wrong/burst: what each has
misunderstood, the kind of burst that finds it, and where lock-step does, as its comment says; and of the faults in
kit/wrong/lockfree/table.txt. The rules are docs/BEHAVIOUR.md, docs/PHASER.md and
docs/CYCLICBARRIER.md. Each heading has to be one of theirs, and each kind of burst one of the player's."""
import re
import sys
from collections import Counter

from marks import TOP, between

KEPT = TOP / "kit" / "cases" / "README.md"
WRONG = TOP / "kit" / "wrong" / "README.md"
ADAPTERS = TOP / "kit" / "wrong" / "burst"
LOCK_FREE = TOP / "kit" / "wrong" / "lockfree" / "table.txt"
RULES = "\n".join((TOP / "docs" / f"{page}.md").read_text() for page in ("PHASER", "CYCLICBARRIER", "BEHAVIOUR"))
CLASS = r"\n    static final class (\w+)"
ADAPTER = re.compile(r"/\*\*\n((?:     \* .*\n)+)     \*\n     \* <p>Found by ([\w-]+)(?:; in lock-step (.*))?\.\n     \*/" + CLASS)


def place_of(heading):
    """Where a heading stands in the rules, and where behind it a part of it (`Tiers, Joining`); none where it doesn't."""
    for title, part in ((heading, ""), tuple(heading.split(", ", 1)) if ", " in heading else (heading, "")):
        begin = re.search(rf"(?m)^#+ {re.escape(title)}$", RULES)
        if begin and not part:
            return begin.start(), 0
        if begin:
            found = re.compile(rf"\*\*{re.escape(part)}\b").search(RULES, begin.end())
            return found and (begin.start(), found.start())
    return None


def table_of_cases():
    cases = {}
    for path in sorted(KEPT.parent.rglob("*.txt")):
        with path.open() as lines:
            heading = lines.readline().lstrip("; ").partition(":")[0]
        cases.setdefault(heading, Counter())[path.parent.name] += 1
    missing = [heading for heading in cases if not place_of(heading)]
    if missing:
        sys.exit(f"no headings of the rules: {'; '.join(missing)}")
    rows = []
    for heading in sorted(cases, key=place_of):
        folders = ", ".join(f"`{folder}` {count}" for folder, count in cases[heading].items())
        rows.append(f"| {heading} | {folders} |\n")
    return "| Heading | Cases |\n|---|---|\n" + "".join(rows)


def table_of_adapters():
    player = "".join(it.read_text() for it in (TOP / "kit" / "player").glob("*Bursts.java"))
    kinds = set(re.findall(r'BurstKind\("([\w-]+)"', player))
    sources = "".join(it.read_text() for it in ADAPTERS.glob("Wrong*.java"))
    adapters = {found[-1]: found[:-1] for found in ADAPTER.findall(sources)}
    silent = set(re.findall(CLASS, sources)) - adapters.keys()
    if silent:
        sys.exit(f"{', '.join(silent)}: the comment doesn't say which burst finds it: `<p>Found by KIND.`")
    rows = []
    for name, (comment, kind, lock_step) in sorted(adapters.items()):
        if kind not in kinds:
            sys.exit(f"{name}: there is no kind of burst {kind}")
        said = " ".join(comment.replace(" * ", " ").split()).rstrip(".")
        rows.append(f"| `{name}`: {said} | `{kind}` | {lock_step} |\n")
    for line in LOCK_FREE.read_text().splitlines():
        name, _, rest = line.partition(" | ")
        kind, _, said = rest.partition(" | ")
        if rest and kind not in kinds:
            sys.exit(f"{LOCK_FREE.relative_to(TOP)}: there is no kind of burst {kind}")
        if rest:
            rows.append(f"| `{name}`, in C++: {said} | `{kind}` |  |\n")
    return "| Adapter, and its fault | A burst that finds it | Lock-step |\n|---|---|---|\n" + "".join(rows)


def made():
    tables = {KEPT: table_of_cases(), WRONG: table_of_adapters()}
    return {page: between(page, page.read_text(), "the table", "kit", table) for page, table in tables.items()}
