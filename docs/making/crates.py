"""Makes the map of the crates in docs/ARCHITECTURE.md and the list of their pages in docs/PROMISES.md, and of each page,
docs/crates/NAME.md: what the crate is for, as its lib.rt (a program's main.rt) begins; an example, a proved caller; its laws; its
definitions that somebody has to believe, a file after those that it names; and its must-fail edits. What else a crate promises is
written by hand; the page of a crate that has none is begun. Which function is the example is named on the page, by a line
`<!-- the example is NAME of FILE -->`. Wrong is a page on which nothing is promised, and a name in brackets that is none of a
clause, a function or a test."""
import itertools
import re
import sys
import textwrap

import believed
from marks import TOP, begin_of, between, end_of

MAP = TOP / "docs" / "ARCHITECTURE.md"
PAGES = TOP / "docs" / "crates"
LIST = TOP / "docs" / "PROMISES.md"
WIDTH = 126
PUBLIC = r"(?:pub(?:\([^)]*\))? )?"
ITEM = re.compile(rf"{PUBLIC}(?:fn|impl|trait|const|static|enum|struct|macro_rules!)\b")
LAW = re.compile(r"(?m)((?:^ *///.*\n)+)(?:^ *#.*\n)*^ *pub fn (\w+)\(([^)]*)\)\n((?: +(?:requires|ensures).*\n(?:  .*\n)*)+)")
PART = re.compile(rf"    {PUBLIC}(?:fn|const|ghost) ")


def floors():
    """The headings of crates.txt, each with its crates, and of each those that it stands on."""
    found = {}
    for line in (TOP / "crates.txt").read_text().split("\n")[1:]:
        if line.startswith("# "):
            found[line[2:]] = {}
        elif line:
            head, _, below = line.partition(":")
            found[list(found)[-1]][head.split()[0]] = below.split()
    return found


def item(text, indent=""):
    """An item of a list, as lines that aren't too long."""
    return "\n".join(textwrap.wrap(text, WIDTH, initial_indent=f"{indent}- ", subsequent_indent=f"{indent}  ",
                                   break_long_words=False, break_on_hyphens=False)) + "\n"


def in_brackets(names):
    return f" ({', '.join(f'`{it}`' for it in names)})" if names else ""


def comment_of(lines, sign):
    """The text of the comment that lines begin with."""
    said = itertools.takewhile(lambda line: line.strip().startswith(sign), lines)
    return " ".join(" ".join(line.strip().lstrip(sign) for line in said).split())


# -- what a crate is for

def head_of(crate):
    """What its lib.rt or main.rt begins with."""
    source = next(it for it in (crate / "src" / "lib.rt", crate / "src" / "main.rt") if it.is_file())
    return re.sub(r"(?m)^//! ?", "", re.match(r"(?://!.*\n)*", source.read_text()).group())


def purpose(crate):
    return head_of(crate) + "\n[Promises](../PROMISES.md) and [definitions](../DEFINITIONS.md) say how to read this page.\n"


def first_sentence_of(text):
    return re.match(r".*?\.(?= |$)|.*", text).group()


def first_sentence(crate):
    return first_sentence_of(" ".join(head_of(crate).partition("\n\n")[0].split()))


# -- the example

def example(text):
    """The function that a page names as its example, with its comment, as a block of code, and where it is."""
    named = re.search(r"<!-- the example is (\w+) of (\S+) -->", text)
    if not named:
        return ""
    name, file = named.groups()
    source = (TOP / file).read_text()
    found = re.search(rf"(?m)((?:^///.*\n)*)^{PUBLIC}fn {name}\b[\s\S]*?^}}\n", source)
    if not found:
        sys.exit(f"{file} has no function {name}, which is the example of a page")
    return f"This proved function is in [{file}](../../{file}):\n\n```rust\n{found.group()}```\n"


# -- definitions and laws

def named_by(path):
    """The files of its own crate's specs/ that a file of them imports from."""
    imports = re.findall(rf"Rattle\.{path.parts[-3]}\.specs\.(\{{[^}}]*\}}|\w+)", path.read_text())
    return {name for items in imports for name in re.findall(r"(?:^|[{ ])(\w+)", items)}


def in_reading_order(files):
    """Files, each behind those of them that it names, else in the order in which the crate lists them."""
    names = {path: named_by(path) for path in files}
    order, left = [], list(files)
    while left:
        known = {path.stem for path in left}
        ready = [path for path in left if not names[path] & (known - {path.stem})] or left
        order.append(ready[0])
        left.remove(ready[0])
    return order


def files_of(crate):
    listed = re.findall(r"pub mod (\w+)", (crate / "specs" / "Lib.antt").read_text()) if (crate / "specs").is_dir() else []
    return in_reading_order([crate / "specs" / f"{name}.antt" for name in listed])


def definitions(crate, its, all_believed):
    """The definitions of a crate by files, those that somebody has to believe; the names of the others; the types named."""
    text, others = "", []
    for path in files_of(crate):
        here = [(key[2], it) for key, it in its.items() if key[1] == path.stem]
        file = f"[{path.name}](../../crates/{crate.name}/specs/{path.name})"
        kept = [f"`{name}`" for name, it in here if (crate.name, path.stem, name) in all_believed]
        rest = [f"`{name}`" for name, it in here if (crate.name, path.stem, name) not in all_believed]
        if kept:
            head = comment_of(path.read_text().split("\n"), "-")
            text += item(f"{file}: {first_sentence_of(head)} {', '.join(kept)}" if head else f"{file}: {', '.join(kept)}")
        if rest:
            others.append(f"{file} ({len(rest)})")
    types = [f"`{key[2]}`" for key, it in its.items() if key[1] == "declared" and key in all_believed]
    if types:
        text += item("Types of the code that appear in these definitions and in the contracts: " + ", ".join(types))
    text += item("Some definitions aren't listed here, because no public contract names them. So *you need not believe* them. They are "
                 "in " + ", ".join(others) + ".") if others else ""
    return text


def laws(crate):
    """The public functions that neither answer nor change anything, with their clauses: what they ensure always holds."""
    text = ""
    for path in sorted((crate / "src").rglob("*.rt")):
        if path.stem == "tests" or crate.name.endswith("_tests"):
            continue
        for comment, name, given, contract in LAW.findall(path.read_text()):
            if "&mut" not in given:
                said = comment_of(comment.split("\n"), "/").removeprefix("A law: ")
                clauses = in_brackets(re.findall(r"ensures (\w+)", contract))
                text += item(f"`{name}`{clauses}: {said[0].upper()}{said[1:]}")
    return text


# -- must-fail edits

def function_at(lines, place):
    """The function in which a line stands, with its type, whether it is private, and the names of its clauses."""
    top = next((at for at in range(place, -1, -1) if ITEM.match(lines[at])), None)
    if top is None:
        return None
    inner = next((at for at in range(place, top, -1) if PART.match(lines[at])), None)
    start = top if inner is None or not re.match(rf"{PUBLIC}(?:impl|trait)\b", lines[top]) else inner
    name = re.search(r"(?:fn|const|static|enum|struct|trait|macro_rules!) (\w+)", lines[start])
    if not name:
        return None
    of_type = ""
    if start != top:
        head = re.sub(r"<[^<>]*>", "", re.sub(r"<[^<>]*>", "", lines[top]))
        of_type = re.findall(r"\w+", head.split(" for ")[-1].split(" where ")[0].split("{")[0])[-1] + "::"
    is_private = not lines[start].strip().startswith("pub ") and " for " not in lines[top]
    clauses = []
    for line in lines[start + 1:]:
        if line.strip() in ("{", "{}") or line.startswith("}"):
            break
        clauses += re.findall(r"^\s*ensures (\w+)", line)
    return f"{'private ' if is_private else ''}`{of_type}{name.group(1)}`", tuple(clauses)


def edits_of(crate):
    text = ""
    for path in sorted(crate.glob("must-fail/*.edit")):
        places, file = {}, None
        for line in path.read_text().split("\n"):
            if line.startswith("file: "):
                file = line[6:].strip()
                source = (crate / file).read_text()
            elif line.startswith("old: "):
                place = source.find(line[5:])
                if place < 0:
                    sys.exit(f"{path.relative_to(TOP)} changes a line that isn't there")
                places[function_at(source.split("\n"), source.count("\n", 0, place))] = file
        words = path.stem.replace("_s_", "'s_").replace("_", " ")
        where = []
        for found, file in places.items():
            name, clauses = found or ("", [])
            where.append(f"{name}{in_brackets(clauses)} in `{file}`" if name else f"`{file}`")
        text += item(f"{words[0].upper()}{words[1:]}: {'; '.join(where)}")
    return (
        "A must-fail edit changes a function so that it does something wrong. The contracts have to refuse the changed function.\n"
        f"Each item says first what would be wrong. Then it names the changed function, and in brackets all clauses of its contract that have a name:\n\n{text}"
    ) if text else ""


# -- what promises name

def code_of(crate):
    return "".join(path.read_text() for part in ("src", "specs") for path in sorted((TOP / "crates" / crate / part).rglob("*.*t")))


def names_of(crate, below):
    """What a promise of a crate may name in brackets: its clauses, also those that a record has, and definitions, its functions
    and types and those of what it stands on, and what it takes from the kit."""
    own = code_of(crate)
    found = {"requires"} | set(re.findall(r"\b(?:ensures|requires|ghost) (\w+)", own))
    found |= set(re.findall(r"(?m)^(?:abbrev |unfoldable |pub |record |data )+(\w+)", own))
    found |= set(re.findall(r"(?m)^  pub (\w+) :", own))
    for items in re.findall(r"use Rattle\.[\w.]+\.\{([^}]*)\}", own):
        found |= set(re.findall(r"\w+", items))
    for text in [own] + [code_of(it) for it in below]:
        found |= set(re.findall(r"\b(?:fn|struct|enum|trait) (\w+)", text))
    return found


def unknown_in(text, known):
    """The names that stand in brackets with nothing else, behind a promise, and are none of these, no file and no crate."""
    promises = re.sub(r"(?s)<!-- [^>]*, by bin/.*?<!-- end of [^>]* -->", "", text.partition("\n## Definitions\n")[0])
    for group in re.findall(r"\(((?:`[^`]+`|[,;:\s]|\b(?:private|by|and|of)\b)+)\)", promises):
        for name in re.findall(r"`([^`]+)`", group):
            is_file = (TOP / name).exists() or (TOP / "crates" / name).is_dir() or name.endswith(".antt")
            if not is_file and ".." not in name and not set(re.findall(r"\w+", name)[-1:]) <= known:
                yield name


# -- pages

def new_page(name, parts):
    """A page without promises."""
    text = f"# {name}\n\n"
    for mark, made in parts.items():
        if made:
            heading = "" if mark == "the purpose" else f"## {mark.removeprefix('the ').capitalize()}\n\n"
            text += f"{heading}{begin_of(mark, 'crates')}{end_of(mark)}\n\n"
            text += "## Promises\n\n" if mark == "the purpose" else ""
    return text.rstrip("\n") + "\n"


def page_of(name, all_definitions, all_believed):
    crate, page = TOP / "crates" / name, PAGES / f"{name}.md"
    its = {key: it for key, it in all_definitions.items() if key[0] == name}
    parts = {
        "the purpose": purpose(crate),
        "the laws": laws(crate),
        "the definitions": definitions(crate, its, all_believed),
        "the must-fail edits": edits_of(crate),
    }
    text = page.read_text() if page.is_file() else new_page(name, parts)
    parts["the example"] = example(text)
    for mark, part in parts.items():
        if part or begin_of(mark, "crates") in text:
            text = between(page, text, mark, "crates", part)
    return text


def page_list():
    return "".join(item(f"{floor}: " + ", ".join(f"[{it}](crates/{it}.md)" for it in its)) for floor, its in floors().items())


def crate_map():
    lines = {it: item(f"[`{it}`](crates/{it}.md): {first_sentence(TOP / 'crates' / it)}") for its in floors().values() for it in its}
    return "\n".join(f"{floor}:\n\n" + "".join(lines[it] for it in its) for floor, its in floors().items())


def crates():
    """Each crate with those that it stands on."""
    return {name: below for floor in floors().values() for name, below in floor.items()}


def made():
    over = sorted(it.name for it in PAGES.glob("*.md") if it.stem not in crates())
    if over:
        sys.exit(f"pages of no crate: {', '.join(over)}")
    all_definitions = believed.all_definitions()
    all_believed = believed.closure(believed.all_roots(), all_definitions)
    PAGES.mkdir(exist_ok=True)
    texts = {PAGES / f"{name}.md": page_of(name, all_definitions, all_believed) for name in crates()}
    texts[LIST] = between(LIST, LIST.read_text(), "the pages", "crates", page_list())
    texts[MAP] = between(MAP, MAP.read_text(), "the map", "crates", crate_map())
    return texts


def wrong():
    found = []
    for name, below in crates().items():
        page = PAGES / f"{name}.md"
        text = page.read_text() if page.is_file() else ""
        if not re.search(r"(?m)^## Promises\n\n(?!##|<!--)\S", text):
            found.append(f"docs/crates/{name}.md has no promises")
        unknown = list(unknown_in(text, names_of(name, below)))
        if unknown:
            found.append(f"docs/crates/{name}.md names no clause, function or test: {', '.join(unknown)}")
    return found
