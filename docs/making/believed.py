"""What somebody who trusts the checker must still read and believe: the definitions (specs/) that a public contract names, and what
these name in turn, in whichever crate it stands; the clauses of the public functions; and the types of the code that both
name, less their private fields. The other lines of specs/ are the steps of proofs, and what private types and fields stand for.
A line counts that says something: no comment, no import, no blank. Made of it is docs/headline.sum, the sum of the text for the
headline."""
import functools
import hashlib
import re
import sys

from marks import TOP

NAME = r"[A-Za-z_][\w-]*"
HEADLINE = TOP / "docs" / "headline.sum"


class Definition:
    """Its lines with their comments, those of them that say something, and what they name: triples (crate, module, name)."""

    def __init__(self):
        self.text, self.lines, self.names = [], [], set()


def without_comments(text):
    return re.sub(r"--.*|//[^\n]*", "", text)


# -- definitions

def imports_of(text, word):
    """What each word of an import stands for: a triple, or for an alias of a module a pair. A type that code declares has the
    module `declared`. Between braces a name may have a path of its own."""
    names, modules = {}, {}
    for path, items, alias in re.findall(rf"(?m)^\s*{word} Rattle\.([\w.]+?)(?:\.\{{([^}}]*)\}}| as ({NAME}))?;?\s*$", text):
        named = [item.strip().partition(" as ") for item in items.split(",")] if items else [("", "", alias)]
        for name, _, other in named:
            below, _, last = name.rpartition(".") if re.match(r"\w+\.", name) else ("", "", name)
            steps = path.split(".") + [step for step in below.split(".") if step]
            if len(steps) < 3 or steps[1] != "specs":
                continue
            if steps[2] == "declared":
                kind = [step for step in steps if step != "TheVariants"][-1]
                names[other or last] = (steps[0], "declared", kind)
            elif last:
                names[other or last] = (steps[0], ".".join(steps[2:]), last)
            elif alias:
                modules[alias] = (steps[0], ".".join(steps[2:]))
    return names, modules


def named_in(text, names, modules):
    found = {names[word] for word in re.findall(NAME, text) if word in names}
    for alias, word in re.findall(rf"\b({NAME})\.({NAME})", text):
        if alias in modules:
            found.add((*modules[alias], word))
    return found


def definitions_of(path, crate, module):
    """Each definition of a file: its first line names it; lines that begin with its name, or with blanks, go on with it. The
    comment above it is its own."""
    raw = path.read_text()
    names, modules = imports_of(without_comments(raw), "use")
    found, current, comment = {}, None, []
    for line in raw.split("\n"):
        said = without_comments(line)
        if not said.strip():
            comment = comment + [line] if line.startswith("--") else []
            continue
        if re.match(r"(use|pub mod|mod|pub use)\b|#", line):
            comment = []
            continue
        start = re.match(rf"(?:(?:abbrev|unfoldable|pub|record|data|relation|inductive)\s+)*({NAME}|\S+)", line)
        if line[0] not in " })" and start:
            current = start.group(1)
        it = found.setdefault(current, Definition())
        it.text += comment + [line]
        it.lines.append(said)
        comment = []
    own = {name: (crate, module, name) for name in found}
    for name, it in found.items():
        it.names = named_in("\n".join(it.lines), {**names, **own}, modules) - {own[name]}
    return {own[name]: it for name, it in found.items()}


def without_private_fields(block):
    """A type as others see it. The fields of an enum's kinds are as public as the enum."""
    if not re.search(r"(?m)^pub struct [^;{]*\{$", block):
        return block
    private = r"(?m)^(?: *///.*\n| *#.*\n)*    (?:pub\([^)]*\) )?(?:ghost )?(?!pub\b)\w+:(?:.*\n)*?(?=    (?:///|#|pub|\w+:)|\})"
    return re.sub(private, "", block)


def types_of(crate):
    """The types that a crate's code declares, with the doc comments of the types and of their parts."""
    found = {}
    for path in sorted((crate / "src").rglob("*.rt")):
        for block in re.finditer(r"(?m)((?:^ *///.*\n)*)(?:^#.*\n)*(^pub (?:enum|struct) (\w+)[^;{]*(?:;|\{\n(?:.*\n)*?\}))", path.read_text()):
            it, seen = Definition(), without_private_fields(block.group(2))
            it.text = (block.group(1) + seen).split("\n")
            it.lines = [line for line in without_comments(seen).split("\n") if line.strip()]
            found[(crate.name, "declared", block.group(3))] = it
    return found


@functools.cache
def all_definitions():
    found = {}
    for crate in sorted(it for it in (TOP / "crates").iterdir() if (it / "specs").is_dir()):
        found.update(types_of(crate))
        for path in sorted((crate / "specs").rglob("*.antt")):
            if path.stem != "Lib":
                found.update(definitions_of(path, crate.name, ".".join(path.relative_to(crate / "specs").with_suffix("").parts)))
    by_name = {}
    for key in found:
        if key[1] == "declared":
            by_name.setdefault(key[2], []).append(key)
    for key, it in found.items():
        if key[1] == "declared":
            # the names of its kinds and fields are no types
            inside = re.sub(r"(?m)^ +(?:pub )?(?:ghost )?\w+", "", "\n".join(it.lines))
            for word in set(re.findall(r"\w+", inside)) - {key[2]}:
                same = [other for other in by_name.get(word, []) if other[0] == key[0]] or by_name.get(word, [])
                it.names |= {same[0]} if len(same) == 1 else set()
    return found


# -- what public contracts name

def blocks(text):
    """A file's text at its top, and each `impl` or `trait` with its head."""
    top, parts, at = "", [], 0
    for head in re.finditer(r"(?m)^(?:pub )?(?:impl|trait)\b[^{;]*\{", text):
        if head.start() < at:
            continue
        end = text.find("\n}", head.end())
        top += text[at:head.start()]
        parts.append((head.group(), text[head.end():end]))
        at = end
    return top + text[at:], parts


def contracts(text, chosen, word=r'pub (?:extern "C" )?fn'):
    """The functions behind this word that are chosen by name, each up to its body: its name, and its head with its clauses."""
    found = re.finditer(rf"(?m)^\s*{word} (\w+)(.*?)(?=^\s*\{{|\Z)", text, re.S)
    return [it.groups() for it in found if chosen(it.group(1))]


def subject_of(head):
    """The type that an `impl` is of, or the trait that is declared."""
    head = re.sub(r"<[^<>]*>", "", re.sub(r"<[^<>]*>", "", head))
    return re.findall(r"\w+", head.split(" for ")[-1].split(" where ")[0])[-1 if " for " not in head else 0]


def said_in(path, is_public, exported):
    """The exported functions of a file, as pairs of a name and of a head with its clauses; what else is said to others; and
    what the words in it all stand for. A private type's functions are as private, and nobody outside sees what a type's
    fields stand for, nor what is true of them."""
    text = re.sub(r"(?s)#\[cfg\(test\)\].*", "", without_comments(path.read_text()))
    top, parts = blocks(text)
    private = re.findall(r"(?m)^(?:pub\([^)]*\) )?(?:struct|enum|trait) (\w+)", text)
    calls = contracts(top, lambda name: is_public or name in exported)
    said = re.findall(r"pub ghost \w+: \{(.*?)\},", top, re.S)
    for head, body in parts:
        subject = subject_of(head)
        if subject in private or not is_public and subject not in exported:
            continue
        # the functions of a trait are as public as the trait
        its = contracts(body, lambda name: True, "fn" if " for " in head else "pub fn")
        calls += [(f"{subject}::{name}", contract) for name, contract in its]
        if "trait " in head or " for " in head:
            said += re.findall(r"ghost (?!(?:view|invariant|inverse)\b)\w+\s*[:=]\s*\{(.*?)\};", body, re.S)
            if "trait " in head:
                said += re.findall(r"(?:requires|ensures)[^{]*\{.*?\}\s*(?=ensures|requires|;|\{)", body, re.S)
    return calls, said, imports_of(text, r"ghost use")


def clauses_of(contract):
    """The lines of a contract's clauses."""
    found = re.search(r"\b(?:requires|ensures)\b", contract)
    return [line for line in contract[found.start():].split("\n") if line.strip()] if found else []


def contracts_of(crate, left_out=()):
    """What the public contracts of a crate name, and how many lines their clauses have, but for these modules of it."""
    source, found, clauses = crate / "src", set(), 0

    def visit(path, folder, is_public, exported):
        nonlocal clauses
        text = path.read_text()
        its, said, scope = said_in(path, is_public, exported)
        said += [contract for _, contract in its]
        found.update(named_in("".join(said), *scope))
        clauses += sum(len(clauses_of(it)) for it in said)
        here = {}
        for module, items in re.findall(r"(?m)^pub use (?:self::|crate::)?([\w:]+?)::(\{[^}]*\}|\w+);", text):
            here.setdefault(module.split("::")[0], set()).update(re.findall(r"\w+", items))
        # an exported type may have functions in each of the modules
        types = {name for names in here.values() for name in names if name[0].isupper()}
        for public, module in re.findall(r"(?m)^(pub )?mod (\w+);", text):
            below = folder / f"{module}.rt"
            if below.is_file() and module not in left_out:
                visit(below, folder / module, is_public and bool(public), here.get(module, set()) | exported | types)

    if (source / "lib.rt").is_file():
        visit(source / "lib.rt", source, True, set())
    return found, clauses


def named_below(page):
    """The functions of other crates that the head of a page of the headline names, by files, `crate/src/file.rt: `call`, `call``:
    pairs of a name and of clauses, if only these of its contract belong to the page."""
    head = re.sub(r"\n-- *", " ", re.match(r"(?:--.*\n)*", page.read_text()).group())
    call = r"`\w+`(?: \(`\w+`(?:, `\w+`)*\))?"
    for file, calls in re.findall(rf"(\w+/src/[\w/]+\.rt): ({call}(?:, {call})*)", head):
        yield TOP / "crates" / file, [(words[0], words[1:]) for words in (re.findall(r"\w+", it) for it in re.findall(call, calls))]


def contracts_below(page):
    """What the contracts of these functions name, and how many lines their clauses have."""
    found, clauses = set(), 0
    for path, calls in named_below(page):
        its, _, scope = said_in(path, True, set())
        contract_of = {name.rpartition("::")[2]: contract for name, contract in its}
        for call, chosen in calls:
            if call not in contract_of:
                sys.exit(f"{page.relative_to(TOP)} names {call}, which isn't in {path.relative_to(TOP)}")
            head, *parts = re.split(r"(?m)^\s*(?=ensures|requires)", contract_of[call])
            of_name = {part.split()[1]: part for part in parts}
            if not set(chosen) <= set(of_name):
                sys.exit(f"{page.relative_to(TOP)} names a clause that {call} of {path.relative_to(TOP)} hasn't")
            contract = head + "".join(of_name[name] for name in chosen) if chosen else contract_of[call]
            found |= named_in(contract, *scope)
            clauses += len(clauses_of(contract))
    return found, clauses


def page_of(crate):
    """The contracts of a crate. The headline's page is that of a program's machine, and of what is below it in other crates; `shown`
    adds what commands show, what a session does, and what texts are."""
    headline = TOP / "crates" / "headline"
    if crate not in ("headline", "shown"):
        return contracts_of(TOP / "crates" / crate)
    parts = [contracts_of(headline, {"shown"} if crate == "headline" else ()), contracts_below(headline / "specs" / "Headline.antt")]
    parts += [contracts_below(headline / "specs" / "EndToEnd.antt")] if crate == "shown" else []
    return set().union(*(names for names, _ in parts)), sum(clauses for _, clauses in parts)


def closure(roots, definitions):
    """What these names lead to."""
    believed, ahead = set(), set(roots)
    while ahead:
        name = ahead.pop()
        if name in definitions and name not in believed:
            believed.add(name)
            ahead |= definitions[name].names
    return believed


@functools.cache
def all_contracts():
    return {crate.name: contracts_of(crate) for crate in sorted((TOP / "crates").iterdir()) if crate.is_dir()}


def all_roots():
    return set().union(*(names for names, _ in all_contracts().values()))


# -- the text of it

def file_of(key):
    return f"crates/{key[0]}/src, type {key[2]}" if key[1] == "declared" else f"crates/{key[0]}/specs/{key[1].replace('.', '/')}.antt"


def reading(crate, definitions):
    """The text of what is believed for a crate, from the top down: each definition before those that it names, where none names
    another in a ring."""
    roots, _ = page_of(crate)
    believed, seen, order = closure(roots, definitions), set(), []
    places = {key: place for place, key in enumerate(definitions)}

    # the later ones of a file first, since all is turned round in the end; the crate's own come last
    def in_order(keys):
        return sorted(keys & believed, key=lambda it: (it[0] == crate, -places[it]))

    for root in in_order(roots):
        ahead = [(root, iter(in_order(definitions[root].names)))] if root not in seen else []
        seen.add(root)
        while ahead:
            key, rest = ahead[-1]
            below = next((it for it in rest if it not in seen), None)
            if below is None:
                order.append(key)
                ahead.pop()
            else:
                seen.add(below)
                ahead.append((below, iter(in_order(definitions[below].names))))
    lines, last = [], None
    for key in reversed(order):
        if file_of(key) != last:
            last = file_of(key)
            lines += ["", f"==== {last}"]
        lines += definitions[key].text
    return "\n".join(lines[1:]) + "\n"


def made():
    text = reading("headline", all_definitions())
    told = hashlib.sha256(text.encode()).hexdigest()
    return {HEADLINE: f"{told}  {text.count(chr(10))} lines, as docs/believed --read headline prints them\n"}
