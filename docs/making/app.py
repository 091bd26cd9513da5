"""Makes vuthgal.html of the sources in app/: one file that holds the app, the machine (web/) and the examples, and has places for
the four texts of a run. A page of `vuthgal show` is this file with texts in it (docs/making/page.py).

The modules of app/ and web/ are ordinary ones, with imports. In the one file each is a function with a scope of its own, in the order
of their imports, so that names in two modules may be alike. A browser refuses imports from file://, an import map can't hold what a
worker imports, and a `data:` module has no name that another one could import; a function has none of these limits. What isn't
understood (a default export, a cycle) is refused. The content policy has the sums of the style and the script."""
import base64
import gzip
import hashlib
import json
import re
import sys

from marks import TOP

APP = TOP / "app"
MOST = 500_000
STYLES = ("tokens", "frame", "card", "stage", "program", "timeline", "scene", "tables", "runs", "sheet", "small", "print")
LESSONS = ("lost-meeting", "broken-barrier", "two-orders", "late-team")
GROUPS = {"Lessons": "lessons", "Tutorial": "tutorial", "Examples": ".", "From Java": "java"}
IMPORT = re.compile(r'^import \{([^}]*)\} from "([^"]+)";\n', re.M)
WHOLE = re.compile(r'^import \* as (\w+) from "([^"]+)";\n', re.M)
AGAIN = re.compile(r'^export \* from "([^"]+)";\n', re.M)
NAMED = re.compile(r"^export \{([^}]*)\};\n", re.M)
DECLARED = re.compile(r"^export ((?:async )?(?:function\*?|const|class) (\w+))", re.M)


def names(text):
    """What stands in the braces of an import, as what stands in those of a pattern: `a as b` is `a: b`."""
    return ", ".join(part.strip().replace(" as ", ": ") for part in text.split(",") if part.strip())


def bare(text):
    """A module without its comments and without what its lines begin with: nobody reads it in the one file."""
    text = re.sub(r"^ */\*\*.*?\*/\n", "", text, flags=re.M | re.S)
    return re.sub(r"^(?:[ \t]*//[^\n]*)?\n|^[ \t]+", "", text, flags=re.M)


def module(path, done):
    """The functions of a module's imports and its own, and its name among them. done: those that were made, by their paths."""
    if path in done:
        if done[path] is None:
            sys.exit(f"{path.relative_to(TOP)} imports itself")
        return ""
    done[path] = None
    text, before = bare(path.read_text()), ""
    for it in (IMPORT, WHOLE, AGAIN):
        for found in it.finditer(text):
            before += module((path.parent / found.group(it.groups)).resolve(), done)
    name = done[path] = f"m{sum(it is not None for it in done.values())}"

    def of(found):
        return done[(path.parent / found).resolve()]

    again = [of(it.group(1)) for it in AGAIN.finditer(text)]
    given = [it.group(2) for it in DECLARED.finditer(text)] + [names(it.group(1)) for it in NAMED.finditer(text)]
    text = IMPORT.sub(lambda it: f"const {{ {names(it.group(1))} }} = {of(it.group(2))};\n", text)
    text = WHOLE.sub(lambda it: f"const {it.group(1)} = {of(it.group(2))};\n", text)
    text = DECLARED.sub(r"\1", NAMED.sub("", AGAIN.sub("", text)))
    if re.search(r"^(import|export) ", text, re.M):
        sys.exit(f"{path.relative_to(TOP)} has an import or an export that isn't understood")
    out = ", ".join([f"...{it}" for it in again] + given)
    return f"{before}// {path.relative_to(TOP)}\nconst {name} = (() => {{\n{text}return {{ {out} }};\n}})();\n"


def item(group, path):
    """A program of the menu."""
    plan = ".."
    for suffix in (".plan", ".schedule"):
        if path.with_suffix(suffix).exists():
            plan = " ".join(path.with_suffix(suffix).read_text().split())
            break
    return {"group": group, "name": path.stem, "title": path.stem.replace("-", " ").capitalize(), "program": path.read_text(), "plan": plan}


def programs():
    """The examples, group by group; the lessons in the order of docs/TEACHING.md."""
    made = []
    for group, folder in GROUPS.items():
        paths = sorted((TOP / "examples" / folder).glob("*.asm"))
        if group == "Lessons":
            paths.sort(key=lambda path: LESSONS.index(path.stem))
        made += [item(group, path) for path in paths]
    return made


def data(value):
    """JSON as it may stand in a `script`."""
    return json.dumps(value).replace("<", "\\u003c")


def sum_of(text):
    """A text's SHA-256 as a content policy names it."""
    return base64.b64encode(hashlib.sha256(text.encode()).digest()).decode()


def parts():
    """What stands before, between and behind the texts of a run."""
    style = "".join(re.sub(r"/\*.*?\*/\n|^[ \t]+", "", (APP / "style" / f"{it}.css").read_text(), flags=re.M | re.S) for it in STYLES)
    # as a script that is no module, since a browser starts no module in a worker from file://
    script = '"use strict";\n' + module(APP / "start.js", {}).replace("import.meta.url", "self.location.href")
    if "</" + "script" in script or "<!--" in script:
        sys.exit("the script of the app holds what ends a script")
    packed = gzip.compress((TOP / "web" / "vuthgal.wasm").read_bytes(), 9, mtime=0)
    made = {
        "STYLE": style, "STYLE-SUM": sum_of(style), "SCRIPT": script, "SCRIPT-SUM": sum_of(script),
        "PROGRAMS": data(programs()), "MACHINE": base64.b64encode(packed).decode(),
    }
    between = (APP / "index.html").read_text().split("@@TEXT@@")
    return [re.sub(r"@@([A-Z-]+)@@", lambda found: made[found.group(1)], it) for it in between]


def made():
    text = "".join(parts())
    if len(text.encode()) > MOST:
        sys.exit(f"vuthgal.html would have {len(text.encode())} bytes, and at most {MOST} are allowed")
    return {TOP / "vuthgal.html": text}
