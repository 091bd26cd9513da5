"""The app in a browser, and what one does with it; what the program prints of a run; and pages, as `vuthgal show` writes them."""
import html
import json
import subprocess
import sys
import tempfile
from pathlib import Path

TOP = Path(__file__).resolve().parent.parent.parent
sys.path[:0] = [str(TOP / "tests" / "playing"), str(TOP / "docs" / "making")]
import app as making

PROGRAM = str(Path(sys.argv[1]).resolve() if sys.argv[1:] else TOP / "bin" / "vuthgal")
LESSONS = TOP / "examples" / "lessons"
LOST = (LESSONS / "lost-meeting.asm").read_text()
ROOM = Path(tempfile.mkdtemp(prefix="app"))
PAGE = ROOM / "vuthgal.html"
HOSTILE = "<img src=x onerror=window.hurt=1><script>window.hurt=1</script>"


# what stands before, between and behind the texts of a page
PARTS = making.parts()


def same(found, wanted, what=""):
    if found != wanted:
        raise AssertionError(f"{what}: {found!r:.300} in place of {wanted!r:.300}")


def told(words, *files):
    """What the program prints of files with these contents."""
    paths = []
    for number, content in enumerate(files):
        paths.append(ROOM / f"told-{number}")
        paths[-1].write_text(content)
    return subprocess.run([PROGRAM, words, *paths], capture_output=True).stdout.decode()


def played(program, schedule):
    """What the program prints of a run."""
    return told("run", program, schedule)


def escaped(text):
    return html.escape(text, quote=False).replace("\r", "&#13;")


def page_of(program, schedule, /, **others):
    """A page of a run: the app's parts, and between them its texts. Those in `others` are put in place of the run's own."""
    texts = {"listing": told("list", program), "source": program, "schedule": schedule}
    texts = {**texts, "trace": played(program, schedule), **others}
    *before, tail = PARTS
    return "".join(part + escaped(text) for part, text in zip(before, texts.values())) + tail


def filed(name, text):
    """The file of a page."""
    path = ROOM / f"{name}.html"
    path.write_text(text, newline="")
    return path


class Page:
    """The app in a browser, and what one does with it."""

    def __init__(self, on):
        self.on, self.run, self.until, self.name = on, on.run, on.until, type(on).__name__

    def open(self, address="", file=PAGE):
        # a new document, also if only the address behind the # is another
        self.on.open("about:blank")
        self.on.open(f"file://{file}{address}")
        self.until("window.vuthgal && window.vuthgal.ready")

    def click(self, which):
        self.run(f"(() => {{ const it = document.querySelector({json.dumps(which)}); if (!it) throw new Error('no ' + {json.dumps(which)}); it.click(); return true; }})()")

    def press(self, key, **more):
        told = json.dumps({"key": key, "bubbles": True, "cancelable": True, **more})
        self.run(f"document.body.dispatchEvent(new KeyboardEvent('keydown', {told}))")

    def entry(self, menu, text):
        self.click(menu)
        self.run(f"[...document.querySelectorAll('.entry')].find(it => it.querySelector('span')?.textContent === {json.dumps(text)} || it.textContent === {json.dumps(text)}).click()")

    def write(self, text, which=".code-typed"):
        self.run(f"(() => {{ const it = document.querySelector({json.dumps(which)}); it.value = {json.dumps(text)}; it.dispatchEvent(new Event('input')); return true; }})()")

    def text(self, which):
        return self.run(f"document.querySelector({json.dumps(which)}).textContent")

    def said(self):
        return self.text("#said .said-text")

    def state(self, part):
        return self.run(f"JSON.parse(JSON.stringify((state => {part})(window.vuthgal.get())))")

    def program(self, text, plan=".."):
        """Opens a program as a pupil does who writes it."""
        self.open()
        self.write(plan, ".plan-typed")
        self.write(text)
        self.until(f"window.vuthgal.get().text === {json.dumps(text)} && window.vuthgal.get().plan === {json.dumps(plan)}")
