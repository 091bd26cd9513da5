"""Looks at pages: the app with a run in it. Each plays itself, and says whether its trace is right; addresses of pages lead to the same
places as ever; hostile texts stay texts; long runs open at once."""
import html
import json
import os
import re

from driving import HOSTILE, LESSONS, LOST, ROOM, TOP, filed, page_of, played, same, told

LOST_PLAN = (LESSONS / "lost-meeting.schedule").read_text()
RIGHT = "Played again in this page: the trace is the same."


def examples():
    """Each example with a schedule: its name, its program and its schedule."""
    for path in sorted([*TOP.glob("examples/*.asm"), *LESSONS.glob("*.asm")]):
        schedule = path.with_suffix(".schedule")
        if schedule.exists():
            yield path.stem, path.read_text(), schedule.read_text()
    for path in (TOP / "examples" / "two-threads-meet.txt", TOP / "tests" / "apps" / "one-too-many.txt"):
        program, _, schedule = path.read_text().partition("\n.run\n")
        yield path.stem, program + "\n", schedule


def many(threads, count):
    """A program of so many threads that meet again and again, and a schedule of so many choices."""
    names = "".join(f".thread w{number} go\n" for number in range(threads))
    program = f"; They meet again and again.\n.phaser meet {threads}\n{names}go: paaa r0 meet\njmp go\n"
    return program, " ".join(f"t{number % threads}" for number in range(count))


def alarm(page):
    """What the page says of its trace, if it is wrong."""
    return page.text("#check.is-wrong")


def look_at_examples(page):
    """The page of each example plays itself, finds no difference, and ends as the program's run"""
    for name, program, schedule in examples():
        trace = played(program, schedule)
        page.open(file=filed(name, page_of(program, schedule)))
        same(page.text("#check"), RIGHT, name)
        same(page.state("state.tree.runs[0].trace"), trace, name)
        same(page.state("[state.item.name, state.text]"), [name, program], name)
        same(page.run("document.querySelector('#check').classList.contains('is-wrong') || document.querySelector('#check').hidden"), False, name)
        same(page.run("document.querySelector('#texts') === null"), True, f"{name}: its texts are still drawn")


def look_at_program(page):
    """The program writes these pages, byte for byte"""
    for name, program, schedule in examples():
        tokens = told("choices", played(program, schedule)).strip()
        same(told("show", program, tokens), page_of(program, tokens), name)


def look_at_listings(page):
    """A page of an image, which has no text of its own, has the listing"""
    page.open(file=filed("image", page_of(LOST, LOST_PLAN, source="")))
    same(page.text("#check"), RIGHT)
    same(page.state("state.text"), told("list", LOST))
    same(page.run("document.querySelector('.time-name').textContent"), "t0")


def look_at_changes(page):
    """A byte that is another one is told, with the line and what the machine plays"""
    trace, listing = played(LOST, LOST_PLAN), told("list", LOST)
    state = trace.index("state ")
    lines = [at for at in range(len(trace)) if at == 0 or trace[at - 1] == "\n"]
    for at in {0, 2, lines[3] + 5, state + 3, len(trace) - 2}:
        other = trace[:at] + ("7" if trace[at] != "7" else "8") + trace[at + 1:]
        page.open(file=filed("changed", page_of(LOST, LOST_PLAN, trace=other)))
        number = trace[:at].count("\n") + 1
        assert f"Line {number} of its trace" in alarm(page), f"{at}: {alarm(page)}"
        here = trace.split("\n")[number - 1]
        assert here[:40] in alarm(page) or "\u2026" in alarm(page), alarm(page)
    for name, others in (
        ("trace", {"trace": trace[:-1]}), ("trace", {"trace": trace + "\n"}), ("trace", {"trace": "no trace"}),
        ("listing", {"listing": listing.replace("p0 2", "p0 3")}), ("trace", {"schedule": "t0 t1*7"}),
        ("listing", {"source": LOST.replace("meet 2", "meet 3")}),
    ):
        page.open(file=filed("changed", page_of(LOST, LOST_PLAN, **others)))
        assert f"of its {name}" in alarm(page), f"{others}: {alarm(page)}"
    # it can still be looked at, and what is typed isn't the page's
    page.press("ArrowRight")
    same(page.state("state.at"), 1)
    page.write(LOST + "; more\n")
    page.until("document.querySelector('#check').hidden")
    # what the machine refuses
    for others in ({"source": "nonsense"}, {"schedule": "t99"}, {"schedule": "ann."}, {"source": "", "listing": "nonsense"}):
        page.open(file=filed("refused", page_of(LOST, LOST_PLAN, **others)))
        assert page.run("Boolean(window.vuthgal.get().mistake) && document.querySelector('#said').dataset.kind === 'wrong'"), others
        same(page.run("document.querySelector('#check').hidden"), True)


def look_at_addresses(page):
    """An address of a page leads to its choice, also in another run; a new page has addresses of that form"""
    file = filed("lost", page_of(LOST, LOST_PLAN))
    for address, at, choices in (("#4", 4, ""), ("#0", 0, ""), ("#2t1.9", 9, "1 t1"), ("#1t2.6", 6, "0 t2"), ("#1t1.2t2.3", 3, "1 t2"), ("#8", 8, ""),
                                 ("#99", 8, ""), ("#2x0.4", 1, ""), ("#2t9.4", 1, ""), ("#9999999", 8, "")):
        page.open(address, file=file)
        same(page.state("state.at"), at, address)
        if choices:
            i, token = choices.split()
            same(page.state(f"state.tree.runs[state.id].choices[{i}]"), token, address)
        same(page.text("#check"), RIGHT, address)
    for address in ("#x", "#7t2", "#t2.9", "#<b>"):
        page.open(address, file=file)
        same(page.state("[state.at, state.tree.runs.length]"), [0, 1], address)
        assert "can\u2019t be read" in page.text("#note"), address
    page.open("#2t1.9", file=file)
    same(page.text("#where"), "9 of 9")
    page.press("ArrowLeft")
    page.until("location.hash === '#2t1.8'")
    page.click("#modes [data-mode=challenge]")
    page.until("location.hash.startsWith('#c/')")
    # another address in the same page
    page.run("(() => { location.hash = '#5'; return true; })()")
    page.until("window.vuthgal.get().at === 5 && window.vuthgal.get().id === 0")


def look_at_hostile_pages(page):
    """Names and texts in a page that look like markup stay text, and nothing is asked of anybody"""
    markup = "</pre></section><script>window.hurt=1</script><img src=x onerror=window.hurt=1>&lt;b&gt;"
    program = re.sub(r"\bann\b", "__proto__", LOST).replace("cem", "constructor").replace("A lost meeting", markup + HOSTILE).replace("; arrive", "; " + HOSTILE)
    for others in ({}, {"trace": markup}, {"trace": HOSTILE + "\nstate 1 1 all"}, {"listing": markup}, {"schedule": markup}, {"source": markup}):
        page.open(file=filed("hostile", page_of(program, LOST_PLAN, **others)))
        page.press("End")
        for tab in ("values", "orders", "picture"):
            page.click(f".views [data-tab={tab}]")
        page.run("(() => { window.dispatchEvent(new Event('beforeprint')); window.dispatchEvent(new Event('afterprint')); return true; })()")
        same(page.run("window.hurt === undefined && document.images.length === 0 && document.scripts.length"), 3, f"{list(others)}")
        same(page.run("performance.getEntriesByType('resource').filter(it => !it.name.startsWith('blob:')).length"), 0, "requests")
    same(page.run("document.querySelector('meta[http-equiv]').content.includes('unsafe-inline')"), False)


def look_at_page_sizes(page):
    """A page of 64 threads and 2,000 choices has at most 700 KB, one of two threads 520 KB"""
    for threads, count, most in ((64, 2000, 700_000), (2, 100, 520_000)):
        text = page_of(*many(threads, count))
        assert len(text) <= most, f"{threads} threads: {len(text)} bytes"
        assert re.fullmatch(r"[ -~\n]*", text), "a byte that isn't ASCII"


def look_at_long_pages(page):
    """100,000 choices open within two seconds; any place of them is there at once, and a difference in the last line is told"""
    program, schedule = many(8, 100_000)
    text, trace = page_of(program, schedule), played(program, schedule)
    file = filed("long", text)
    # on a machine that has other work it takes longer
    most = 2000 * max(1, os.getloadavg()[0] / os.cpu_count())
    for _ in range(3):
        page.open("#73210", file=file)
        ready = page.run("window.vuthgal.ready")
        if ready < most:
            break
    assert ready < most, f"ready after {ready} ms"
    same(page.text("#check"), RIGHT)
    same(page.text("#where"), "73210 of 100000")
    count = page.run("document.querySelectorAll('.time *').length")
    assert count < 700, f"{count} elements"
    for key, at in (("Home", 0), ("End", 100_000), ("ArrowLeft", 99_999)):
        took = page.run(f"(() => {{ const from = performance.now(); document.body.dispatchEvent(new KeyboardEvent('keydown', {{ key: '{key}', bubbles: true }})); return performance.now() - from; }})()")
        same(page.state("state.at"), at)
        assert took < 1000, f"{key} took {took} ms"
    same(page.state("state.tree.runs[0].end.key"), re.sub(r"^state \d+ \d+", "", trace[trace.index("state "):]))
    # a fork near the end, and back
    page.run("document.querySelectorAll('.chip')[3].click()")
    same(page.state("state.tree.runs.length"), 2)
    page.open(file=filed("long", text.replace("state 100000", "state 100001")))
    assert "Line 100001 of its trace" in alarm(page), alarm(page)


def look_at_saved_pages(page):
    """A saved page opens with its run; so does one that is chosen as a file"""
    if page.name != "Browser":
        return
    page.open(file=filed("lost", page_of(LOST, LOST_PLAN)))
    # what is saved is kept, in place of a file
    page.run("(() => { const make = URL.createObjectURL; URL.createObjectURL = blob => { window.saved = blob; return make.call(URL, blob); }; HTMLAnchorElement.prototype.click = () => {}; return true; })()")
    page.click("#forth")
    page.click(".chip[data-token=t1]")
    page.entry("#more", "Save this page with the run")
    saved = page.run("window.saved.text()")
    page.open(file=filed("saved", saved))
    same(page.text("#check"), RIGHT)
    same(page.state("state.tree.runs[0].choices[1]"), "t1")
    page.open()
    page.click("#pick")
    page.run(f"(() => {{ const all = new DataTransfer(); all.items.add(new File([{json.dumps(saved)}], 'mine.html')); const it = document.querySelector('input[type=file]'); it.files = all.files; it.dispatchEvent(new Event('change')); return true; }})()")
    page.until("window.vuthgal.get().item.name === 'mine'")
    same(page.text("#check"), RIGHT)


def look_at_frames(page):
    """In a frame that may keep nothing, as a notebook has, a page is the same"""
    if page.name != "Browser":
        return
    inner = html.escape(page_of(LOST, LOST_PLAN))
    (ROOM / "frame.html").write_text(f'<!doctype html><iframe sandbox="allow-scripts" style="width: 1200px; height: 700px" srcdoc="{inner}"></iframe>')
    page.on.open(f"file://{ROOM}/frame.html")
    page.on.until("window.vuthgal && window.vuthgal.ready", frame=0)
    same(page.on.run("document.querySelector('#check').textContent", frame=0), RIGHT)
    page.on.run("document.querySelector('#last').click()", frame=0)
    same(page.on.run("document.querySelector('#where').textContent", frame=0), "8 of 8")
    page.on.run("document.querySelector('#larger').click()", frame=0)
