"""The app, vuthgal.html, with something in its places: the four texts of a run, or a menu of programs. The library isn't called."""
import html
import json
from pathlib import Path
from typing import Dict, Sequence

HERE = Path(__file__).resolve().parent
# beside the package, or in the clone to which it belongs
PLACES = (HERE / "vuthgal.html", HERE.parents[2] / "vuthgal.html")


def app_text() -> str:
    """The app as it was made."""
    for path in PLACES:
        if path.is_file():
            return path.read_text(encoding="utf-8")
    raise FileNotFoundError("vuthgal.html isn't here: bin/made app makes it")


def with_texts(page: str, **texts: str) -> str:
    """The page with these texts in it: `listing`, `source`, `schedule` and `trace`. Without a trace the schedule is a plan."""
    for name, text in texts.items():
        head, begin, tail = page.partition(f'<pre id="{name}">\n')
        page = head + begin + html.escape(text, quote=False).replace("\r", "&#13;") + tail
    return page


def with_programs(page: str, programs: Sequence[Dict[str, str]]) -> str:
    """The page with these programs in its menu, as data that no browser runs."""
    head, begin, tail = page.partition('<script type="application/json" id="programs">')
    return head + begin + json.dumps(programs).replace("<", "\\u003c") + tail[tail.index("</script>"):]
