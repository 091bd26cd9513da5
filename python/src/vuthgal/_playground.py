"""The app with a program in it: for a notebook, or as a file that a browser opens. No server runs, and the library isn't called: the app
plays the program itself."""
from pathlib import Path
from typing import Dict, Optional, Sequence, Union

from ._page import app_text, with_programs, with_texts
from ._shown import Page
from ._text import parts

MOST = 4_000_000


def _read(path: Path) -> Dict[str, str]:
    """A program's file: its text and its plan, which is behind its line `.run`, or in a file beside it."""
    if path.stat().st_size > MOST:
        raise ValueError(f"{path} has more than {MOST} bytes")
    program, plan = parts(path.read_bytes())
    for beside in (path.with_suffix(".plan"), path.with_suffix(".schedule")):
        if not plan and beside.is_file():
            plan = beside.read_bytes()
    text, order = (it.decode("utf-8", "replace").replace("\r\n", "\n") for it in (program, plan or b".."))
    return {"name": path.stem, "title": path.stem, "program": text, "plan": " ".join(order.split())}


class Playground(Page):
    """The app with a program in it. A notebook shows it in a frame of its own."""


def playground(program: Union[str, Path, None] = None, plan: Optional[str] = None, *, height: int = 720) -> Playground:
    """The app with a program in it, or with the examples alone. A path names a file, or a folder whose programs are in the menu."""
    page = app_text()
    if isinstance(program, Path) and program.is_dir():
        items = [{"group": program.name, **_read(path)} for path in sorted(program.rglob("*.asm"))]
        if not items:
            raise FileNotFoundError(f"{program} has no program: a file whose name ends with .asm")
        return Playground(with_programs(page, items), height)
    if program is not None:
        read = _read(program) if isinstance(program, Path) else {"program": program, "plan": ".."}
        page = with_texts(page, source=read["program"], schedule=plan or read["plan"])
    return Playground(page, height)


def main(words: Optional[Sequence[str]] = None) -> int:
    """The command vuthgal-playground."""
    import argparse
    import tempfile
    import webbrowser

    parser = argparse.ArgumentParser(prog="vuthgal-playground", description="Opens a browser with the app and a program in it.")
    parser.add_argument("file", nargs="?", type=Path, metavar="FILE|FOLDER", help="a program, or a folder of programs")
    parser.add_argument("--plan", help="who goes, such as 'ann. bob ..'")
    parser.add_argument("-o", "--output", type=Path, help="writes the page to this file, and opens no browser")
    given = parser.parse_args(words)
    try:
        if given.file is not None and not given.file.exists():
            raise FileNotFoundError(f"{given.file} isn't there")
        page = playground(given.file, given.plan)
        if given.output:
            page.save(given.output)
            return 0
        path = Path(tempfile.mkdtemp(prefix="vuthgal-")) / f"{given.file.stem if given.file else 'vuthgal'}.html"
        page.save(path)
    except (OSError, ValueError) as fault:
        parser.exit(5, f"vuthgal-playground: {fault}\n")
    if not webbrowser.open(path.as_uri()):
        print(f"no browser was found; open {path}")
    return 0
