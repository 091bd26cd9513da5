# mypy: ignore-errors
"""Kept runs as tests of pytest, where `vuthgal_pytest` has found that they are asked for."""
import os
import re
from pathlib import Path
from typing import Any, List, Optional

import pytest
from _pytest._code.code import ReprFileLocation

from .command import clean
from .kept import Found, Outcome, named, run_of
from .player import outcomes


class Collector:
    """What the folders have. Each run is a test once, whatever links lead to it."""

    def __init__(self, config: Any, folders: List[Path]) -> None:
        words = [Path(os.path.abspath(config.invocation_params.dir / str(it).split("::")[0])) for it in config.args]
        folders = folders + (words if config.getoption("vuthgal") else [])
        self.words, self.folders = set(words), set(folders)
        #: folders that have to have a run: where pytest looks into all of one
        self.wanted = [it for it in folders if it.is_dir() and self.words & {it, *it.parents}]
        #: the programs that are tests, and their folders, behind all links
        self.taken = set()
        #: what is asked for, and then what it came to
        self.asked, option = [], config.getoption
        self.outcomes = outcomes(iter(self.asked.pop, None), option("vuthgal_update"), option("vuthgal_choices"))

    def pytest_collect_file(self, file_path: Path, parent: Any) -> Optional["_File"]:
        run = run_of(file_path) if {file_path, *file_path.parents} & self.folders else None
        if run and (file_path == run.files[0] or file_path in self.words):
            folder = os.path.realpath(run.folder)
            program = os.path.join(folder, run.files[0].name)
            if program not in self.taken or file_path in self.words:
                self.taken |= {folder, program}
                return _File.from_parent(parent, path=file_path, found=run)

    @pytest.hookimpl(tryfirst=True)
    def pytest_collection_modifyitems(self, session: Any, items: List[Any]) -> None:
        """What isn't played fails, too: a file of no run, a folder that has none, can't be read or is passed over."""
        seen = set()
        for found in named(self.wanted, below=True):
            if not found.left and os.path.realpath(found.folder) not in self.taken:
                helps = "another name, or pytest's norecursedirs without it"
                left = Outcome("it has runs, and pytest doesn't look at it", 1, found.folder, help=helps)
                found = Found("", found.folder, (), left)
            if found.left and found.left.path not in seen:
                seen.add(found.left.path)
                items += _File.from_parent(session, path=found.left.path, found=found).collect()

    def pytest_unconfigure(self) -> None:
        self.outcomes.close()


class _File(pytest.File):
    def __init__(self, found: Found, **its: Any) -> None:
        super().__init__(**its)
        self.found = found

    def collect(self) -> List["_Run"]:
        return [_Run.from_parent(self, name=clean(self.found.left.said if self.found.left else self.found.title))]


class _Run(pytest.Item):
    def runtest(self) -> None:
        here = f"{self.config.invocation_params.dir}{os.sep}"
        kept = self.config.pluginmanager.get_plugin("vuthgal-kept-runs")
        kept.asked.append(self.parent.found)
        outcome = next(kept.outcomes)
        if not outcome.status:
            return
        lines = [outcome.said if self.parent.found.left else f"{self.name}: {outcome.said}"]
        lines += [f"    {it}" for it in (outcome.what, *outcome.more) if it]
        lines = [clean(re.sub("--(?=update|choices)", "--vuthgal-", it.replace(here, ""))) for it in lines]
        path, line, said = clean(str(outcome.path).replace(here, "")), outcome.line or 1, clean(outcome.said)
        self.failure = ReprFileLocation(path, line, said)
        pytest.fail("\n".join([*lines, f"{path}:{line}: {said}"]), pytrace=False)

    def reportinfo(self) -> Any:
        return self.path, 0, clean(self.name)

    def repr_failure(self, excinfo: Any, style: Any = None) -> Any:
        """Adds the place that editors, `-rf`, JUnit's report and -n take: what is said, and where."""
        shown = super().repr_failure(excinfo, style)
        if isinstance(excinfo.value, pytest.fail.Exception):
            shown.reprcrash = self.failure
        return shown
