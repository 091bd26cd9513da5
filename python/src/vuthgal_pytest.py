"""The plugin of pytest: each kept run of Vuthgal is a test. In pytest.ini

    [pytest]
    vuthgal = kept

says which folders have kept runs, with the folders in them; or `pytest --vuthgal kept` does. Otherwise nothing is collected.
Selection, side by side (`-n`), `-x`, reports and what an editor shows are pytest's. This module is outside of the package, and
loads it late: pytest loads each plugin in every run, also where nobody asks for kept runs or the library can't be loaded."""
from pathlib import Path
from typing import Any

import pytest


def pytest_addoption(parser: Any) -> None:
    group = parser.getgroup("vuthgal", "kept runs of Vuthgal")
    group.addoption("--vuthgal", action="store_true", help="the named folders have kept runs")
    group.addoption("--vuthgal-update", action="store_true", help="writes each trace that differs, or is missing")
    most = {"type": int, "default": 1_000_000, "metavar": "N"}
    group.addoption("--vuthgal-choices", **most, help="a run of more choices fails, and isn't played")
    parser.addini("vuthgal", "folders of kept runs, as seen from this file", type="paths", default=[])


def pytest_configure(config: Any) -> None:
    if not (config.getini("vuthgal") or config.getoption("vuthgal")):
        return
    try:
        from vuthgal.check._pytest import Collector
        from vuthgal.check.kept import ENDINGS
    except (AttributeError, OSError) as error:
        raise pytest.UsageError(f"vuthgal: the library can't be loaded: {error}") from None

    report = str(config.getoption("xmlpath", None) or "")
    if report.rpartition(".")[2] in ENDINGS:  # pytest would write over it
        raise pytest.UsageError(f"vuthgal: --junitxml takes a file to write, and {report} has the name of a kept run's")
    folders = [Path(it) for it in config.getini("vuthgal")]
    for folder in folders:
        if not folder.is_dir():
            raise pytest.UsageError(f"vuthgal: there is no folder {folder}")
    config.pluginmanager.register(Collector(config, folders), "vuthgal-kept-runs")
