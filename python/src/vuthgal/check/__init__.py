"""Kept runs (docs/TESTING.md): `named` says what a folder has of them, and `outcome` what each comes to. The command is
`python3 -m vuthgal check`, and the plugin `vuthgal_pytest` makes each run a test. All else prints nothing."""
from .keeping import keep
from .kept import Found, Outcome, named, run_of
from .player import outcomes
from .playing import MOST, outcome

__all__ = ["Found", "MOST", "Outcome", "keep", "named", "outcome", "outcomes", "run_of"]
