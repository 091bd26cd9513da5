"""Puts kit/ports/python on the path: the ports in this folder are that one with a fault. It is imported before anything of it."""

import sys
from pathlib import Path

sys.path.insert(0, str(Path(__file__).resolve().parents[2] / "ports" / "python"))
