"""`python3 -m vuthgal check`."""
import sys

from .check.command import main

if sys.argv[1:2] != ["check"]:
    print("usage: python3 -m vuthgal check [OPTION].. FOLDER|RUN..", file=sys.stderr)
    sys.exit(2)
sys.exit(main(sys.argv[2:], "python3 -m vuthgal check"))
