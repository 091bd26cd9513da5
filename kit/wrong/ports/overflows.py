#!/usr/bin/env python3
"""The port of kit/ports/python whose clock has 64 bits: a wait of the longest time ends at once, since its deadline overflows."""

import time
from types import SimpleNamespace

import skeleton  # noqa: F401, comes before the others
import barrier
import phaser
import port


class Long(int):
    def __add__(self, other):
        return Long((int(self) + other + 2**63) % 2**64 - 2**63)


barrier.time = phaser.time = SimpleNamespace(monotonic_ns=lambda: Long(time.monotonic_ns()))
port.main()
