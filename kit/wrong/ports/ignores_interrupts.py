#!/usr/bin/env python3
"""The port of kit/ports/python whose threads ignore `interrupt`, as a port does on its first day."""

import skeleton  # noqa: F401, comes before the others
import port

port.Actor.interrupt = lambda actor: None
port.main()
