"""A port with calls that wait, by a rule machine of Hypothesis: after each call the port stands as a session of Vuthgal does. Which
step comes next depends on what the session answered, so nothing is played twice.

    pytest examples/embedding/test_rules.py                            the right port
    PORT=ForgetfulPhaser pytest examples/embedding/test_rules.py       the port with a fault: the fewest calls that show it
"""
import os
import sys
from pathlib import Path

from hypothesis import settings, strategies as some
from hypothesis.stateful import RuleBasedStateMachine, initialize, invariant, precondition, rule

HERE = Path(__file__).resolve().parent
sys.path[:0] = [str(HERE), str(HERE.parent.parent / "python" / "src")]

import phaser_port
import vuthgal
from vuthgal.harness import Callers

PORT = getattr(phaser_port, os.environ.get("PORT", "WaitingPhaser"))
CALLERS = 3

# a call of the port; and the rows that say the same to Vuthgal, the call's own last
CALLS = {
    "register": ["preg r0 p"],
    "arrive": ["parr r0 p"],
    "arrive_and_deregister": ["pdereg r0 p"],
    "arrive_and_await_advance": ["paaa r0 p"],
    "await_advance": ["pphase r1 p", "pawait r0 p r1"],
}


def program(parties):
    """A thread for each caller and call, which makes this call again and again."""
    threads = "\n".join(f".thread {call}_{n} {call}" for call in CALLS for n in range(CALLERS))
    rows = "\n".join(f"{call}: " + "\n".join([*made, f"jmp {call}"]) for call, made in CALLS.items())
    return f".phaser p {parties}\n{threads}\n{rows}\n"


class PortStandsAsVuthgalDoes(RuleBasedStateMachine):
    session = None

    @initialize(parties=some.integers(0, 3))
    def open(self, parties):
        self.port = PORT(parties)
        self.session = vuthgal.Session(program(parties))
        self.callers = Callers(CALLERS, patience=0.2 if "PORT" in os.environ else 5)
        self.waiting = {}

    @precondition(lambda self: self.session)
    @rule(caller=some.integers(0, CALLERS - 1), call=some.sampled_from(list(CALLS)))
    def call(self, caller, call):
        if caller in self.waiting:
            return
        thread = f"{call}_{caller}"
        words = [self.port.view] if call == "await_advance" else []
        for _ in CALLS[call]:
            event = self.session.step(thread)
        self.callers.call(caller, getattr(self.port, call), *words)
        self.ends(caller, thread, event)
        for caller, thread in list(self.waiting.items()):
            if f"t{self.session.threads.index(thread)}" in self.session.enabled():
                self.ends(caller, thread, self.session.step(thread))
            else:
                assert self.callers.waits(caller), f"{thread} returns {self.callers.outcome(caller)}, and should wait"

    def ends(self, caller, thread, event):
        """The caller's call comes to what the session's step came to."""
        if event.what is vuthgal.What.WAIT:
            self.waiting[caller] = thread
            assert self.callers.waits(caller), f"{thread} returns {self.callers.outcome(caller)}, and should wait"
            return
        self.waiting.pop(caller, None)
        what, value = self.callers.outcome(caller)
        if event.what is vuthgal.What.THROW:
            assert isinstance(value, phaser_port.IllegalState)
            self.session.back()
        else:
            assert (what, value) == ("=", event.value)
            self.session.step(thread)

    @precondition(lambda self: self.session)
    @invariant()
    def stands(self):
        phaser = self.session.state.phasers[0]
        assert (self.port.view, self.port.parties) == (phaser.view, phaser.parties)

    def teardown(self):
        if self.session:
            self.port.force_termination()
            self.callers.close()
            self.session.close()


PortStandsAsVuthgalDoes.TestCase.settings = settings(max_examples=50, stateful_step_count=12, deadline=None, database=None)
TestPort = PortStandsAsVuthgalDoes.TestCase
