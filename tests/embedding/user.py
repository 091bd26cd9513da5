"""A user's file, whose types `mypy --strict` checks: what a caller writes, with no word on types that the package has."""
import copy
from pathlib import Path
from typing import Dict, Set

import vuthgal
from vuthgal import testing

PROGRAM = Path(__file__).resolve().parent.parent.parent / "examples" / "meeting.asm"


def seen(program: Path) -> Set[vuthgal.State]:
    with vuthgal.Session(program) as session:
        states = {session.state}
        planned: vuthgal.Schedule = session.play_plan("a. b.", most=4)
        session.back(planned.choices)
        for choice in session.enabled():
            with copy.copy(session) as other:
                line: vuthgal.Line = other.step(int(choice[1:]))
                assert line.what in (vuthgal.What.WAIT, "=") and line.what == "wait"
                states.add(other.state)
        return states


texts: Dict[str, str] = {"list": vuthgal.list(PROGRAM), "plan": vuthgal.plan(PROGRAM, "a. b.", most=4, names=True)}
image: bytes = vuthgal.assemble(PROGRAM)
trace: vuthgal.Trace = vuthgal.run(image, "t0 t1 t0*3 t1*2")
ends = [outcome.word for outcome in vuthgal.seeds(PROGRAM, count=5)]
assert vuthgal.expect(trace, "all") and ends == ["all"] and len(seen(PROGRAM)) == 3
testing.assert_same_trace(PROGRAM, trace)
try:
    vuthgal.plan(PROGRAM, "aa.")
except vuthgal.Refused as error:
    print(error.mistake.hint if error.mistake else "")
try:
    vuthgal.compare(PROGRAM, "no")
except vuthgal.NotATrace as error:
    print(error.line, texts["plan"])
