package kit.player;

import java.util.ArrayList;
import java.util.List;

/** The barriers of a scenario: their declarations, their actions, and the calls on them. */
final class BarrierCalls {
    private final ScenarioMaker maker;
    private final Chances chances;
    /** The action of each barrier, or null. */
    private final List<ScenarioRoutine> actions = new ArrayList<>();

    BarrierCalls(ScenarioMaker maker, Chances chances) {
        this.maker = maker;
        this.chances = chances;
    }

    /** So many barriers. */
    void declare(int count) {
        for (int number = 0; number < count; number++) {
            int parties = chances.between(1, 3);
            maker.sketch.gates.add(new Sketch.Gate(number, parties));
            String line = ".barrier b" + number + " " + parties;
            actions.add(null);
            if (chances.of(40)) {
                Script script = new Script().row("ldi r3 " + chances.between(10, 19));
                boolean looks = chances.of(40);
                if (looks) {
                    script.row(chances.any(List.of("cbroken", "cparties")) + " r4 #" + number);
                }
                boolean throwing = chances.of(30);
                script.row(throwing ? "throw r3" : "ret");
                maker.inner.add(script);
                ScenarioRoutine.Kind kind = throwing ? ScenarioRoutine.Kind.THROWS : ScenarioRoutine.Kind.RETURNS;
                actions.set(number, new ScenarioRoutine(maker.inner.size() - 1, kind, 0, looks ? 1 : 0));
                line += " action @" + (maker.inner.size() - 1);
            }
            maker.declarations.add(line);
        }
    }

    void call(ScenarioThread part, Sketch.Gate gate) {
        if (maker.isDriver(part) || chances.of(12)) {
            boolean resets = !maker.isDriver(part) || chances.of(25);
            String word = resets ? "creset #" : chances.any(List.of("cbroken r0 #", "cwaiting r0 #", "cparties r0 #"));
            maker.perform(part, 0, 0, word + gate.number, () -> touched(part, gate, resets));
            return;
        }
        boolean timed = chances.of(25);
        int time = chances.of(80) ? 5 : -chances.between(0, 1);
        maker.perform(part, time, 0, (timed ? "cawaitt r0 #%d r1" : "cawait r0 #%d").formatted(gate.number),
            () -> awaited(part, gate, timed, time));
    }

    private ScenarioThread.Outcome touched(ScenarioThread part, Sketch.Gate gate, boolean resets) {
        if (gate.actionRuns) {
            part.heldBy = gate;
            return ScenarioThread.Outcome.HELD;
        }
        maker.turns(part, 1);
        if (resets) {
            gate.broken = false;
            gate.waiting = 0;
            maker.release(gate);
        }
        return ScenarioThread.Outcome.WAITS;
    }

    private ScenarioThread.Outcome awaited(ScenarioThread part, Sketch.Gate gate, boolean timed, int time) {
        if (gate.actionRuns) {
            part.heldBy = gate;
            return ScenarioThread.Outcome.HELD;
        }
        if (gate.broken) {
            return ScenarioThread.Outcome.DONE;
        }
        if (part.interrupted) {
            part.interrupted = false;
            maker.turns(part, 1);
            breakGate(gate);
            return ScenarioThread.Outcome.WAITS;
        }
        if (gate.waiting == gate.parties - 1) {
            return trips(part, gate);
        }
        if (timed && time <= 0) {
            maker.turns(part, 1);
            breakGate(gate);
            return ScenarioThread.Outcome.WAITS;
        }
        gate.waiting++;
        part.waitFor(null, gate, true, timed);
        return ScenarioThread.Outcome.WAITS;
    }

    private ScenarioThread.Outcome trips(ScenarioThread part, Sketch.Gate gate) {
        ScenarioRoutine action = actions.get(gate.number);
        if (action == null) {
            maker.turns(part, 1);
            gate.waiting = 0;
            maker.release(gate);
            return ScenarioThread.Outcome.WAITS;
        }
        gate.actionRuns = true;
        part.turnsInside = 2 + action.extraTurns();
        part.end = () -> {
            gate.actionRuns = false;
            if (action.kind() == ScenarioRoutine.Kind.THROWS) {
                maker.turns(part, 1);
                breakGate(gate);
            } else {
                gate.waiting = 0;
                maker.release(gate);
            }
        };
        return ScenarioThread.Outcome.ENTERS;
    }

    /** The barrier breaks, and whoever waits comes out. */
    void breakGate(Sketch.Gate gate) {
        gate.broken = true;
        gate.waiting = 0;
        maker.release(gate);
    }
}
