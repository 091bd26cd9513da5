package kit.player;

import java.util.function.Supplier;

/** A thread of a scenario while it is written: its rows, and where it stands as the sketch has it. */
final class ScenarioThread {
    /** What becomes of a call. */
    enum Outcome {
        /** It is done, or threw: one more turn is behind it. */
        DONE,
        /** It waits; or it is done, and its last turn is written. */
        WAITS,
        /** It is held, or locked out. */
        HELD,
        /** It stands in a routine or an action. */
        ENTERS
    }

    final int number;
    final Script script = new Script();
    /** Where it waits: at the tree of a root, or at a barrier; both null where it doesn't. */
    Sketch.Tier tree;
    Sketch.Gate gate;
    boolean interruptible;
    boolean timed;
    boolean interrupted;
    /** It was released, and hasn't had its turn yet. */
    boolean late;
    /** The call that is held, or locked out, and is tried again; and the root or barrier that holds it. */
    Supplier<Outcome> held;
    Object heldBy;
    /** The routine or action that it is in: the turns that are left, and what its end does. */
    int turnsInside;
    Runnable end;

    ScenarioThread(int number) {
        this.number = number;
    }

    boolean waits() {
        return tree != null || gate != null;
    }

    boolean isFree() {
        return !waits() && !late && held == null && end == null;
    }

    void waitFor(Sketch.Tier tree, Sketch.Gate gate, boolean interruptible, boolean timed) {
        this.tree = tree;
        this.gate = gate;
        this.interruptible = interruptible;
        this.timed = timed;
    }

    void stopWaiting() {
        tree = null;
        gate = null;
    }
}
