package kit.player;

import java.util.ArrayDeque;
import java.util.Deque;
import java.util.List;

/** A thread of the model: its interrupted status, what it waits for, and the routines and actions that it stands in. */
final class ModelThread {
    /** A routine or an action that runs, and the call that entered it. */
    record Frame(Entered where, Request request) {
    }

    private final Deque<Frame> inside;
    private boolean interrupted;
    private ModelWait wait;

    ModelThread() {
        inside = new ArrayDeque<>(0);
    }

    private ModelThread(ModelThread other) {
        inside = new ArrayDeque<>(other.inside);
        interrupted = other.interrupted;
        wait = other.wait;
    }

    ModelThread copy() {
        return new ModelThread(this);
    }

    void interrupt() {
        interrupted = true;
    }

    boolean isInterrupted() {
        return interrupted;
    }

    /** Whether its status was set; it is clear then. */
    boolean clearInterrupted() {
        boolean was = interrupted;
        interrupted = false;
        return was;
    }

    /** Null where it doesn't wait. */
    ModelWait waitsFor() {
        return wait;
    }

    void waitFor(ModelWait what) {
        wait = what;
    }

    void stopWaiting() {
        wait = null;
    }

    void enter(Frame frame) {
        inside.addLast(frame);
    }

    Frame leave() {
        return inside.removeLast();
    }

    /** The innermost routine or action, or null. */
    Frame innermost() {
        return inside.peekLast();
    }

    void addTo(List<Integer> key) {
        key.add(interrupted ? 1 : 0);
        key.add(inside.size());
        if (wait == null) {
            key.add(-1);
            return;
        }
        key.add(wait.object());
        key.add(wait.number());
        key.add(wait.endedItself() ? 1 : 0);
        key.add(wait.generation() == null ? -1 : wait.generation().ordinal());
    }
}
