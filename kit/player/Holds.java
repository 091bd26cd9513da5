package kit.player;

import java.util.ArrayList;
import java.util.HashMap;
import java.util.List;
import java.util.Map;

/**
 * The calls of the first play that are held by the end of a phase, or locked out by an action. There such a call isn't
 * made; a real one goes on by itself as soon as it can, and Vuthgal's at its next choice. So the second play makes it for
 * real only where no other call came in between; else it leaves it out until then.
 */
final class Holds {
    /** What holds a call: the end of a tree's phase, or a barrier's action. */
    record Cause(boolean tree, int object) {
        static Cause tree(int root) {
            return new Cause(true, root);
        }

        static Cause action(int barrier) {
            return new Cause(false, barrier);
        }
    }

    private static final class Hold {
        private final Cause cause;
        private final int parties;
        private final List<Integer> choices = new ArrayList<>();
        private boolean freedTooEarly;
        /** Another registration is held with it, and which goes on first may decide whether there are too many. */
        private boolean contested;
        private int freed = NEVER;

        Hold(Cause cause, int parties) {
            this.cause = cause;
            this.parties = parties;
        }

        private boolean contests(Hold other) {
            return other != this && cause.equals(other.cause) && (parties > FEW || other.parties > FEW);
        }
    }

    private static final int NEVER = -1;
    private static final int FEW = 100;

    private final Map<Integer, Hold> open = new HashMap<>();
    private int lastCall = NEVER;

    /** The thread was chosen and its call is held; {@code parties} are those that it would register. */
    void held(ProgramThread thread, Cause cause, int parties, int step) {
        Hold hold = open.computeIfAbsent(thread.number, fresh -> new Hold(cause, parties));
        for (Hold other : open.values()) {
            if (hold.contests(other)) {
                hold.contested = true;
                other.contested = true;
            }
        }
        if (hold.freed != NEVER) {
            hold.freedTooEarly = true;
        }
        hold.choices.add(step);
    }

    /** The thread was chosen and its call isn't held; answers whether it was until now. */
    boolean goesOn(ProgramThread thread, Plan plan) {
        Hold hold = open.remove(thread.number);
        if (hold == null) {
            return false;
        }
        if (hold.contested || hold.freedTooEarly || hold.freed == NEVER || hold.freed < lastCall) {
            plan.leaveOut(hold.choices);
        }
        return true;
    }

    /** What held calls is over. */
    void freed(Cause cause, int step) {
        for (Hold hold : open.values()) {
            if (hold.cause.equals(cause)) {
                hold.freedTooEarly |= hold.freed != NEVER;
                hold.freed = step;
            }
        }
    }

    /** Some call was made, or ended, at this step. */
    void called(int step) {
        lastCall = step;
    }

    /** The schedule is at its end. */
    void finish(Plan plan) {
        for (Hold hold : open.values()) {
            if (hold.contested || hold.freedTooEarly || hold.freed != NEVER) {
                plan.leaveOut(hold.choices);
            }
        }
    }
}
