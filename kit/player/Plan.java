package kit.player;

import java.util.Collection;
import java.util.HashMap;
import java.util.HashSet;
import java.util.Map;
import java.util.Set;

/** What the first play of a case teaches the second. */
final class Plan {
    /** A timed call of a thread, counted from 1. */
    private record TimedCall(int thread, int number) {
    }

    private final Map<TimedCall, Integer> expiries = new HashMap<>();
    private final Set<Integer> leftOut = new HashSet<>();
    private final Map<Integer, KnownDifference> toldOver = new HashMap<>();
    private final Map<Integer, Integer> unarrivedAtForce = new HashMap<>();

    /** The wait of this thread's present timed call runs out at this step. */
    void expires(ProgramThread thread, int step) {
        expiries.put(new TimedCall(thread.number, thread.timedCalls), step);
    }

    /** The step at which the wait of its present timed call runs out, or null. */
    Integer expiry(ProgramThread thread) {
        return expiries.get(new TimedCall(thread.number, thread.timedCalls));
    }

    /** How many waits run out after the one step, up to the other. */
    long expiriesBetween(int step, int until) {
        return expiries.values().stream().filter(at -> at > step && at <= until).count();
    }

    /** The held call of these choices isn't made. */
    void leaveOut(Collection<Integer> steps) {
        leftOut.addAll(steps);
    }

    boolean leavesOut(int step) {
        return leftOut.contains(step);
    }

    /** The call of this choice isn't made, for this documented difference. */
    void tellOver(int step, KnownDifference difference) {
        toldOver.put(step, difference);
    }

    /** Null where the call is made. */
    KnownDifference toldOver(int step) {
        return toldOver.get(step);
    }

    /** A phaser of a tree that is about to be forced has so many unarrived parties. */
    void forced(int phaser, int unarrived) {
        unarrivedAtForce.putIfAbsent(phaser, unarrived);
    }

    /** How many were unarrived when its tree was forced; null where it wasn't. */
    Integer unarrivedAtForce(int phaser) {
        return unarrivedAtForce.get(phaser);
    }
}
