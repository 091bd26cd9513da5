package kit.player;

import java.util.Deque;
import java.util.concurrent.ConcurrentLinkedDeque;

/**
 * A thread of the real side as the player drives it: it makes a call when it is told to, and can be told to make more from
 * the middle of an onAdvance or an action. The calls that it is inside of stand in {@code open}, the innermost last.
 */
abstract class RealThread {
    enum Outcome {
        /** The call has an answer. */
        DONE,
        /** It stands at the beginning of a routine or an action. */
        ENTERED,
        /** It has stood still as long as the player's patience goes. */
        BLOCKED
    }

    /** How much the threads of a real side rest. */
    enum Rest {
        /** All slept at one moment. */
        ASLEEP,
        /** Not all sleep, and who doesn't has had a processor since it was told something. */
        RUNNING,
        /** Somebody waits for a processor, and may not have begun yet. */
        STARVING
    }

    /** A real side that isn't at rest is waited for so many times as long. */
    static final int TIMES_FOR_THE_BUSY = 4;

    /** What a routine or an action throws that is still open at a case's end. */
    private static final int LEAVES = -99;

    private static final int SPINS = 100;
    /** Whoever sleeps until a call is done looks so often whether the real side has broken down, in nanoseconds. */
    private static final long LOOK = 1_000_000;

    private final Deque<Call> open = new ConcurrentLinkedDeque<>();

    final Call tell(Request request) {
        return tell(request, CallWatcher.NOBODY);
    }

    final Call tell(Request request, CallWatcher watcher) {
        Call call = new Call(request, watcher);
        open.addLast(call);
        send(call);
        return call;
    }

    /** The routine or action in which it stands returns {@code number}. */
    final void answer(int number) {
        open.getLast().leave(null);
        sendEnd(number, false);
    }

    /** The routine or action in which it stands throws {@code number}. */
    final void fail(int number) {
        open.getLast().leave(number);
        sendEnd(number, true);
    }

    abstract void interrupt();

    protected abstract void send(Call call);

    protected abstract void sendEnd(int number, boolean throwing);

    /** Whether it may be blocked now, as far as can be seen. */
    protected abstract boolean mayBeBlocked();

    /** How often one has to look at that, in nanoseconds. */
    protected long look() {
        return LOOK;
    }

    /** From now on {@code rest} asks who has had a processor. */
    protected void markRest() {
    }

    /** How much the real side's threads rest now, as far as can be seen. */
    protected Rest rest() {
        return Rest.ASLEEP;
    }

    /** How much of a processor the real side has taken since {@code markRest}, as far as can be seen. */
    protected double share() {
        return 0;
    }

    /** Whether none of the real side's threads runs now, as far as can be seen. */
    protected final boolean isAtRest() {
        return rest() == Rest.ASLEEP;
    }

    /** Whether it is so for a while. */
    protected boolean staysAtRest() {
        return isAtRest();
    }

    /** Throws where the real side has broken down. */
    protected void check() {
    }

    /** What can be seen of a real side that owes an answer, in words; empty where that is nothing. */
    protected String state() {
        return "";
    }

    /** The innermost call that has no answer, or null. */
    protected final Call innermost() {
        return open.peekLast();
    }

    /** The innermost call has its answer. */
    protected final void finish(Call call, Answer answer) {
        open.removeLastOccurrence(call);
        call.finish(answer);
    }

    /** What the call has come to; as long as it isn't done and enters nothing, that is no more than blocked. */
    static Outcome outcome(Call call) {
        return call.done() ? Outcome.DONE : call.hasEntered() ? Outcome.ENTERED : Outcome.BLOCKED;
    }

    /** Waits until it has stood still for so long without a break, until the limit, or until the call comes to something. */
    final void standStill(Call call, long nanoseconds, long limit) {
        long since = 0;
        for (int round = 0; outcome(call) == Outcome.BLOCKED; round++) {
            check();
            long now = System.nanoTime();
            if (!mayBeBlocked()) {
                since = 0;
            } else if (since == 0) {
                since = now;
            } else if (now - since > nanoseconds) {
                return;
            }
            if (now > limit) {
                return;
            }
            if (isLong(round)) {
                call.sleep(Math.min(look(), since == 0 ? nanoseconds : since + nanoseconds - now), true);
            }
        }
    }

    /** Waits until the call is done, for so long at most. */
    final boolean done(Call call, long nanoseconds) {
        long limit = System.nanoTime() + nanoseconds;
        for (int round = 0; !call.done(); round++) {
            check();
            if (System.nanoTime() > limit) {
                return false;
            }
            if (isLong(round)) {
                call.sleep(LOOK, false);
            }
        }
        return true;
    }

    /** Whether it is time to sleep. Many calls are done sooner, so it spins first. On a busy machine whoever yields comes back late. */
    private static boolean isLong(int round) {
        if (round < SPINS) {
            Thread.onSpinWait();
        }
        return round >= SPINS;
    }

    /** At a case's end: whether it is out of all calls; if it stands in a routine, it is told to leave that. */
    final boolean isOut() {
        Call call = innermost();
        if (call == null) {
            return true;
        }
        if (call.inside()) {
            fail(LEAVES);
        }
        return false;
    }
}
