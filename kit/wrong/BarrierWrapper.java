package kit.wrong;

import java.util.concurrent.BrokenBarrierException;
import java.util.concurrent.TimeoutException;
import kit.player.BarrierUnderTest;

/** A barrier that hands all to a right one; a wrong one overrides what it has misunderstood. */
class BarrierWrapper implements BarrierUnderTest {
    BarrierUnderTest right;
    Runnable action;

    /** What the right one runs when all have arrived, or null. */
    Runnable run() {
        return action == null ? null : this::act;
    }

    void act() {
        action.run();
    }

    @Override
    public int await() throws InterruptedException, BrokenBarrierException {
        try {
            return await(false, 0);
        } catch (TimeoutException never) {
            throw new AssertionError(never);
        }
    }

    @Override
    public int await(long nanoseconds) throws InterruptedException, BrokenBarrierException, TimeoutException {
        return await(true, nanoseconds);
    }

    /** Both kinds of await; {@code nanoseconds} counts where it is timed. */
    int await(boolean timed, long nanoseconds) throws InterruptedException, BrokenBarrierException, TimeoutException {
        return timed ? right.await(nanoseconds) : right.await();
    }

    /** Whether the next to arrive is the last. */
    final boolean awaitsOne() {
        return right.getNumberWaiting() == right.getParties() - 1;
    }

    @Override public void reset() { right.reset(); }
    @Override public boolean isBroken() { return right.isBroken(); }
    @Override public int getNumberWaiting() { return right.getNumberWaiting(); }
    @Override public int getParties() { return right.getParties(); }
}
