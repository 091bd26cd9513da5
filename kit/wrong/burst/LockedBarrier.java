package kit.wrong.burst;

import java.util.concurrent.BrokenBarrierException;
import java.util.concurrent.TimeoutException;
import kit.player.BarrierUnderTest;

/** A right barrier over one lock, under which the action runs too; a wrong one overrides what it has misunderstood. */
class LockedBarrier extends Locked implements BarrierUnderTest {
    /** The arrivals between two ends, and how they ended. */
    static final class Generation {
        private boolean tripped;
        private boolean broken;

        boolean isOver() {
            return tripped || broken;
        }

        boolean isBroken() {
            return broken;
        }
    }

    private int parties;
    private Runnable action;
    private volatile Generation generation = new Generation();
    private volatile int waiting;
    private Thread runner;

    final LockedBarrier begin(int ofParties, Runnable withAction) {
        parties = ofParties;
        action = withAction;
        return this;
    }

    // ---- for those that are wrong

    final Generation present() {
        return generation;
    }

    final int nextIndex() {
        return parties - 1 - waiting;
    }

    /** A waiter finds that its generation is over, and comes out. */
    int comesOut(Generation mine, int index) throws BrokenBarrierException {
        if (mine.broken) {
            throw new BrokenBarrierException();
        }
        return index;
    }

    /** The action runs; the lock is held. */
    void act() {
        action.run();
    }

    /** The generation has tripped; the lock is held. */
    void tripped() {
        renew();
    }

    /** What a thread meets that comes in; the lock is held. */
    void meets(Generation present) throws BrokenBarrierException {
        if (present.broken) {
            throw new BrokenBarrierException();
        }
    }

    final void breakIt() {
        generation.broken = true;
        waiting = 0;
        wakeAll();
    }

    // ---- the calls

    @Override
    public int await() throws InterruptedException, BrokenBarrierException {
        try {
            return await(false, 0);
        } catch (TimeoutException never) {
            throw new AssertionError(never);
        }
    }

    @Override
    public int await(long nanoseconds) throws InterruptedException, BrokenBarrierException, TimeoutException {
        return await(true, nanoseconds);
    }

    int await(boolean timed, long nanoseconds) throws InterruptedException, BrokenBarrierException, TimeoutException {
        long began = System.nanoTime();
        lock();
        try {
            Generation mine = generation;
            meets(mine);
            if (Thread.interrupted()) {
                breakIt();
                throw new InterruptedException();
            }
            int index = nextIndex();
            if (index == 0) {
                trip();
                return 0;
            }
            waiting++;
            return waitForEnd(mine, index, timed, began, nanoseconds);
        } finally {
            unlock();
        }
    }

    private void trip() {
        boolean ran = false;
        runner = Thread.currentThread();
        try {
            if (action != null) {
                act();
            }
            ran = true;
        } finally {
            runner = null;
            if (!ran) {
                breakIt();
            }
        }
        generation.tripped = true;
        tripped();
    }

    final void renew() {
        generation = new Generation();
        waiting = 0;
        wakeAll();
    }

    private int waitForEnd(Generation mine, int index, boolean timed, long began, long nanoseconds)
            throws InterruptedException, BrokenBarrierException, TimeoutException {
        do {
            if (Thread.interrupted()) {
                breakIt();
                throw new InterruptedException();
            }
            if (timed && left(began, nanoseconds) <= 0) {
                breakIt();
                throw new TimeoutException();
            }
            sleep(timed, began, nanoseconds);
        } while (!mine.isOver());
        return comesOut(mine, index);
    }

    @Override
    public void reset() {
        lock();
        if (waiting > 0) {
            breakIt();
        }
        renew();
        unlock();
    }

    @Override
    public boolean isBroken() {
        return underLock(() -> generation.broken);
    }

    @Override
    public int getNumberWaiting() {
        return underLock(() -> runner == Thread.currentThread() ? parties : waiting);
    }

    @Override
    public int getParties() {
        return parties;
    }
}
