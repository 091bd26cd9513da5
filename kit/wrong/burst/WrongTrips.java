package kit.wrong.burst;

import java.util.concurrent.BrokenBarrierException;
import java.util.concurrent.TimeUnit;
import java.util.concurrent.TimeoutException;

/** Faults in how a thread arrives at a barrier, waits, and comes out. */
final class WrongTrips {
    private WrongTrips() {
    }

    /**
     * The arrival index is read before the lock is taken: two threads that arrive at once get the same.
     *
     * <p>Found by trips.
     */
    static final class IndexIsReadOutsideTheLock extends LockedBarrier {
        @Override
        int await(boolean timed, long time) throws InterruptedException, BrokenBarrierException, TimeoutException {
            int index = nextIndex();
            int right = super.await(timed, time);
            return right == 0 ? 0 : Math.max(index, 1);
        }
    }

    /**
     * A generation is renewed when the last of its waiters has left: a thread that is back sooner trips it again,
     * alone.
     *
     * <p>Found by barging; in lock-step where an action runs.
     */
    static final class LastOutRenews extends LockedBarrier {
        private int inside;

        @Override
        void tripped() {
            inside = getParties() - 1;
            if (inside == 0) {
                renew();
            } else {
                wakeAll();
            }
        }

        @Override
        int comesOut(Generation mine, int index) throws BrokenBarrierException {
            int answer = super.comesOut(mine, index);
            if (--inside == 0) {
                renew();
            }
            return answer;
        }
    }

    /**
     * Who comes out asks whether the barrier is broken now, and not whether its own generation was.
     *
     * <p>Found by released-and-then-broken; in lock-step where that was reset.
     */
    static final class WaiterLooksAtThePresentGeneration extends LockedBarrier {
        @Override
        int comesOut(Generation mine, int index) throws BrokenBarrierException {
            return super.comesOut(present(), index);
        }
    }

    /**
     * Who comes out clears its interrupted status, though the interrupt came when the barrier had tripped.
     *
     * <p>Found by interrupt-behind-the-trip; in lock-step where an action runs.
     */
    static final class ReleaseLosesTheStatus extends LockedBarrier {
        @Override
        int comesOut(Generation mine, int index) throws BrokenBarrierException {
            Thread.interrupted();
            return super.comesOut(mine, index);
        }
    }

    /**
     * A waiter looks at its interrupted status, and clears it before it sleeps: an interrupt in between is lost.
     *
     * <p>Found by an-interrupt-alone-at-a-barrier.
     */
    static final class InterruptAtABarrierIsLost extends LockedBarrier {
        @Override
        void fallsAsleep() {
            Thread.yield();     // so that it comes about soon
            Thread.interrupted();
        }
    }

    /**
     * A thread that wakes up looks at its interrupted status first, although its generation tripped before the
     * interrupt.
     *
     * <p>Found by interrupt-behind-the-trip; in lock-step where an action runs.
     */
    static final class InterruptWinsOverTheTrip extends LockedBarrier {
        @Override
        void wakesUp(boolean timed, long left) throws InterruptedException {
            if (Thread.interrupted()) {
                breakIt();
                throw new InterruptedException();
            }
        }
    }

    /**
     * Who wakes up looks at the clock first, though its generation has tripped before its time was over.
     *
     * <p>Found by time-at-the-trip.
     */
    static final class TimeWinsOverTheTrip extends LockedBarrier {
        @Override
        void wakesUp(boolean timed, long left) throws TimeoutException {
            if (timed && left <= 0) {
                breakIt();
                throw new TimeoutException();
            }
        }
    }

    /**
     * The time of a wait at a barrier is cut to whole milliseconds.
     *
     * <p>Found by time-that-breaks.
     */
    static final class MillisecondsAtABarrier extends LockedBarrier {
        @Override
        int await(boolean timed, long time) throws InterruptedException, BrokenBarrierException, TimeoutException {
            return super.await(timed, TimeUnit.NANOSECONDS.toMillis(time) * 1_000_000);
        }
    }
}
