package kit.wrong;

import java.util.concurrent.BrokenBarrierException;
import java.util.concurrent.CountDownLatch;
import java.util.concurrent.TimeoutException;

/** Misunderstandings of a barrier: of trips, breakages and resets. */
final class WrongBarriers {
    private WrongBarriers() {
    }

    /** The first to arrive has index 0. */
    static final class IndexCountsUp extends BarrierWrapper {
        @Override
        int await(boolean timed, long time) throws InterruptedException, BrokenBarrierException, TimeoutException {
            return getParties() - 1 - super.await(timed, time);
        }
    }

    /** The trip of a barrier wakes sixteen waiters, and those who came behind them stay. */
    static final class SixteenLeaveTheBarrier extends BarrierWrapper {
        private static final int WOKEN = 16;

        @Override
        int await(boolean timed, long time) throws InterruptedException, BrokenBarrierException, TimeoutException {
            int index = super.await(timed, time);
            if (index > 0 && getParties() - index > WOKEN) {
                new CountDownLatch(1).await();
            }
            return index;
        }
    }

    /** Who is released by a trip loses its interrupted status. */
    static final class TripLosesTheStatus extends BarrierWrapper {
        @Override
        int await(boolean timed, long time) throws InterruptedException, BrokenBarrierException, TimeoutException {
            int index = super.await(timed, time);
            Thread.interrupted();
            return index;
        }
    }

    /** The last to arrive trips the barrier also where it is interrupted. */
    static final class LastComesInterruptedAndTrips extends BarrierWrapper {
        @Override
        int await(boolean timed, long time) throws InterruptedException, BrokenBarrierException, TimeoutException {
            boolean interrupted = awaitsOne() && !isBroken() && Thread.interrupted();
            int index = super.await(timed, time);
            if (interrupted) {
                Thread.currentThread().interrupt();
            }
            return index;
        }
    }

    /** A time that is over is asked about first. */
    static final class NoTimeBeforeTheLast extends BarrierWrapper {
        @Override
        int await(boolean timed, long time) throws InterruptedException, BrokenBarrierException, TimeoutException {
            if (timed && time <= 0 && !isBroken() && !Thread.currentThread().isInterrupted()) {
                throw new TimeoutException();
            }
            return super.await(timed, time);
        }
    }

    /** Whose time runs out gets BrokenBarrierException. */
    static final class TimeoutIsABreakage extends BarrierWrapper {
        @Override
        int await(boolean timed, long time) throws InterruptedException, BrokenBarrierException, TimeoutException {
            try {
                return super.await(timed, time);
            } catch (TimeoutException late) {
                throw new BrokenBarrierException();
            }
        }
    }

    /** A timeout lets the others go, and leaves the barrier whole. */
    static final class TimeoutMends extends BarrierWrapper {
        @Override
        int await(boolean timed, long time) throws InterruptedException, BrokenBarrierException, TimeoutException {
            try {
                return super.await(timed, time);
            } catch (TimeoutException late) {
                super.reset();
                throw late;
            }
        }
    }

    /** Who is interrupted gets BrokenBarrierException. */
    static final class InterruptIsABreakage extends BarrierWrapper {
        @Override
        int await(boolean timed, long time) throws InterruptedException, BrokenBarrierException, TimeoutException {
            try {
                return super.await(timed, time);
            } catch (InterruptedException interrupted) {
                throw new BrokenBarrierException();
            }
        }
    }

    /** An interrupt lets the others go, and leaves the barrier whole. */
    static final class InterruptMends extends BarrierWrapper {
        @Override
        int await(boolean timed, long time) throws InterruptedException, BrokenBarrierException, TimeoutException {
            try {
                return super.await(timed, time);
            } catch (InterruptedException interrupted) {
                super.reset();
                throw interrupted;
            }
        }
    }

    /** Who arrives interrupted leaves again, and the barrier is as it was. */
    static final class InterruptedArrivalBreaksNothing extends BarrierWrapper {
        @Override
        int await(boolean timed, long time) throws InterruptedException, BrokenBarrierException, TimeoutException {
            if (!isBroken() && Thread.interrupted()) {
                throw new InterruptedException();
            }
            return super.await(timed, time);
        }
    }

    /** await looks at the interrupted status before it asks whether the barrier is broken. */
    static final class InterruptedBeforeBroken extends BarrierWrapper {
        @Override
        int await(boolean timed, long time) throws InterruptedException, BrokenBarrierException, TimeoutException {
            if (isBroken() && Thread.interrupted()) {
                throw new InterruptedException();
            }
            return super.await(timed, time);
        }
    }

    /** getNumberWaiting counts those whom a breakage has released. */
    static final class BreakageKeepsTheNumber extends BarrierWrapper {
        private volatile int before;

        @Override
        public int getNumberWaiting() {
            if (!isBroken()) {
                return super.getNumberWaiting();
            }
            return before;
        }

        @Override
        int await(boolean timed, long time) throws InterruptedException, BrokenBarrierException, TimeoutException {
            before = isBroken() ? before : super.getNumberWaiting() + 1;
            return super.await(timed, time);
        }
    }

    /** Who meets a broken barrier loses its interrupted status. */
    static final class BreakageLosesTheStatus extends BarrierWrapper {
        @Override
        int await(boolean timed, long time) throws InterruptedException, BrokenBarrierException, TimeoutException {
            try {
                return super.await(timed, time);
            } catch (BrokenBarrierException broken) {
                Thread.interrupted();
                throw broken;
            }
        }
    }

    /** The next await makes a broken barrier whole. */
    static final class BrokenMendsItself extends BarrierWrapper {
        @Override
        int await(boolean timed, long time) throws InterruptedException, BrokenBarrierException, TimeoutException {
            if (isBroken()) {
                reset();
            }
            return super.await(timed, time);
        }
    }

    /** A reset where threads wait leaves the barrier broken. */
    static final class ResetLeavesBroken extends BarrierWrapper {
        private volatile boolean broken;

        @Override
        public void reset() {
            broken = getNumberWaiting() > 0;
            super.reset();
        }

        @Override
        public boolean isBroken() {
            return broken || super.isBroken();
        }
    }

    /** A reset lets the waiters return their index. */
    static final class ResetLetsWaitersReturn extends BarrierWrapper {
        private volatile boolean wasReset;

        @Override
        int await(boolean timed, long time) throws InterruptedException, BrokenBarrierException, TimeoutException {
            int index = getParties() - 1 - getNumberWaiting();
            wasReset = false;
            try {
                return super.await(timed, time);
            } catch (BrokenBarrierException broken) {
                if (wasReset) {
                    return index;
                }
                throw broken;
            }
        }

        @Override
        public void reset() {
            wasReset = true;
            super.reset();
        }
    }

    /** A broken barrier can't be reset. */
    static final class ResetMendsNothing extends BarrierWrapper {
        @Override
        public void reset() {
            if (!isBroken()) {
                super.reset();
            }
        }
    }
}
