package kit.wrong.burst;

import java.util.concurrent.TimeUnit;
import java.util.concurrent.TimeoutException;
import java.util.concurrent.locks.ReentrantLock;

/** Faults in how a thread waits for a phase, and wakes up. */
final class WrongSleeps {
    private WrongSleeps() {
    }

    /**
     * awaitAdvance looks at the phase before it takes the lock to sleep: the wake-up between is lost.
     *
     * <p>Found by wait-against-the-end.
     */
    static final class LookOutsideTheLock extends LockedPhaser {
        @Override
        public int awaitAdvance(int awaited) {
            while (awaited >= 0 && view() == awaited) {
                lock();
                sleep();
                unlock();
            }
            return awaited < 0 ? awaited : view();
        }
    }

    /**
     * Waiters keep one bit of the phase: who sleeps while two phases end sleeps on.
     *
     * <p>Found by phases-that-end-at-once.
     */
    static final class OneBitOfPhase extends LockedPhaser {
        private boolean bit;

        OneBitOfPhase() {
            super(new ReentrantLock());
        }

        @Override
        void ended() {
            bit = !bit;
        }

        @Override
        public int awaitAdvance(int awaited) {
            return underLock(() -> {
                boolean mine = bit;
                while (view() >= 0 && bit == mine && awaited == view()) {
                    do {
                        sleep();
                    } while (view() >= 0 && bit == mine);
                }
                return awaited < 0 ? awaited : view();
            });
        }
    }

    /**
     * A waiter looks at its interrupted status, and clears it before it sleeps: an interrupt in between is lost.
     *
     * <p>Found by an-interrupt-alone.
     */
    static final class InterruptBeforeTheSleepIsLost extends LockedPhaser {
        @Override
        void fallsAsleep() {
            Thread.yield();     // so that it comes about soon
            Thread.interrupted();
        }
    }

    /**
     * A thread that wakes up looks at its interrupted status first, although its phase ended before the interrupt.
     *
     * <p>Found by interrupt-behind-the-advance.
     */
    static final class InterruptWinsOverTheAdvance extends LockedPhaser {
        @Override
        void wakesUp(boolean timed, long left) throws InterruptedException {
            if (Thread.interrupted()) {
                throw new InterruptedException();
            }
        }
    }

    /**
     * Who wakes up looks at the clock first, though its phase has ended before its time was over.
     *
     * <p>Found by time-at-the-advance.
     */
    static final class TimeWinsOverTheAdvance extends LockedPhaser {
        @Override
        void wakesUp(boolean timed, long left) throws TimeoutException {
            if (timed && left <= 0) {
                throw new TimeoutException();
            }
        }
    }

    /**
     * Whoever is interrupted wakes the other waiters, and the time of each begins anew as it sleeps on.
     *
     * <p>Found by time-among-pokes.
     */
    static final class TimeBeginsAnew extends LockedPhaser {
        private final ThreadLocal<Long> woken = new ThreadLocal<>();

        @Override
        int await(int awaited, boolean timed, long time) throws InterruptedException, TimeoutException {
            woken.remove();
            return super.await(awaited, timed, time);
        }

        @Override
        void wakesUp(boolean timed, long left) {
            if (Thread.currentThread().isInterrupted()) {
                wakeAll();
            }
            if (left > 0) {
                woken.set(System.nanoTime());
            }
        }

        @Override
        long left(long began, long time) {
            Long since = woken.get();
            return super.left(since == null ? began : since, time);
        }
    }

    /**
     * The deadline is now plus the time, which overflows if the time is the longest.
     *
     * <p>Found by the-longest-time.
     */
    static final class LongestTimeOverflows extends LockedPhaser {
        @Override
        int await(int awaited, boolean timed, long time) throws InterruptedException, TimeoutException {
            long end = System.nanoTime() + time;
            return super.await(awaited, timed, end > 0 ? time : 0);
        }
    }

    /**
     * The time of a wait for a phase is cut to whole milliseconds.
     *
     * <p>Found by time-that-runs-out.
     */
    static final class MillisecondsOfAPhase extends LockedPhaser {
        @Override
        int await(int awaited, boolean timed, long time) throws InterruptedException, TimeoutException {
            return super.await(awaited, timed, TimeUnit.NANOSECONDS.toMillis(time) * 1_000_000);
        }
    }
}
