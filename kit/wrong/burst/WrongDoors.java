package kit.wrong.burst;

import java.util.concurrent.BrokenBarrierException;
import java.util.concurrent.TimeoutException;
import java.util.function.Supplier;

/** Faults in what a thread meets that comes while the action runs. */
final class WrongDoors {
    private WrongDoors() {
    }

    /** A barrier whose action runs without the lock: who comes meanwhile waits at the door. */
    private abstract static class Door extends LockedBarrier {
        boolean runs;

        void waitAtTheDoor() {
            while (runs) {
                sleep();
            }
        }

        @Override
        void meets(Generation present) throws BrokenBarrierException {
            waitAtTheDoor();
            super.meets(present());
        }

        @Override
        void act() {
            runs = true;
            unlock();
            try {
                super.act();
            } finally {
                lock();
                runs = false;
                wakeAll();
            }
        }
    }

    /**
     * The action runs without the lock. Nobody else enters, but a waiter whose time is over leaves meanwhile.
     *
     * <p>Found by time-during-the-action; in lock-step where others enter too.
     */
    static final class ActionRunsWithoutTheLock extends Door {
    }

    /**
     * Who comes while the action runs waits until it has ended, and doesn't look whether another has begun since: `if`
     * for `while`.
     *
     * <p>Found by comers-behind-an-action; in lock-step where two come while it runs.
     */
    static final class DoorIsPassedOnce extends Door {
        @Override
        void waitAtTheDoor() {
            if (runs) {
                sleep();
            }
        }
    }

    /**
     * Who comes notes itself as the thread that runs the action before it waits at the door: a look from inside the
     * action then waits for the action's end.
     *
     * <p>Found by calls-inside-an-action; in lock-step where others come while it runs.
     */
    static final class RunnerIsNotedAtTheDoor extends Door {
        private Thread runner;

        @Override
        void waitAtTheDoor() {
            runner = Thread.currentThread();
            super.waitAtTheDoor();
        }

        @Override
        void act() {
            runner = Thread.currentThread();
            super.act();
        }

        private <T> T behindTheDoor(Supplier<T> call) {
            return underLock(() -> {
                while (runs && runner != Thread.currentThread()) {
                    sleep();
                }
                return call.get();
            });
        }

        @Override
        public void reset() {
            behindTheDoor(() -> {
                super.reset();
                return null;
            });
        }

        @Override
        public boolean isBroken() {
            return behindTheDoor(super::isBroken);
        }

        @Override
        public int getNumberWaiting() {
            return behindTheDoor(super::getNumberWaiting);
        }
    }

    /**
     * Who comes looks whether the barrier is broken, and then waits until the action has ended: that may have broken
     * it.
     *
     * <p>Found by comers-at-an-action-that-fails; in lock-step where somebody comes while it runs.
     */
    static final class BrokenIsLookedAtBefore extends LockedBarrier {
        private final ThreadLocal<Generation> before = new ThreadLocal<>();

        @Override
        int await(boolean timed, long time) throws InterruptedException, BrokenBarrierException, TimeoutException {
            before.set(present());
            if (present().isBroken()) {
                throw new BrokenBarrierException();
            }
            return super.await(timed, time);
        }

        @Override
        void meets(Generation present) throws BrokenBarrierException {
            if (present != before.get()) {
                super.meets(present);
            }
        }
    }

    /**
     * Whose time is over while it waits for the action to end throws TimeoutException, and leaves the barrier whole.
     *
     * <p>Found by interrupts-and-times-behind-an-action.
     */
    static final class TimeIsOverAtTheDoor extends LockedBarrier {
        @Override
        int await(boolean timed, long time) throws InterruptedException, BrokenBarrierException, TimeoutException {
            long began = System.nanoTime();
            lock();
            try {
                if (timed && time > 0 && !present().isBroken() && left(began, time) <= 0) {
                    throw new TimeoutException();
                }
                return super.await(timed, timed ? left(began, time) : time);
            } finally {
                unlock();
            }
        }
    }
}
