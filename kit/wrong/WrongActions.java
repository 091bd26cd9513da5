package kit.wrong;

import java.util.concurrent.BrokenBarrierException;
import java.util.concurrent.TimeoutException;
import java.util.concurrent.locks.ReentrantLock;

/** Misunderstandings of a barrier's action: of who runs it and when, and of what may be called meanwhile. */
final class WrongActions {
    private WrongActions() {
    }

    /** A barrier whose action isn't run by the right one, but by somebody who comes out of it. */
    private abstract static class ActionOutside extends BarrierWrapper {
        abstract boolean isRunBy(int index);

        @Override
        final Runnable run() {
            return null;
        }

        @Override
        int await(boolean timed, long time) throws InterruptedException, BrokenBarrierException, TimeoutException {
            int index = super.await(timed, time);
            if (action != null && isRunBy(index)) {
                act();
            }
            return index;
        }
    }

    /** A barrier that knows who runs its action. */
    private abstract static class Running extends BarrierWrapper {
        private volatile Thread runner;

        final boolean ownActionRuns() {
            return runner == Thread.currentThread();
        }

        final boolean anothersActionRuns() {
            return runner != null && !ownActionRuns();
        }

        @Override
        void act() {
            runner = Thread.currentThread();
            try {
                super.act();
            } finally {
                runner = null;
            }
        }
    }

    /** An exception in the action trips the barrier all the same. */
    static final class ActionExceptionIsSwallowed extends BarrierWrapper {
        @Override
        void act() {
            try {
                super.act();
            } catch (RuntimeException swallowed) {
                return;
            }
        }
    }

    /** The waiters go on before the action runs. */
    static final class ActionRunsAfterTheRelease extends ActionOutside {
        @Override
        boolean isRunBy(int index) {
            return index == 0;
        }
    }

    /** The first to arrive runs the action, when it comes out. */
    static final class FirstRunsTheAction extends ActionOutside {
        @Override
        boolean isRunBy(int index) {
            return index == getParties() - 1;
        }
    }

    /** Who comes while the action runs meets a broken barrier. */
    static final class ComingDuringTheActionBreaks extends Running {
        @Override
        int await(boolean timed, long time) throws InterruptedException, BrokenBarrierException, TimeoutException {
            if (anothersActionRuns()) {
                throw new BrokenBarrierException();
            }
            return super.await(timed, time);
        }
    }

    /**
     * Who comes while another runs the action, and is interrupted, throws at once: the lock is taken interruptibly.
     */
    static final class InterruptLetsInDuringTheAction extends Running {
        private final ReentrantLock lock = new ReentrantLock();

        @Override
        void act() {
            lock.lock();
            try {
                super.act();
            } finally {
                lock.unlock();
            }
        }

        @Override
        int await(boolean timed, long time) throws InterruptedException, BrokenBarrierException, TimeoutException {
            if (anothersActionRuns()) {
                lock.lockInterruptibly();
                lock.unlock();
            }
            return super.await(timed, time);
        }
    }

    /** A reset while another thread runs the action does nothing. */
    static final class ResetDuringTheActionIsForgotten extends Running {
        @Override
        public void reset() {
            if (!anothersActionRuns()) {
                super.reset();
            }
        }
    }

    /** The thread that runs the action is told that nobody waits; in the JDK it is the number of parties. */
    static final class RunnerSeesNobodyWait extends Running {
        @Override
        public int getNumberWaiting() {
            return ownActionRuns() ? 0 : super.getNumberWaiting();
        }
    }
}
