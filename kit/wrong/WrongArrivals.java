package kit.wrong;

import java.util.concurrent.locks.LockSupport;

/** Misunderstandings of arriving and leaving, and of what a phaser shows behind its last phase. */
final class WrongArrivals {
    private WrongArrivals() {
    }

    /** An arrival where nobody is awaited is answered by the phase, not by an exception. */
    static final class ArrivalTooManyIsIgnored extends PhaserWrapper {
        @Override
        public int arrive() {
            return getUnarrivedParties() == 0 && !isTerminated() ? getPhase() : super.arrive();
        }
    }

    /** arriveAndDeregister answers the phase after the arrival. */
    static final class LeavingAnswersTheNextPhase extends PhaserWrapper {
        @Override
        public int arriveAndDeregister() {
            int phase = super.arriveAndDeregister();
            return phase < 0 ? phase : getPhase();
        }
    }

    /** Who leaves is awaited in the next phase all the same. */
    static final class LeavingOnlyArrives extends PhaserWrapper {
        @Override
        public int arriveAndDeregister() {
            return super.arrive();
        }
    }

    /** arriveAndAwaitAdvance answers the phase in which it arrived. */
    static final class WaiterAnswersThePhaseThatEnded extends PhaserWrapper {
        @Override
        public int arriveAndAwaitAdvance() {
            int phase = getPhase();
            int next = super.arriveAndAwaitAdvance();
            return next < 0 ? next : phase;
        }
    }

    /**
     * Every arriveAndAwaitAdvance of the last phase answers the plain number; in the JDK only the last arrival does.
     */
    static final class WaiterGetsThePlainNumber extends PhaserWrapper {
        @Override
        public int arriveAndAwaitAdvance() {
            return super.arriveAndAwaitAdvance() & Integer.MAX_VALUE;
        }
    }

    /** The end of a phase wakes nobody who came by arriveAndAwaitAdvance; termination does. */
    static final class WaiterIsForgotten extends PhaserWrapper {
        @Override
        public int arriveAndAwaitAdvance() {
            int phase = arrive();
            boolean waits = phase >= 0 && getPhase() == phase;
            while (waits && !isTerminated()) {
                LockSupport.park();
            }
            return getPhase();
        }
    }

    /** arriveAndAwaitAdvance comes back with the interrupted status cleared. */
    static final class WaitingLosesTheStatus extends PhaserWrapper {
        @Override
        public int arriveAndAwaitAdvance() {
            int phase = super.arriveAndAwaitAdvance();
            Thread.interrupted();
            return phase;
        }
    }

    /** A forced phaser has neither arrived nor unarrived parties; the JDK keeps the counts of that moment. */
    static final class CountsAreClearedByForce extends PhaserWrapper {
        @Override
        public int getArrivedParties() {
            return isTerminated() ? 0 : super.getArrivedParties();
        }
    }

    /** getPhase of a terminated phaser tells nothing of the phase. */
    static final class TerminatedPhaseIsLost extends PhaserWrapper {
        @Override
        public int getPhase() {
            int view = super.getPhase();
            return view < 0 ? Integer.MIN_VALUE : view;
        }
    }
}
