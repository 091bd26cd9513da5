package kit.wrong;

import java.util.Map;
import java.util.concurrent.BrokenBarrierException;
import java.util.concurrent.ConcurrentHashMap;
import java.util.concurrent.TimeoutException;

/** Misunderstandings of waiting for a phase: of numbers, interrupts and times. */
final class WrongWaits {
    private WrongWaits() {
    }

    /** awaitAdvance answers the number behind the one that it was given, also where the phaser has terminated. */
    static final class AwaitAnswersTheNextNumber extends PhaserWrapper {
        @Override
        public int awaitAdvance(int phase) {
            int next = super.awaitAdvance(phase);
            return phase >= 0 && next < 0 ? next & Integer.MAX_VALUE : next;
        }
    }

    /** awaitAdvance of a phase to come waits for it. */
    static final class AwaitOfALaterPhaseWaits extends PhaserWrapper {
        @Override
        public int awaitAdvance(int phase) {
            while (phase >= 0 && getPhase() >= 0 && getPhase() < phase) {
                super.awaitAdvance(getPhase());
            }
            return super.awaitAdvance(phase);
        }
    }

    /** awaitAdvance of a negative number answers the view. */
    static final class NegativeAwaitAnswersTheView extends PhaserWrapper {
        @Override
        public int awaitAdvance(int phase) {
            return phase < 0 ? getPhase() : super.awaitAdvance(phase);
        }
    }

    /** Waits for a phase compare its lowest eight bits alone. */
    static final class EightBitsOfThePhaseAreCompared extends PhaserWrapper {
        private static final int BITS = 255;

        @Override
        public int awaitAdvance(int phase) {
            int now = right.getPhase();
            return super.awaitAdvance(phase >= 0 && now >= 0 && (phase & BITS) == (now & BITS) ? now : phase);
        }
    }

    /** The end of a phase wakes sixteen waiters; further ones go on only when the next has ended. */
    static final class SixteenAreWoken extends PhaserWrapper {
        private static final int WOKEN = 16;

        private final Map<Integer, Integer> waiters = new ConcurrentHashMap<>();

        @Override
        public int awaitAdvance(int phase) {
            boolean waits = phase >= 0 && phase == right.getPhase();
            boolean woken = !waits || waiters.merge(phase, 1, Integer::sum) <= WOKEN;
            int answer = super.awaitAdvance(phase);
            return woken ? answer : super.awaitAdvance(answer);
        }

        @Override
        public int arriveAndAwaitAdvance() {
            return awaitAdvance(arrive());
        }
    }

    /** An interrupt ends awaitAdvance, which then answers the phase. */
    static final class InterruptEndsAnyWait extends PhaserWrapper {
        @Override
        public int awaitAdvance(int phase) {
            try {
                return super.awaitAdvanceInterruptibly(phase);
            } catch (InterruptedException interrupted) {
                Thread.currentThread().interrupt();
                return getPhase();
            }
        }
    }

    /** awaitAdvanceInterruptibly looks at the interrupted status first. */
    static final class InterruptedBeforePhase extends PhaserWrapper {
        @Override
        public int awaitAdvanceInterruptibly(int phase) throws InterruptedException {
            if (Thread.interrupted()) {
                throw new InterruptedException();
            }
            return super.awaitAdvanceInterruptibly(phase);
        }
    }

    /** The interrupted status stays set where a wait ends by InterruptedException. */
    static final class InterruptedWaitKeepsTheStatus extends PhaserWrapper {
        @Override
        public int awaitAdvanceInterruptibly(int phase) throws InterruptedException {
            try {
                return super.awaitAdvanceInterruptibly(phase);
            } catch (InterruptedException interrupted) {
                Thread.currentThread().interrupt();
                throw interrupted;
            }
        }
    }

    /** A timed wait without time is over before it looks at the interrupted status. */
    static final class NoTimeBeforeInterrupted extends PhaserWrapper {
        @Override
        public int awaitAdvanceInterruptibly(int phase, long time) throws InterruptedException, TimeoutException {
            if (time <= 0 && phase == getPhase()) {
                throw new TimeoutException();
            }
            return super.awaitAdvanceInterruptibly(phase, time);
        }
    }

    /** A timed wait without time is over before it looks at the phase. */
    static final class NoTimeBeforePhase extends PhaserWrapper {
        @Override
        public int awaitAdvanceInterruptibly(int phase, long time) throws InterruptedException, TimeoutException {
            if (time <= 0) {
                throw new TimeoutException();
            }
            return super.awaitAdvanceInterruptibly(phase, time);
        }
    }

    /** A timed wait waits as long as one without a time. */
    static final class TimeNeverRunsOut extends PhaserWrapper {
        @Override
        public int awaitAdvanceInterruptibly(int phase, long time) throws InterruptedException, TimeoutException {
            return super.awaitAdvanceInterruptibly(phase);
        }
    }

    /** A wait that runs out arrives in the place of who was missing. */
    static final class TimeoutCountsAsArrival extends PhaserWrapper {
        @Override
        public int awaitAdvanceInterruptibly(int phase, long time) throws InterruptedException, TimeoutException {
            try {
                return super.awaitAdvanceInterruptibly(phase, time);
            } catch (TimeoutException late) {
                right.arrive();
                throw late;
            }
        }
    }

    /** The nanoseconds of a time are kept in 32 bits. */
    static final class TimesAreCutTo32Bits {
        static final class AtPhaser extends PhaserWrapper {
            @Override
            public int awaitAdvanceInterruptibly(int phase, long time) throws InterruptedException, TimeoutException {
                return super.awaitAdvanceInterruptibly(phase, (int) time);
            }
        }

        static final class AtBarrier extends BarrierWrapper {
            @Override
            int await(boolean timed, long time) throws InterruptedException, BrokenBarrierException, TimeoutException {
                return super.await(timed, (int) time);
            }
        }
    }
}
