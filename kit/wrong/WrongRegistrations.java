package kit.wrong;

/** Misunderstandings of registering. */
final class WrongRegistrations {
    private WrongRegistrations() {
    }

    /** Registers one party, however many there are to be. */
    static final class BulkRegisterAddsOne extends PhaserWrapper {
        @Override
        public int bulkRegister(int parties) {
            return parties > 1 ? register() : super.bulkRegister(parties);
        }
    }

    /** A registration of no parties answers 0, not the view. */
    static final class RegisteringNobodyAnswersZero extends PhaserWrapper {
        @Override
        public int bulkRegister(int parties) {
            return parties == 0 ? 0 : super.bulkRegister(parties);
        }
    }

    /** Nobody may register once the phaser is terminated; the JDK throws there only past 65535 parties. */
    static final class RegisteringThrowsOnceTerminated extends PhaserWrapper {
        @Override
        public int register() {
            if (isTerminated()) {
                throw new IllegalStateException();
            }
            return super.register();
        }
    }

    /** Once the phaser is terminated a negative number of parties is as good as any. */
    static final class TerminatedBeforeNegativeParties extends PhaserWrapper {
        @Override
        public int bulkRegister(int parties) {
            return isTerminated() ? getPhase() : super.bulkRegister(parties);
        }
    }

    /** Registers as many as there is room for, where there are too many. */
    static final class TooManyPartiesAreLostSilently extends PhaserWrapper {
        @Override
        public int bulkRegister(int parties) {
            int room = 65535 - getRegisteredParties();
            return super.bulkRegister(Math.min(parties, room));
        }
    }

    /** Behind the departure of the last party a registration isn't held while onAdvance runs, and is lost. */
    static final class EmptyRootHoldsNobody extends PhaserWrapper {
        private volatile boolean endsEmpty;

        @Override
        boolean onAdvance(int phase, int parties) {
            endsEmpty = parties == 0;
            try {
                return super.onAdvance(phase, parties);
            } finally {
                endsEmpty = false;
            }
        }

        @Override
        public int register() {
            return endsEmpty && getRegisteredParties() == 0 ? getPhase() : super.register();
        }
    }

    /** A registration that is held clears the interrupted status. */
    static final class HeldRegistrationLosesTheStatus extends PhaserWrapper {
        @Override
        public int register() {
            boolean held = getRegisteredParties() > 0 && getUnarrivedParties() == 0;
            int phase = super.register();
            if (held) {
                Thread.interrupted();
            }
            return phase;
        }
    }

    /**
     * A registration that is held goes on, uncounted, when something wakes it: it doesn't look whether the phase has
     * ended.
     */
    static final class WakeUpEndsAHold extends PhaserWrapper {
        private int wakeUps;

        @Override
        public int register() {
            return isTurned() && wakesUpInside() ? getPhase() : super.register();
        }

        private boolean isTurned() {
            return getRegisteredParties() > 0 && getUnarrivedParties() == 0 && !isTerminated();
        }

        /** Whether it is woken before the phase ends. */
        private synchronized boolean wakesUpInside() {
            int before = wakeUps;
            while (isTurned() && wakeUps == before) {
                try {
                    wait(1);
                } catch (InterruptedException goesOn) {
                    Thread.currentThread().interrupt();
                    return false;
                }
            }
            return wakeUps != before;
        }

        @Override
        public int awaitAdvanceInterruptibly(int phase) throws InterruptedException {
            try {
                return super.awaitAdvanceInterruptibly(phase);
            } catch (InterruptedException interrupted) {
                wake();
                throw interrupted;
            }
        }

        private synchronized void wake() {
            wakeUps++;
            notifyAll();
        }
    }
}
