package kit.wrong;

import kit.player.Factory.OnAdvance;

/**
 * Misunderstandings of onAdvance: of what it is given, what its answer does, and what may be called from inside it.
 */
final class WrongRoutines {
    private WrongRoutines() {
    }

    /** Where nobody is left the phaser terminates, whatever its onAdvance says. */
    static final class EmptyPhaserAlwaysTerminates extends PhaserWrapper {
        @Override
        boolean onAdvance(int phase, int parties) {
            return super.onAdvance(phase, parties) || parties == 0;
        }
    }

    /** The default onAdvance never terminates. */
    static final class EmptyPhaserGoesOn extends PhaserWrapper {
        @Override
        OnAdvance asked() {
            return routine == null ? (phase, parties) -> false : routine;
        }
    }

    /** onAdvance answers whether the phaser goes on. */
    static final class OnAdvanceAnswerIsTurned extends PhaserWrapper {
        @Override
        boolean onAdvance(int phase, int parties) {
            return !super.onAdvance(phase, parties);
        }
    }

    /** onAdvance is asked with the phase that begins. */
    static final class OnAdvanceGetsTheNextPhase extends PhaserWrapper {
        @Override
        boolean onAdvance(int phase, int parties) {
            return super.onAdvance(phase + 1, parties);
        }
    }

    /** An exception in onAdvance ends the phase all the same. */
    static final class RoutineExceptionStillAdvances extends PhaserWrapper {
        @Override
        boolean onAdvance(int phase, int parties) {
            try {
                return super.onAdvance(phase, parties);
            } catch (RuntimeException swallowed) {
                return false;
            }
        }
    }

    /** An exception in onAdvance terminates the phaser. */
    static final class RoutineExceptionTerminates extends PhaserWrapper {
        @Override
        boolean onAdvance(int phase, int parties) {
            try {
                return super.onAdvance(phase, parties);
            } catch (RuntimeException swallowed) {
                return true;
            }
        }
    }

    /** A phaser that knows which threads are inside an onAdvance, be it of another tree. */
    private abstract static class CalledInside extends PhaserWrapper {
        private static final ThreadLocal<Integer> DEPTH = ThreadLocal.withInitial(() -> 0);

        final boolean isInside() {
            return DEPTH.get() > 0;
        }

        @Override
        final boolean onAdvance(int phase, int parties) {
            DEPTH.set(DEPTH.get() + 1);
            try {
                return super.onAdvance(phase, parties);
            } finally {
                DEPTH.set(DEPTH.get() - 1);
            }
        }
    }

    /** Inside an onAdvance an arrival where nobody is awaited answers the phase. */
    static final class ArrivalInRoutineIsIgnored extends CalledInside {
        @Override
        public int arrive() {
            return isInside() && getUnarrivedParties() == 0 ? getPhase() : super.arrive();
        }
    }

    /** Inside an onAdvance awaitAdvance of another phase answers the one to come; in the JDK it is the present one. */
    static final class AwaitInRoutineAnswersTheNextPhase extends CalledInside {
        @Override
        public int awaitAdvance(int phase) {
            int view = super.awaitAdvance(phase);
            return isInside() && phase >= 0 ? view + 1 : view;
        }
    }

    /** Inside an onAdvance that has forced the termination calls answer the plain phase; in the JDK it is the view. */
    static final class ForcedRoutineGetsThePlainPhase extends CalledInside {
        @Override
        public int register() {
            int view = super.register();
            return isInside() ? view & Integer.MAX_VALUE : view;
        }

        @Override
        public int arrive() {
            int view = super.arrive();
            return isInside() ? view & Integer.MAX_VALUE : view;
        }

        @Override
        public int awaitAdvance(int phase) {
            int view = super.awaitAdvance(phase);
            return isInside() && phase >= 0 ? view & Integer.MAX_VALUE : view;
        }
    }

    /** Inside an onAdvance bulkRegister(-1) answers the phase; in the JDK it is IllegalArgumentException. */
    static final class NegativePartiesInRoutineAreAnswered extends CalledInside {
        @Override
        public int bulkRegister(int parties) {
            return isInside() && parties < 0 ? getPhase() : super.bulkRegister(parties);
        }
    }

    /**
     * Inside an onAdvance register answers the phase and registers nobody; in the JDK it blocks, and here it throws.
     */
    static final class RegisteringInRoutineIsForgotten extends CalledInside {
        @Override
        public int register() {
            return isInside() && isTurned() ? getPhase() : super.register();
        }

        private boolean isTurned() {
            return getRegisteredParties() > 0 && getUnarrivedParties() == 0;
        }
    }

    /** Inside an onAdvance bulkRegister(0) answers the phase to come; in the JDK it is the present one. */
    static final class RegisteringNobodyInRoutineAnswersTheNextPhase extends CalledInside {
        @Override
        public int bulkRegister(int parties) {
            int phase = super.bulkRegister(parties);
            return isInside() && parties == 0 ? phase + 1 : phase;
        }
    }

    /** Inside an onAdvance no registration is allowed, with another tree neither. */
    static final class RoutineMayRegisterNowhere extends CalledInside {
        @Override
        public int register() {
            if (isInside()) {
                throw new IllegalStateException();
            }
            return super.register();
        }
    }
}
