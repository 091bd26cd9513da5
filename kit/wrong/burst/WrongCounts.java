package kit.wrong.burst;

/** Faults in how a phaser counts arrivals and registrations. */
final class WrongCounts {
    private WrongCounts() {
    }

    /** A phaser that reads its phase anew, without the lock, behind an arrival that hasn't ended it. */
    private abstract static class Looking extends LockedPhaser {
        private final ThreadLocal<Boolean> isLast = ThreadLocal.withInitial(() -> true);

        @Override
        void counted() {
            isLast.set(false);
        }

        final int arriveAndLook() {
            isLast.set(true);
            int phase = super.arrive();
            return isLast.get() ? phase : getPhase();
        }
    }

    /**
     * An arrival that doesn't end its phase returns the phase that it reads after it has released the lock.
     *
     * <p>Found by meetings.
     */
    static final class ArrivalAnswersThePresentPhase extends Looking {
        @Override
        public int arrive() {
            return arriveAndLook();
        }
    }

    /**
     * Arrivals are counted by a read and a write, without the lock: one of two at once may be lost.
     *
     * <p>Found by meetings.
     */
    static final class ArrivalsAreCountedWithoutTheLock extends LockedPhaser {
        @Override
        int arrive(boolean leaves) {
            int unarrived = view() < 0 || leaves ? 0 : unarrived();
            if (unarrived < 2) {
                return super.arrive(leaves);
            }
            int phase = view();
            setUnarrived(unarrived - 1);
            return phase;
        }
    }

    /**
     * arriveAndAwaitAdvance awaits the phase that it reads behind its arrival, where that didn't end the phase: maybe
     * the next.
     *
     * <p>Found by meetings.
     */
    static final class PhaseIsReadAnew extends Looking {
        @Override
        public int arriveAndAwaitAdvance() {
            return awaitAdvance(arriveAndLook());
        }
    }

    /**
     * arriveAndDeregister arrives, takes the lock again, and removes the party: a phase may have ended in between.
     *
     * <p>Found by meetings-and-departures.
     */
    static final class LeavingIsTwoSteps extends LockedPhaser {
        @Override
        public int arriveAndDeregister() {
            if (getUnarrivedParties() < 2) {
                return super.arriveAndDeregister();
            }
            int phase = arrive();
            lock();
            removeParty(phase);
            unlock();
            return phase;
        }
    }

    /**
     * A registration at a phaser without parties takes no lock: two at once count as one.
     *
     * <p>Found by registration-at-an-empty-phaser.
     */
    static final class EmptyPhaserTakesNoLock extends LockedPhaser {
        @Override
        public int bulkRegister(int count) {
            if (count <= 0 || getRegisteredParties() > 0 || isTurned() || isTerminated()) {
                return super.bulkRegister(count);
            }
            Thread.yield();     // so that it comes about soon
            addParties(count);
            return view();
        }
    }

    /**
     * A registration that is held counts its parties before it waits: a look from inside onAdvance finds more than
     * were there.
     *
     * <p>Found by calls-inside-on-advance; in lock-step where a registration is held.
     */
    static final class HeldRegistrationIsCounted extends LockedPhaser {
        @Override
        public int bulkRegister(int count) {
            return underLock(() -> {
                if (count <= 0 || !isTurned() || view() < 0) {
                    return super.bulkRegister(count);
                }
                addParties(count);
                setUnarrived(0);
                while (isTurned() && view() >= 0) {
                    sleep();
                }
                return view();
            });
        }
    }
}
