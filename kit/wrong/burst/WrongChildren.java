package kit.wrong.burst;

/** Faults in what a child does with its parent and its root. */
final class WrongChildren {
    private WrongChildren() {
    }

    /**
     * An arrival at a child checks only after it has released the lock whether the child is complete: two see it, and
     * the child arrives at its parent twice.
     *
     * <p>Found by tree-meetings.
     */
    static final class ChildIsCompleteTwice extends TieredChild {
        @Override
        boolean isComplete(int left) {
            return unarrived() == 0;
        }
    }

    /**
     * A registration at a child that it saw without parties joins the parent first, and takes the lock to count after
     * that: two see it so, and the child joins twice.
     *
     * <p>Found by registration-at-an-empty-child.
     */
    static final class EmptyChildIsSeenTwice extends TieredChild {
        @Override
        boolean joinsBefore() {
            boolean joins = isEmpty();
            if (joins) {
                parent().register();
            }
            return joins;
        }
    }

    /**
     * An arrival that goes up from a child doesn't renew the phaser in the middle, which may stand in an earlier
     * phase.
     *
     * <p>Found by a-tree-of-three-levels; in lock-step where nobody looks at the middle.
     */
    static final class MiddleIsNotRenewed extends TieredChild {
        @Override
        int climb(boolean leaves) {
            return parent() instanceof TieredChild middle ? middle.arrive(leaves, false) : super.climb(leaves);
        }
    }

    /**
     * A getter of a child reads its root's phase before it takes the lock, and renews the counts with that: in a phase
     * that has begun meanwhile an arrival is lost.
     *
     * <p>Found by looks-at-a-tree.
     */
    static final class GetterRenewsWithAnOldPhase extends TieredChild {
        @Override
        public int getUnarrivedParties() {
            int now = parent().getPhase();
            synchronized (this) {
                renew(now);
                return unarrived();
            }
        }

        @Override
        public int getArrivedParties() {
            return getRegisteredParties() - getUnarrivedParties();
        }
    }

    /**
     * The phase that children show goes up in a second critical section, behind the end of the phase: who has met may
     * see the earlier one.
     *
     * <p>Found by phase-of-a-child.
     */
    static final class ChildShowsThePhaseLate {
        /** A root that keeps for its children what they show. */
        private static final class Shown extends LockedPhaser {
            private volatile int shown;

            private void show() {
                lock();
                shown = view();
                unlock();
            }

            @Override
            int arrive(boolean leaves) {
                int phase = super.arrive(leaves);
                show();
                return phase;
            }

            @Override
            public void forceTermination() {
                super.forceTermination();
                show();
            }
        }

        private static final class Child extends TieredChild {
            @Override
            public int getPhase() {
                return ((Shown) getRoot()).shown;
            }
        }
    }

    /**
     * The last departure from a child looks at the child whether the tree is terminated, and ends the root's phase
     * without another look: a forced termination in between is undone.
     *
     * <p>Found by tree-departures-and-force.
     */
    static final class TerminationIsUndone {
        private static final class Root extends LockedPhaser {
            int departsFromBelow() {
                Thread.yield();     // so that it comes about soon
                lock();
                if (unarrived() == 1) {
                    forgetTermination();
                }
                unlock();
                return arriveAndDeregister();
            }
        }

        private static final class Child extends TieredChild {
            @Override
            int climb(boolean leaves) {
                return leaves && parent() instanceof Root root ? root.departsFromBelow() : super.climb(leaves);
            }
        }
    }
}
