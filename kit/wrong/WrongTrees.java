package kit.wrong;

import kit.player.PhaserUnderTest;

/** Misunderstandings of tiers: of what a child does at its parent, and what it takes over from its root. */
final class WrongTrees {
    private WrongTrees() {
    }

    /** Each registration with a child is one with its parent. */
    static final class ChildJoinsTwice extends PhaserWrapper {
        @Override
        public int register() {
            boolean joins = parent != null && getRegisteredParties() > 0 && parent.getRegisteredParties() < 65535;
            int phase = super.register();
            if (joins && phase >= 0) {
                parent.right.register();
            }
            return phase;
        }
    }

    /** A child that joins a parent at which somebody has arrived makes that one join its own parent again. */
    static final class JoiningGoesOnPastAnArrival extends PhaserWrapper {
        @Override
        public int register() {
            boolean goesOn = parent != null && parent.parent != null && getRegisteredParties() == 0
                && parent.getUnarrivedParties() > 0 && parent.getArrivedParties() > 0;
            int phase = super.register();
            if (goesOn && phase >= 0) {
                parent.parent.right.register();
            }
            return phase;
        }
    }

    /** Every arrival at a child is one at its parent, not only the last. */
    static final class ChildArrivesOncePerParty extends PhaserWrapper {
        @Override
        public int arrive() {
            int phase = super.arrive();
            if (parent != null && phase >= 0 && getUnarrivedParties() > 0 && parent.getUnarrivedParties() > 1) {
                parent.right.arrive();
            }
            return phase;
        }
    }

    /**
     * A child refuses every arrival while its parent waits for nobody, also those that the parent would never hear of.
     */
    static final class ChildRefusesBeforeItClimbs extends PhaserWrapper {
        @Override
        public int arrive() {
            if (parent != null && parent.getUnarrivedParties() == 0 && !isTerminated()) {
                throw new IllegalStateException();
            }
            return super.arrive();
        }
    }

    /**
     * While the onAdvance of a root runs, an arrival of another thread at a child that still waits for somebody is
     * refused.
     */
    static final class ChildrenWaitForOnAdvance extends PhaserWrapper {
        private volatile Thread runner;

        @Override
        boolean onAdvance(int phase, int parties) {
            runner = Thread.currentThread();
            try {
                return super.onAdvance(phase, parties);
            } finally {
                runner = null;
            }
        }

        @Override
        public int arrive() {
            Thread atRoot = ((ChildrenWaitForOnAdvance) getRoot()).runner;
            if (parent != null && atRoot != null && atRoot != Thread.currentThread() && getUnarrivedParties() > 0) {
                throw new IllegalStateException("the phase ends");
            }
            return super.arrive();
        }
    }

    /** A child whose last party leaves only arrives at its parent, and is awaited again. */
    static final class EmptyChildStaysWithItsParent extends PhaserWrapper {
        @Override
        public int arriveAndDeregister() {
            boolean last = parent != null && getRegisteredParties() == 1 && getUnarrivedParties() == 1;
            int phase = super.arriveAndDeregister();
            if (last && phase >= 0 && parent.right.getRegisteredParties() > 0) {
                parent.right.register();
            }
            return phase;
        }
    }

    /** forceTermination of a child leaves its tree alone. */
    static final class ChildIsForcedAlone extends PhaserWrapper {
        @Override
        public void forceTermination() {
            if (parent == null) {
                super.forceTermination();
            }
        }
    }

    /** Only a root says that it is terminated. */
    static final class ChildIsNeverTerminated extends PhaserWrapper {
        @Override
        public boolean isTerminated() {
            return parent == null && super.isTerminated();
        }
    }

    /**
     * A phaser asks its parent for the phase, and that one doesn't ask its own: it knows the phase in which it was
     * last called.
     */
    static final class GrandchildLagsBehind extends PhaserWrapper {
        private volatile int known;

        @Override
        void standBefore(PhaserUnderTest right, PhaserWrapper parent) {
            super.standBefore(right, parent);
            known = right.getPhase();
        }

        @Override
        public int getPhase() {
            known = parent != null && parent.parent != null ? ((GrandchildLagsBehind) parent).known : super.getPhase();
            return known;
        }
    }

    /** A child takes itself to be up to date where its own phase and the root's are both even, or both odd. */
    static final class ParityOfThePhaseIsCompared extends PhaserWrapper {
        private int phase;
        private boolean complete;

        @Override
        public int arrive() {
            int now = right.getPhase();
            if (complete && ((now ^ phase) & 1) == 0) {
                throw new IllegalStateException();
            }
            complete = parent != null && right.getUnarrivedParties() == 1;
            phase = super.arrive();
            return phase;
        }
    }

    /** The onAdvance of a child is asked when all its parties have arrived. */
    static final class OnAdvanceIsAskedForChildren extends PhaserWrapper {
        @Override
        public int arrive() {
            boolean asks = parent != null && routine != null && getUnarrivedParties() == 1;
            int phase = asks ? getPhase() : -1;
            if (phase >= 0) {
                onAdvance(phase, getRegisteredParties());
            }
            return super.arrive();
        }
    }

    /** getParent answers the root of the tree. */
    static final class ParentIsTheRoot extends PhaserWrapper {
        @Override
        public PhaserUnderTest getParent() {
            return parent == null ? null : getRoot();
        }
    }

    /** getRoot answers the phaser one level up. */
    static final class RootIsTheParent extends PhaserWrapper {
        @Override
        public PhaserUnderTest getRoot() {
            return parent == null ? this : parent;
        }
    }
}
