package kit.wrong;

import java.util.concurrent.TimeoutException;
import kit.player.Factory.OnAdvance;
import kit.player.PhaserUnderTest;

/** A phaser that hands all to a right one; a wrong one overrides what it has misunderstood. */
class PhaserWrapper implements PhaserUnderTest {
    PhaserUnderTest right;
    PhaserWrapper parent;
    /** What the program has put in the place of the class's own onAdvance, or null. */
    OnAdvance routine;

    /** The right one, and the wrapper of its parent, are there: no call comes sooner. */
    void standBefore(PhaserUnderTest right, PhaserWrapper parent) {
        this.right = right;
        this.parent = parent;
    }

    /** What the right one asks when a phase ends; null where its own onAdvance stays. */
    OnAdvance asked() {
        return routine == null ? null : this::onAdvance;
    }

    boolean onAdvance(int phase, int parties) {
        return routine.onAdvance(phase, parties);
    }

    @Override public int register() { return right.register(); }
    @Override public int bulkRegister(int parties) { return right.bulkRegister(parties); }
    @Override public int arrive() { return right.arrive(); }
    @Override public int arriveAndDeregister() { return right.arriveAndDeregister(); }
    @Override public int arriveAndAwaitAdvance() { return right.arriveAndAwaitAdvance(); }
    @Override public int awaitAdvance(int phase) { return right.awaitAdvance(phase); }

    @Override
    public int awaitAdvanceInterruptibly(int phase) throws InterruptedException {
        return right.awaitAdvanceInterruptibly(phase);
    }

    @Override
    public int awaitAdvanceInterruptibly(int phase, long nanoseconds) throws InterruptedException, TimeoutException {
        return right.awaitAdvanceInterruptibly(phase, nanoseconds);
    }

    @Override public void forceTermination() { right.forceTermination(); }
    @Override public int getPhase() { return right.getPhase(); }
    @Override public int getRegisteredParties() { return right.getRegisteredParties(); }
    @Override public int getArrivedParties() { return right.getArrivedParties(); }
    @Override public int getUnarrivedParties() { return right.getUnarrivedParties(); }
    @Override public boolean isTerminated() { return right.isTerminated(); }
    @Override public PhaserUnderTest getParent() { return parent; }
    @Override public PhaserUnderTest getRoot() { return parent == null ? this : parent.getRoot(); }
}
