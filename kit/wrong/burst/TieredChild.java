package kit.wrong.burst;

import java.util.concurrent.TimeoutException;
import kit.player.PhaserUnderTest;

/**
 * A child over a lock of its own, which follows its root's phase when it is next called; a wrong one overrides a look.
 */
class TieredChild implements PhaserUnderTest {
    private static final int MOST_PARTIES = 65535;

    private PhaserUnderTest parent;
    private int parties;
    private volatile int unarrived;
    private int seen;

    final TieredChild begin(PhaserUnderTest above, int ofParties) {
        parent = above;
        parties = ofParties;
        unarrived = ofParties;
        seen = parties > 0 ? parent.register() : parent.getPhase();
        return this;
    }

    /** Whether the arrival that left so many unarrived was the last; the lock isn't held any more. */
    boolean isComplete(int left) {
        return left == 0;
    }

    /** A registration begins, which the lock doesn't guard yet; whether it has joined the parent by now. */
    boolean joinsBefore() {
        return false;
    }

    final PhaserUnderTest parent() {
        return parent;
    }

    final synchronized boolean isEmpty() {
        return parties == 0;
    }

    final int unarrived() {
        return unarrived;
    }

    private void follow() {
        renew(getRoot().getPhase());
    }

    /** The present phase is this one; the lock is held. */
    final void renew(int now) {
        if (now != seen) {
            seen = now;
            unarrived = parties;
        }
    }

    /** It is complete, and arrives at its parent; the lock isn't held any more. */
    int climb(boolean leaves) {
        return leaves ? parent.arriveAndDeregister() : parent.arrive();
    }

    @Override
    public int register() {
        return bulkRegister(1);
    }

    @Override
    public int bulkRegister(int count) {
        if (count < 0) {
            throw new IllegalArgumentException();
        }
        boolean joined = count > 0 && joinsBefore();
        for (;;) {
            int turnedIn;
            synchronized (this) {
                follow();
                if (count == 0 || seen < 0) {
                    return seen;
                }
                if (parties + (long) count > MOST_PARTIES) {
                    throw new IllegalStateException();
                }
                if (parties == 0 || unarrived > 0) {
                    seen = parties == 0 && !joined ? parent.register() : seen;
                    parties += count;
                    unarrived += count;
                    return seen;
                }
                turnedIn = seen;
            }
            parent.awaitAdvance(turnedIn);
        }
    }

    @Override
    public int arrive() {
        return arrive(false, true);
    }

    @Override
    public int arriveAndDeregister() {
        return arrive(true, true);
    }

    final int arrive(boolean leaves, boolean follows) {
        int left;
        int staying;
        int phase;
        synchronized (this) {
            if (follows) {
                follow();
            }
            if (seen < 0) {
                return seen;
            }
            if (unarrived == 0) {
                throw new IllegalStateException();
            }
            left = unarrived - 1;
            unarrived = left;
            parties -= leaves ? 1 : 0;
            staying = parties;
            phase = seen;
        }
        if (!isComplete(left)) {
            return phase;
        }
        return climb(staying == 0);
    }

    @Override
    public int arriveAndAwaitAdvance() {
        return awaitAdvance(arrive());
    }

    @Override
    public int awaitAdvance(int phase) {
        return parent.awaitAdvance(phase);
    }

    @Override
    public int awaitAdvanceInterruptibly(int phase) throws InterruptedException {
        return parent.awaitAdvanceInterruptibly(phase);
    }

    @Override
    public int awaitAdvanceInterruptibly(int phase, long nanoseconds) throws InterruptedException, TimeoutException {
        return parent.awaitAdvanceInterruptibly(phase, nanoseconds);
    }

    @Override
    public void forceTermination() {
        parent.forceTermination();
    }

    @Override
    public int getPhase() {
        return parent.getPhase();
    }

    @Override
    public synchronized int getRegisteredParties() {
        return parties;
    }

    @Override
    public synchronized int getArrivedParties() {
        follow();
        return parties - unarrived;
    }

    @Override
    public synchronized int getUnarrivedParties() {
        follow();
        return unarrived;
    }

    @Override
    public boolean isTerminated() {
        return parent.isTerminated();
    }

    @Override
    public PhaserUnderTest getParent() {
        return parent;
    }

    @Override
    public PhaserUnderTest getRoot() {
        return parent.getRoot();
    }
}
