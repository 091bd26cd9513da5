package kit.wrong.burst;

import java.util.concurrent.TimeoutException;
import java.util.concurrent.locks.ReentrantLock;
import kit.player.Factory;
import kit.player.PhaserUnderTest;

/** A right root over one lock; a wrong one overrides what it has misunderstood. */
class LockedPhaser extends Locked implements PhaserUnderTest {
    private static final int MOST_PARTIES = 65535;

    private Factory.OnAdvance asked;
    private volatile int parties;
    private volatile int unarrived;
    private volatile int phase;
    private volatile boolean terminated;
    private volatile boolean turned;

    LockedPhaser() {
    }

    LockedPhaser(ReentrantLock lock) {
        super(lock);
    }

    final LockedPhaser begin(int ofParties, Factory.OnAdvance toAsk) {
        parties = ofParties;
        unarrived = ofParties;
        asked = toAsk;
        return this;
    }

    // ---- for those that are wrong

    final int view() {
        int now = phase;
        return terminated ? now | Integer.MIN_VALUE : now;
    }

    final boolean isTurned() {
        return turned;
    }

    final void addParties(int count) {
        parties += count;
        unarrived += count;
    }

    /** The party that arrived in phase {@code arrived} isn't registered any more. */
    final void removeParty(int arrived) {
        parties--;
        if (phase != arrived) {
            unarrived--;
        }
    }

    final void forgetTermination() {
        terminated = false;
    }

    final int unarrived() {
        return unarrived;
    }

    final void setUnarrived(int count) {
        unarrived = count;
    }

    /** A phase has ended; the lock is held. */
    void ended() {
    }

    /** An arrival that doesn't end the phase is counted; the lock is held. */
    void counted() {
    }

    // ---- registering

    @Override
    public int register() {
        return bulkRegister(1);
    }

    @Override
    public int bulkRegister(int count) {
        if (count < 0) {
            throw new IllegalArgumentException();
        }
        return underLock(() -> {
            while (count > 0 && !terminated && parties + (long) count <= MOST_PARTIES && turned) {
                sleep();
            }
            if (count > 0 && !terminated) {
                if (parties + (long) count > MOST_PARTIES) {
                    throw new IllegalStateException();
                }
                addParties(count);
                counted();
            }
            return view();
        });
    }

    // ---- arriving

    @Override
    public int arrive() {
        return arrive(false);
    }

    @Override
    public int arriveAndDeregister() {
        return arrive(true);
    }

    @Override
    public int arriveAndAwaitAdvance() {
        return awaitAdvance(arrive());
    }

    int arrive(boolean leaves) {
        int now;
        int left;
        lock();
        try {
            if (terminated) {
                return view();
            }
            if (unarrived == 0) {
                throw new IllegalStateException();
            }
            unarrived--;
            parties -= leaves ? 1 : 0;
            now = phase;
            left = parties;
            if (unarrived > 0) {
                counted();
                return now;
            }
            if (asked == null) {
                end(left == 0);
                return now;
            }
            turned = true;
        } finally {
            unlock();
        }
        boolean terminates = asked.onAdvance(now, left);
        lock();
        try {
            end(terminates);
            return now;
        } finally {
            unlock();
        }
    }

    private void end(boolean terminates) {
        if (!terminated) {
            phase = phase + 1 & Integer.MAX_VALUE;
            terminated = terminates;
            unarrived = parties;
            turned = false;
            ended();
            wakeAll();
        }
    }

    // ---- waiting

    @Override
    public int awaitAdvance(int awaited) {
        if (awaited < 0) {
            return awaited;
        }
        return underLock(() -> {
            while (view() == awaited) {
                sleep();
            }
            return view();
        });
    }

    @Override
    public int awaitAdvanceInterruptibly(int awaited) throws InterruptedException {
        try {
            return await(awaited, false, 0);
        } catch (TimeoutException never) {
            throw new AssertionError(never);
        }
    }

    @Override
    public int awaitAdvanceInterruptibly(int awaited, long nanoseconds) throws InterruptedException, TimeoutException {
        return await(awaited, true, nanoseconds);
    }

    int await(int awaited, boolean timed, long nanoseconds) throws InterruptedException, TimeoutException {
        long began = System.nanoTime();
        lock();
        try {
            while (awaited >= 0 && view() == awaited) {
                if (Thread.interrupted()) {
                    throw new InterruptedException();
                }
                if (timed && left(began, nanoseconds) <= 0) {
                    throw new TimeoutException();
                }
                sleep(timed, began, nanoseconds);
            }
            return awaited < 0 ? awaited : view();
        } finally {
            unlock();
        }
    }

    // ---- the rest

    @Override
    public void forceTermination() {
        lock();
        terminated = true;
        wakeAll();
        unlock();
    }

    @Override
    public int getPhase() {
        return underLock(this::view);
    }

    @Override
    public int getRegisteredParties() {
        return parties;
    }

    @Override
    public int getArrivedParties() {
        return underLock(() -> terminated ? parties : parties - unarrived);
    }

    @Override
    public int getUnarrivedParties() {
        return underLock(() -> terminated ? 0 : unarrived);
    }

    @Override
    public boolean isTerminated() {
        return terminated;
    }

    @Override
    public PhaserUnderTest getParent() {
        return null;
    }

    @Override
    public PhaserUnderTest getRoot() {
        return this;
    }
}
