package kit.wrong.burst;

import java.util.concurrent.TimeoutException;
import java.util.concurrent.locks.Condition;
import java.util.concurrent.locks.ReentrantLock;
import java.util.function.Supplier;

/** One lock, and one condition for all who wait; what is wrong overrides what a waiter does around its sleep. */
abstract class Locked {
    private final ReentrantLock lock;
    private final Condition changed;

    /** Fair, so that others come in between where a call takes it twice. */
    Locked() {
        this(new ReentrantLock(true));
    }

    Locked(ReentrantLock lock) {
        this.lock = lock;
        changed = lock.newCondition();
    }

    final void lock() {
        lock.lock();
    }

    final void unlock() {
        lock.unlock();
    }

    final <T> T underLock(Supplier<T> call) {
        lock.lock();
        try {
            return call.get();
        } finally {
            lock.unlock();
        }
    }

    final void wakeAll() {
        changed.signalAll();
    }

    final void sleep() {
        changed.awaitUninterruptibly();
    }

    /** Sleeps once. An interrupt stays, to be looked at. */
    final void sleep(boolean timed, long began, long nanoseconds) throws InterruptedException, TimeoutException {
        fallsAsleep();
        try {
            if (timed) {
                changed.awaitNanos(left(began, nanoseconds));
            } else {
                changed.await();
            }
        } catch (InterruptedException interrupted) {
            Thread.currentThread().interrupt();
        }
        wakesUp(timed, left(began, nanoseconds));
    }

    /** A waiter has looked, and sleeps next; the lock is held. */
    void fallsAsleep() {
    }

    /** A waiter woke up, maybe for nothing, and hasn't looked yet; {@code left} is what is left of its time. */
    void wakesUp(boolean timed, long left) throws InterruptedException, TimeoutException {
    }

    /** What is left of a time that began at {@code began}. */
    long left(long began, long nanoseconds) {
        return nanoseconds - (System.nanoTime() - began);
    }
}
