package kit.player;

import java.util.concurrent.atomic.AtomicInteger;

/** Lets threads of this JVM begin at the same moment, as nearly as the machine has cores for them. No verdict rests on it. */
final class BurstGate {
    private static final int SPINS = 200;
    private static final int MOST_ROUNDS = 2_000;
    private static final long LONGEST_SPIN = 50_000;

    private final AtomicInteger missing;

    BurstGate(int threads) {
        missing = new AtomicInteger(threads);
    }

    void pass() {
        missing.decrementAndGet();
        for (int round = 0; missing.get() > 0 && round < MOST_ROUNDS; round++) {
            if (round < SPINS) {
                Thread.onSpinWait();
            } else {
                Thread.yield();
            }
        }
    }

    /** Waits until this time of {@code nanoTime}. An interrupt of the thread stays, and shortens nothing. */
    static void pauseUntil(long time) {
        while (System.nanoTime() < time) {
            if (time - System.nanoTime() > LONGEST_SPIN) {
                Thread.yield();
            } else {
                Thread.onSpinWait();
            }
        }
    }
}
