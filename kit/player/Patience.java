package kit.player;

import java.util.Arrays;

/**
 * How long the player waits for a real thread, in nanoseconds. {@code settle}: a thread that stands still for so long is
 * taken to be blocked. {@code expiry}: the time of a timed wait that is to run out. {@code bound}: what takes longer hangs.
 * {@code factor} is what was asked for, and is in the three.
 */
record Patience(long settle, long expiry, long bound, double factor) {
    private static final long MILLISECOND = 1_000_000;

    /** In this JVM, where a thread's state can be seen. */
    static final Patience[] OF_JVM = {
        new Patience(3 * MILLISECOND / 10, 12 * MILLISECOND, 2_000 * MILLISECOND),
        new Patience(8 * MILLISECOND, 80 * MILLISECOND, 5_000 * MILLISECOND),
        new Patience(40 * MILLISECOND, 400 * MILLISECOND, 10_000 * MILLISECOND),
    };

    /** Of a port behind a pipe, where there is only the time. */
    static final Patience[] OF_PORT = {
        new Patience(3 * MILLISECOND, 40 * MILLISECOND, 2_000 * MILLISECOND),
        new Patience(20 * MILLISECOND, 200 * MILLISECOND, 5_000 * MILLISECOND),
        new Patience(100 * MILLISECOND, 1_000 * MILLISECOND, 10_000 * MILLISECOND),
    };

    private Patience(long settle, long expiry, long bound) {
        this(settle, expiry, bound, 1);
    }

    /** The patience of each try, so many times as long. */
    static Patience[] times(double factor, Patience... tries) {
        return Arrays.stream(tries).map(each -> each.times(factor)).toArray(Patience[]::new);
    }

    private Patience times(double more) {
        return new Patience((long) (settle * more), (long) (expiry * more), (long) (bound * more), factor * more);
    }

    Patience withBound(long nanoseconds) {
        return new Patience(settle, expiry, nanoseconds, factor);
    }
}
