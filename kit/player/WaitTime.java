package kit.player;

/**
 * The time of a wait: what it really gets, and when that began; what it has in a transcript; and the choice at which it runs
 * out, -1 where it ends otherwise.
 */
record WaitTime(long real, long begun, long transcribed, int expiry) {
    static final WaitTime NONE = endsOtherwise(0);

    static WaitTime endsOtherwise(long time) {
        return new WaitTime(time, System.nanoTime(), time, -1);
    }

    static WaitTime runsOut(long real, long transcribed, int expiry) {
        return new WaitTime(real, System.nanoTime(), transcribed, expiry);
    }

    boolean runsOut() {
        return expiry >= 0;
    }

    /** How much of it is left now. */
    long left() {
        return begun + real - System.nanoTime();
    }
}
