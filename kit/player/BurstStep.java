package kit.player;

/**
 * One step of a thread in a burst: a call, or, where {@code request} is null, an interrupt of thread {@code target}.
 * {@code delay} is waited for before it, in nanoseconds; on a port only before a thread's first step.
 */
record BurstStep(Request request, int target, long delay) {
    static BurstStep call(Request request) {
        return new BurstStep(request, 0, 0);
    }

    static BurstStep interrupt(int target) {
        return new BurstStep(null, target, 0);
    }

    boolean interrupts() {
        return request == null;
    }

    BurstStep after(long nanoseconds) {
        return new BurstStep(request, target, nanoseconds);
    }

    String words() {
        return (delay > 0 ? "after " + delay / 1_000 + " us: " : "") + (interrupts() ? "interrupt " + target : request.words());
    }
}
