package kit.player;

import java.util.ArrayList;
import java.util.List;

/** Bursts in which barriers break and are reset. Who is left alone is let out by a reset now and then. */
final class BreakBursts {
    static final List<BurstKind> KINDS = List.of(
        new BurstKind("interrupts-at-a-barrier", BreakBursts::interrupts,
            "Interrupts while the parties come."),
        new BurstKind("an-interrupt-alone-at-a-barrier", BreakBursts::interruptAlone,
            "Waits that only an interrupt ends, which comes when they begin."),
        new BurstKind("resets-among-waiters", BreakBursts::resets,
            "Resets while more come than there are parties."),
        new BurstKind("no-time-among-waiters", BreakBursts::noTime,
            "One comes without any time, and breaks the barrier."),
        new BurstKind("breaks-among-comers", BreakBursts::breaksAmongComers,
            "One of those who come breaks one barrier after the other. They are too few to trip any."),
        new BurstKind("time-that-breaks", BreakBursts::timeThatBreaks,
            "Times of less than a millisecond, and nobody completes the generation."),
        new BurstKind("an-action-that-fails", BreakBursts::failingAction,
            "The action throws, in each generation."),
        new BurstKind("looks-at-a-barrier", BreakBursts::looks,
            "Looks while parties come and one resets the barrier."));

    private static final int MOST_BARRIERS = 6;
    private static final long DAY = 86_400_000_000_000L;

    private BreakBursts() {
    }

    private static BurstStep await(int barrier) {
        return BurstMaker.call(Method.AWAIT, barrier);
    }

    private static BurstStep reset(int barrier) {
        return BurstMaker.call(Method.RESET, barrier);
    }

    private static void waiters(BurstMaker make, int barrier, int count, int often) {
        make.threads(count, () -> BurstMaker.times(make.between(1, often), await(barrier)));
    }

    private static void interrupts(BurstMaker make) {
        int parties = make.between(2, 5);
        int barrier = make.barrier(parties, make.of(30), 0, false);
        waiters(make, barrier, parties, 1);
        int thread = make.thread(BurstStep.interrupt(make.between(0, parties - 1)).after(make.time(0, 300)));
        if (make.of(40)) {
            make.then(thread, BurstStep.interrupt(make.between(0, parties - 1)));
        }
        make.then(thread, BurstMaker.call(Method.IS_BROKEN, barrier));
    }

    /** Each waits at a barrier of its own. */
    private static void interruptAlone(BurstMaker make) {
        int waiters = make.between(1, 2);
        for (int waiter = 0; waiter < waiters; waiter++) {
            int barrier = make.barrier(2);
            make.thread(make.of(50) ? await(barrier) : BurstMaker.timed(Method.AWAIT_FOR, barrier, 0, DAY));
        }
        make.interruptsEach(waiters);
    }

    private static void resets(BurstMaker make) {
        int parties = make.between(2, 3);
        int barrier = make.barrier(parties, make.of(30), 0, false);
        waiters(make, barrier, parties + make.between(0, 2), 2);
        make.thread(BurstMaker.times(make.between(1, 3), reset(barrier).after(make.time(0, 100))));
        make.closes(Request.of(Method.RESET, barrier));
    }

    private static void noTime(BurstMaker make) {
        int parties = make.between(2, 4);
        int barrier = make.barrier(parties, make.of(30), 0, false);
        waiters(make, barrier, parties, 2);
        int thread = make.thread(BurstMaker.timed(Method.AWAIT_FOR, barrier, 0, 0).after(make.time(0, 200)));
        if (make.of(50)) {
            make.then(thread, reset(barrier));
        }
        make.then(thread, BurstMaker.call(Method.GET_NUMBER_WAITING, barrier));
        make.closes(Request.of(Method.RESET, barrier));
    }

    /** One of those who come breaks one barrier after the other. They are too few to trip any: all get out, in any order. */
    private static void breaksAmongComers(BurstMaker make) {
        int parties = make.between(3, BurstMaker.MOST_THREADS);
        List<BurstStep> comes = new ArrayList<>();
        List<BurstStep> breaks = new ArrayList<>();
        for (int more = make.between(1, MOST_BARRIERS); more > 0; more--) {
            int barrier = make.barrier(parties, make.of(30), 0, false);
            comes.add(await(barrier));
            if (make.of(50)) {
                breaks.add(BurstMaker.timed(Method.AWAIT_FOR, barrier, 0, 0).after(make.time(0, 800)));
            } else {
                breaks.add(BurstStep.interrupt(parties - 2).after(make.time(0, 800)));
                breaks.add(await(barrier));
            }
        }
        make.threads(parties - 2, () -> comes);
        make.thread(breaks);
    }

    /** Times of less than a millisecond, and nobody completes the generation but, maybe, one who comes late. */
    private static void timeThatBreaks(BurstMaker make) {
        int parties = make.between(3, 4);
        int barrier = make.barrier(parties);
        make.threads(parties - 1,
            () -> List.of(BurstMaker.timed(Method.AWAIT_FOR, barrier, 0, make.between(1, 900) * 1_000L)));
        make.thread(BurstMaker.call(Method.IS_BROKEN, barrier), BurstMaker.call(Method.GET_NUMBER_WAITING, barrier));
    }

    private static void failingAction(BurstMaker make) {
        int parties = make.between(1, 4);
        int barrier = make.barrier(parties, true, 0, true);
        waiters(make, barrier, parties, 2);
        if (make.of(50)) {
            make.thread(reset(barrier).after(make.time(0, 100)), BurstMaker.call(Method.IS_BROKEN, barrier));
        }
        make.closes(Request.of(Method.RESET, barrier));
    }

    private static void looks(BurstMaker make) {
        int parties = make.between(2, 3);
        int barrier = make.barrier(parties, make.of(30), 0, false);
        waiters(make, barrier, parties, 2);
        List<BurstStep> looks = List.of(BurstMaker.call(Method.GET_NUMBER_WAITING, barrier),
            BurstMaker.call(Method.IS_BROKEN, barrier), BurstMaker.call(Method.GET_NUMBER_WAITING, barrier), reset(barrier));
        make.thread(looks.subList(0, make.between(1, 4)));
        make.closes(Request.of(Method.RESET, barrier));
    }
}
