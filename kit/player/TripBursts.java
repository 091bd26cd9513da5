package kit.player;

import java.util.List;

/** Bursts in which barriers trip, and what comes right behind a trip. */
final class TripBursts {
    static final List<BurstKind> KINDS = List.of(
        new BurstKind("trips", TripBursts::trips,
            "As many threads as parties, each back at once."),
        new BurstKind("barging", TripBursts::barging,
            "More threads than parties, so that each may come in the generation of others; now and then over many generations."),
        new BurstKind("a-crowd-at-a-barrier", TripBursts::crowd,
            "One trip of more threads than any round number of the small ones."),
        new BurstKind("released-and-then-broken", TripBursts::releasedAndBroken,
            "Who trips the barrier breaks the next generation at once."),
        new BurstKind("released-and-then-reset", TripBursts::releasedAndReset,
            "Who trips the barrier resets it at once."),
        new BurstKind("interrupt-behind-the-trip", TripBursts::interruptBehind,
            "Who trips the barrier interrupts the others at once."),
        new BurstKind("time-at-the-trip", TripBursts::timeAtTheTrip,
            "The barrier trips when the time of a wait is over."),
        new BurstKind("time-during-the-action", TripBursts::timeDuringTheAction,
            "The time of a waiter is over while the action runs."),
        new BurstKind("the-longest-time-at-a-barrier", TripBursts::longestTime,
            "A time so long that what is added to it overflows."));

    private TripBursts() {
    }

    private static BurstStep await(int barrier) {
        return BurstMaker.call(Method.AWAIT, barrier);
    }

    private static BurstStep awaitFor(int barrier, long nanoseconds) {
        return BurstMaker.timed(Method.AWAIT_FOR, barrier, 0, nanoseconds);
    }

    private static void others(BurstMaker make, int barrier, int count) {
        make.threads(count, () -> List.of(await(barrier)));
    }

    private static void trips(BurstMaker make) {
        int parties = make.between(2, BurstMaker.MOST_THREADS);
        int barrier = make.barrier(parties, make.of(40), 0, false);
        int often = make.between(1, 5);
        make.threads(parties, () -> BurstMaker.times(often, await(barrier)));
        make.claims(BurstClaim.TRIPS);
    }

    private static void barging(BurstMaker make) {
        int parties = make.between(2, 3);
        int barrier = make.barrier(parties, make.of(30), 0, false);
        int most = make.of(25) ? 12 : 3;
        make.threads(parties + make.between(1, 3), () -> BurstMaker.times(make.between(1, most), await(barrier)));
        make.closes(Request.of(Method.RESET, barrier));
    }

    private static void crowd(BurstMaker make) {
        int parties = make.between(BurstMaker.MOST_THREADS + 1, BurstMaker.CROWD);
        int barrier = make.barrier(parties, make.of(30), 0, false);
        others(make, barrier, parties);
        make.claims(BurstClaim.TRIPS);
    }

    private static void releasedAndBroken(BurstMaker make) {
        int parties = make.between(2, 4);
        int barrier = make.barrier(parties);
        others(make, barrier, parties - 1);
        make.thread(await(barrier).after(make.time(0, 1_000)), awaitFor(barrier, -make.between(0, 1)),
            BurstMaker.call(Method.IS_BROKEN, barrier));
    }

    private static void releasedAndReset(BurstMaker make) {
        int parties = make.between(2, 4);
        int barrier = make.barrier(parties);
        others(make, barrier, parties - 1);
        make.thread(await(barrier).after(make.time(0, 1_000)), BurstMaker.call(Method.RESET, barrier));
    }

    private static void interruptBehind(BurstMaker make) {
        int parties = make.between(2, 4);
        int barrier = make.barrier(parties, make.of(30), 0, false);
        others(make, barrier, parties - 1);
        int thread = make.thread(await(barrier).after(make.time(0, 1_000)));
        for (int other = 0; other < parties - 1; other++) {
            make.then(thread, BurstStep.interrupt(other));
        }
        make.then(thread, BurstMaker.call(Method.IS_BROKEN, barrier));
    }

    private static void timeAtTheTrip(BurstMaker make) {
        int parties = make.between(2, 3);
        int barrier = make.barrier(parties, make.of(30), 0, false);
        long time = make.time(1_000, 2_000);
        make.threads(parties - 1, () -> List.of(awaitFor(barrier, time)));
        make.thread(await(barrier).after(Math.max(time - make.time(-200, 600), 0)));
    }

    private static void timeDuringTheAction(BurstMaker make) {
        int parties = make.between(2, 3);
        long time = make.time(2_000, 4_000);
        int barrier = make.barrier(parties, true, time * 2, false);
        make.threads(parties - 1, () -> List.of(awaitFor(barrier, time)));
        make.thread(await(barrier));
    }

    private static void longestTime(BurstMaker make) {
        int barrier = make.barrier(2);
        make.thread(awaitFor(barrier, Long.MAX_VALUE - make.between(0, 1) * make.between(0, 1_000)));
        make.thread(await(barrier).after(make.time(300, 1_000)));
    }
}
