package kit.player;

import java.util.ArrayList;
import java.util.List;

/** Bursts in which more threads than parties come to a barrier, so that some wait until its action has ended. */
final class DoorBursts {
    static final List<BurstKind> KINDS = List.of(
        new BurstKind("comers-behind-an-action", DoorBursts::behind,
            "More threads than parties come while the action runs, and some look or reset."),
        new BurstKind("comers-at-an-action-that-fails", DoorBursts::failing,
            "More threads than parties come while an action runs that throws."),
        new BurstKind("interrupts-and-times-behind-an-action", DoorBursts::interruptsAndTimes,
            "Those who come while the action runs are interrupted, before or meanwhile, or their times are over."));

    private DoorBursts() {
    }

    private static BurstStep await(int barrier) {
        return BurstMaker.call(Method.AWAIT, barrier);
    }

    /** A barrier whose action takes as long as some calls; answers its number. */
    private static int barrier(BurstMaker make, int parties, boolean fails) {
        return make.barrier(parties, true, make.time(0, make.of(50) ? 200 : 3_000), fails);
    }

    /** More comers than parties, so often at most each; answers the number of their barrier. */
    static int comers(BurstMaker make, boolean fails, int often) {
        int parties = make.between(1, 3);
        int barrier = barrier(make, parties, fails);
        make.threads(parties + make.between(1, 3), () -> BurstMaker.times(make.between(1, often), await(barrier)));
        make.closes(Request.of(Method.RESET, barrier));
        return barrier;
    }

    private static void behind(BurstMaker make) {
        int barrier = comers(make, false, 3);
        if (make.of(50)) {
            Method method = make.any(List.of(Method.RESET, Method.IS_BROKEN, Method.GET_NUMBER_WAITING));
            make.thread(BurstMaker.times(make.between(1, 3), BurstMaker.call(method, barrier).after(make.time(0, 300))));
        }
    }

    private static void failing(BurstMaker make) {
        int barrier = comers(make, true, 2);
        if (make.of(50)) {
            make.thread(BurstMaker.call(Method.IS_BROKEN, barrier).after(make.time(0, 300)), BurstMaker.call(Method.RESET, barrier));
        }
    }

    private static void interruptsAndTimes(BurstMaker make) {
        int parties = make.between(1, 3);
        int barrier = barrier(make, parties, make.of(20));
        int comers = parties + make.between(1, 3);
        for (int comer = 0; comer < comers; comer++) {
            List<BurstStep> steps = new ArrayList<>();
            if (make.of(20)) {
                steps.add(BurstStep.interrupt(comer));
            }
            for (int often = make.between(1, 2); often > 0; often--) {
                steps.add(make.of(50) ? await(barrier) : BurstMaker.timed(Method.AWAIT_FOR, barrier, 0, make.time(0, 3_000)));
            }
            make.thread(steps);
        }
        int thread = make.thread(BurstStep.interrupt(make.between(0, comers - 1)).after(make.time(0, 2_000)));
        make.then(thread, BurstMaker.call(Method.IS_BROKEN, barrier));
        make.closes(Request.of(Method.RESET, barrier));
    }
}
