package kit.player;

import java.util.List;

/** Bursts about the end of one phase: who waits for it, how long, and what else comes at that moment. */
final class PhaseBursts {
    static final List<BurstKind> KINDS = List.of(
        new BurstKind("wait-against-the-end", PhaseBursts::waitAgainstTheEnd,
            "Some begin to wait for a phase at the moment at which it ends."),
        new BurstKind("phases-that-end-at-once", PhaseBursts::phasesAtOnce,
            "Some wait for a phase, and phases end one behind the other."),
        new BurstKind("interrupt-behind-the-advance", PhaseBursts::interruptBehind,
            "Who ends the phase interrupts the waiters at once."),
        new BurstKind("an-interrupt-alone", PhaseBursts::interruptAlone,
            "Waits that only an interrupt ends, which comes when they begin."),
        new BurstKind("interrupts-among-waiters", PhaseBursts::interruptsAmong,
            "Interrupts at any moment of waits that hear them, and of waits that don't."),
        new BurstKind("time-at-the-advance", PhaseBursts::timeAtTheAdvance,
            "The phase ends when the time of a wait does."),
        new BurstKind("time-that-runs-out", PhaseBursts::timeThatRunsOut,
            "A time of less than a millisecond is over, and the phaser is as it was."),
        new BurstKind("time-among-pokes", PhaseBursts::timeAmongPokes,
            "A time is over although others come and go all the while, or are interrupted in their waits."),
        new BurstKind("the-longest-time", PhaseBursts::longestTime,
            "A time so long that what is added to it overflows."),
        new BurstKind("a-crowd-at-a-phase", PhaseBursts::crowd,
            "More waiters than any round number of the small ones."),
        new BurstKind("force-among-waiters", PhaseBursts::forceAmong,
            "A forced termination while some meet and some wait."),
        new BurstKind("force-against-the-end", PhaseBursts::forceAgainstTheEnd,
            "A phase ends, somebody registers, and a forced termination comes in between."),
        new BurstKind("force-among-arrivals", PhaseBursts::forceAmongArrivals,
            "Phases end one behind the other, others look at their numbers, and a forced termination comes at some moment."));

    private static final int MANY = 40;
    private static final long DAY = 86_400_000_000_000L;

    private PhaseBursts() {
    }

    private static BurstStep arrive(int phaser) {
        return BurstMaker.call(Method.ARRIVE, phaser);
    }

    /** A wait for phase 0, of any kind; a timed one has a day. */
    private static BurstStep anyWait(BurstMaker make, int phaser) {
        return switch (make.between(0, 2)) {
            case 0 -> BurstMaker.call(Method.AWAIT_ADVANCE, phaser, 0);
            case 1 -> BurstMaker.call(Method.AWAIT_ADVANCE_INTERRUPTIBLY, phaser, 0);
            default -> BurstMaker.timed(Method.AWAIT_ADVANCE_FOR, phaser, 0, DAY);
        };
    }

    private static BurstStep interruptibleWait(BurstMaker make, int phaser) {
        Method method = make.of(50) ? Method.AWAIT_ADVANCE_INTERRUPTIBLY : Method.AWAIT_ADVANCE_FOR;
        return BurstMaker.timed(method, phaser, 0, DAY);
    }

    private static void waitAgainstTheEnd(BurstMaker make) {
        int phaser = make.root(1, make.policy());
        make.threads(make.between(1, 3), () -> List.of(anyWait(make, phaser)));
        make.thread(arrive(phaser).after(make.time(0, 3)));
    }

    private static void phasesAtOnce(BurstMaker make) {
        int phaser = make.root(1, make.policy());
        make.threads(make.between(1, 4), () -> List.of(anyWait(make, phaser)));
        int thread = make.thread(BurstMaker.times(make.between(1, 4), arrive(phaser)));
        make.then(thread, BurstMaker.call(Method.GET_PHASE, phaser));
        delayFirst(make, thread, phaser);
    }

    /** The waiters are in their waits, mostly, when the phases end. */
    private static void delayFirst(BurstMaker make, int thread, int phaser) {
        if (make.of(70)) {
            make.first(thread, arrive(phaser).after(make.time(0, 1_000)));
        }
    }

    private static void interruptBehind(BurstMaker make) {
        int phaser = make.root(1, make.policy());
        int waiters = make.between(1, 3);
        make.threads(waiters, () -> List.of(interruptibleWait(make, phaser)));
        int thread = make.thread(arrive(phaser).after(make.time(100, 1_000)));
        for (int waiter = 0; waiter < waiters; waiter++) {
            make.then(thread, BurstStep.interrupt(waiter));
        }
    }

    private static void interruptAlone(BurstMaker make) {
        int phaser = make.root(1);
        int waiters = make.between(1, 2);
        make.threads(waiters, () -> List.of(interruptibleWait(make, phaser)));
        make.interruptsEach(waiters);
    }

    private static void interruptsAmong(BurstMaker make) {
        int parties = make.between(1, 2);
        int phaser = make.root(parties, make.policy());
        int waiters = make.between(1, 3);
        make.threads(waiters, () -> List.of(anyWait(make, phaser), BurstMaker.call(Method.IS_INTERRUPTED, 0)));
        make.threads(parties,
            () -> List.of(BurstMaker.call(Method.ARRIVE_AND_AWAIT_ADVANCE, phaser).after(make.time(0, 500))));
        int thread = make.thread(BurstStep.interrupt(make.between(0, waiters + parties - 1)).after(make.time(0, 500)));
        for (int more = make.between(0, 2); more > 0; more--) {
            make.then(thread, BurstStep.interrupt(make.between(0, waiters + parties - 1)));
        }
    }

    private static void timeAtTheAdvance(BurstMaker make) {
        int phaser = make.root(1, make.policy());
        long time = make.time(1_000, 2_000);
        make.threads(make.between(1, 2), () -> List.of(BurstMaker.timed(Method.AWAIT_ADVANCE_FOR, phaser, 0, time)));
        make.thread(arrive(phaser).after(Math.max(time - make.time(-200, 600), 0)));
    }

    private static void timeThatRunsOut(BurstMaker make) {
        int phaser = make.root(2);
        make.threads(make.between(1, 3),
            () -> List.of(BurstMaker.timed(Method.AWAIT_ADVANCE_FOR, phaser, 0, make.between(1, 900) * 1_000L)));
        make.thread(arrive(phaser), BurstMaker.call(Method.GET_UNARRIVED_PARTIES, phaser));
    }

    /**
     * A time is over although others come and go all the while, or are interrupted. Now and then it is a long one, since on a
     * busy machine they make longer breaks.
     */
    private static void timeAmongPokes(BurstMaker make) {
        int phaser = make.root(1);
        long time = make.time(20_000, 30_000) * (make.of(25) ? 10 : 1);
        make.thread(BurstMaker.timed(Method.AWAIT_ADVANCE_FOR, phaser, 0, time));
        if (make.of(50)) {
            make.pokes(BurstMaker.call(Method.AWAIT_ADVANCE_INTERRUPTIBLY, phaser));
            return;
        }
        make.pokes(BurstMaker.call(Method.REGISTER, phaser));
        make.pokes(BurstMaker.call(Method.ARRIVE_AND_DEREGISTER, phaser));
    }

    private static void longestTime(BurstMaker make) {
        int phaser = make.root(1);
        long time = Long.MAX_VALUE - make.between(0, 1) * make.between(0, 1_000);
        make.thread(BurstMaker.timed(Method.AWAIT_ADVANCE_FOR, phaser, 0, time));
        make.thread(arrive(phaser).after(make.time(300, 1_000)));
    }

    private static void crowd(BurstMaker make) {
        int phaser = make.root(1, make.policy());
        make.threads(make.between(BurstMaker.MOST_THREADS + 1, BurstMaker.CROWD),
            () -> List.of(anyWait(make, phaser)));
        make.thread(arrive(phaser).after(make.time(0, 3_000)));
    }

    private static void forceAmong(BurstMaker make) {
        int parties = make.between(2, 4);
        int phaser = make.root(parties, make.policy());
        make.threads(make.between(1, parties),
            () -> List.of(BurstMaker.call(Method.ARRIVE_AND_AWAIT_ADVANCE, phaser)));
        make.threads(make.between(0, 2), () -> List.of(anyWait(make, phaser)));
        int thread = make.thread(BurstMaker.call(Method.FORCE_TERMINATION, phaser).after(make.time(0, 200)));
        make.then(thread, BurstMaker.call(make.any(List.of(Method.GET_PHASE, Method.ARRIVE, Method.REGISTER)), phaser));
    }

    private static void forceAmongArrivals(BurstMaker make) {
        int phaser = make.root(1);
        make.threads(make.between(1, 2), () -> BurstMaker.times(make.between(MANY / 2, MANY), arrive(phaser)));
        make.threads(make.between(1, 2),
            () -> BurstMaker.times(make.between(MANY / 2, MANY), BurstMaker.call(Method.GET_PHASE, phaser)));
        make.thread(BurstMaker.call(Method.FORCE_TERMINATION, phaser).after(make.time(0, 40)),
            BurstMaker.call(Method.GET_PHASE, phaser));
    }

    private static void forceAgainstTheEnd(BurstMaker make) {
        int phaser = make.root(1, BurstMaker.NEVER);
        make.thread(BurstMaker.times(make.between(1, 3), arrive(phaser)));
        make.thread(BurstMaker.call(Method.FORCE_TERMINATION, phaser), BurstMaker.call(Method.GET_PHASE, phaser));
        make.thread(anyWait(make, phaser));
        if (make.of(50)) {
            make.thread(BurstMaker.call(Method.REGISTER, phaser), BurstMaker.call(Method.GET_PHASE, phaser));
        }
    }
}
