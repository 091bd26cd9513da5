package kit.player;

import java.util.ArrayList;
import java.util.List;
import java.util.stream.IntStream;

/** Bursts in which the parties of one phaser meet, come, and leave. */
final class MeetingBursts {
    static final List<BurstKind> KINDS = List.of(
        new BurstKind("meetings", MeetingBursts::meetings,
            "All parties meet some times, each back at once."),
        new BurstKind("meetings-with-an-audience", MeetingBursts::audience,
            "The same before others, who await each phase."),
        new BurstKind("meetings-and-departures", MeetingBursts::departures,
            "Some meet more often than others, and each leaves at its end."),
        new BurstKind("meetings-until-the-last", MeetingBursts::untilTheLast,
            "A phaser terminates with a phase, while all go on to meet."),
        new BurstKind("registration-while-a-phase-ends", MeetingBursts::registration,
            "Others come and go again while the parties meet."),
        new BurstKind("bulk-registration-while-a-phase-ends", MeetingBursts::bulkRegistration,
            "Others come, several at once, and go again while one party ends phases."),
        new BurstKind("registration-at-an-empty-phaser", MeetingBursts::emptyRoot,
            "Threads come to a phaser without parties, and leave it empty."),
        new BurstKind("looks-at-a-phaser", MeetingBursts::manyLooks,
            "Looks at the counts while many come and go."),
        new BurstKind("arrivals-that-nobody-awaits", MeetingBursts::arrivals,
            "Threads arrive and go, some of them in the place of others, and one awaits the end."),
        new BurstKind("arrivals-one-after-the-other", MeetingBursts::manyArrivals,
            "Few parties, and more threads than these that arrive again and again: each may be the last of a phase."),
        new BurstKind("barging-at-a-phaser", MeetingBursts::barging,
            "More threads than parties meet, so that one may end a phase while another still wakes those of the phase before."),
        new BurstKind("arrivals-behind-a-look", MeetingBursts::arrivalsBehindALook,
            "Each thread looks at the phaser, and arrives: whoever has seen a phase begin isn't refused as in one that ends."),
        new BurstKind("waits-while-arrivals-barge", MeetingBursts::waitsWhileArrivalsBarge,
            "Threads that only arrive end phases, while others await some of them: two may wake waiters at once."),
        new BurstKind("two-who-release", MeetingBursts::twoWhoRelease,
            "Some await phase after phase, which two end and forced terminations cut short."));

    private static final int MANY = 24;

    private MeetingBursts() {
    }

    private static BurstStep meet(int phaser) {
        return BurstMaker.call(Method.ARRIVE_AND_AWAIT_ADVANCE, phaser);
    }

    private static List<BurstStep> comesAndGoes(int phaser, int often) {
        return BurstMaker.times(often, BurstMaker.call(Method.REGISTER, phaser),
            BurstMaker.call(Method.ARRIVE_AND_DEREGISTER, phaser));
    }

    /** Waits for one phase after the other. */
    private static List<BurstStep> awaits(int phaser, int phases) {
        return IntStream.range(0, phases)
            .mapToObj(phase -> BurstMaker.call(Method.AWAIT_ADVANCE, phaser, phase)).toList();
    }

    private static void meetings(BurstMaker make) {
        int parties = make.between(2, BurstMaker.MOST_THREADS);
        int phaser = make.root(parties, make.policy());
        int often = make.between(1, 4);
        make.threads(parties, () -> BurstMaker.times(often, meet(phaser)));
        make.claims(BurstClaim.MEETS);
    }

    private static void audience(BurstMaker make) {
        int parties = make.between(1, 3);
        int phaser = make.root(parties, make.policy());
        int often = make.between(2, 4);
        make.threads(parties, () -> BurstMaker.times(often, meet(phaser)));
        for (int other = make.between(1, 3); other > 0; other--) {
            List<BurstStep> steps = new ArrayList<>();
            for (int phase = 0; phase < often; phase++) {
                Method method = make.any(List.of(Method.AWAIT_ADVANCE, Method.AWAIT_ADVANCE_INTERRUPTIBLY));
                steps.add(BurstMaker.call(method, phaser, phase));
            }
            make.thread(steps);
        }
        make.claims(BurstClaim.MEETS);
    }

    private static void departures(BurstMaker make) {
        int parties = make.between(2, 6);
        int phaser = make.root(parties, make.policy());
        for (int party = 0; party < parties; party++) {
            List<BurstStep> steps = new ArrayList<>(BurstMaker.times(make.between(0, 3), meet(phaser)));
            steps.add(BurstMaker.call(Method.ARRIVE_AND_DEREGISTER, phaser));
            if (make.of(30)) {
                steps.add(BurstMaker.call(Method.GET_PHASE, phaser));
            }
            make.thread(steps);
        }
    }

    /** A phaser that terminates with a phase, while all go on to meet. */
    private static void untilTheLast(BurstMaker make) {
        int parties = make.between(2, 5);
        int last = make.between(0, 2);
        int phaser = make.root(parties, new Policy(Policy.Kind.UNTIL, last));
        for (int party = 0; party < parties; party++) {
            List<BurstStep> steps = new ArrayList<>(BurstMaker.times(last + make.between(1, 2), meet(phaser)));
            steps.add(BurstMaker.call(Method.IS_TERMINATED, phaser));
            make.thread(steps);
        }
        make.thread(BurstMaker.call(Method.AWAIT_ADVANCE, phaser, last));
    }

    private static void registration(BurstMaker make) {
        int parties = make.between(1, 3);
        int phaser = make.root(parties, BurstMaker.NEVER);
        make.threads(parties, () -> List.of(meet(phaser)));
        make.threads(make.between(1, 4), () -> comesAndGoes(phaser, make.between(1, 2)));
        looks(make, phaser);
    }

    private static void emptyRoot(BurstMaker make) {
        int phaser = make.root(0, make.of(80) ? BurstMaker.NEVER : Policy.DEFAULT);
        for (int other = make.between(2, 4); other > 0; other--) {
            List<BurstStep> steps = new ArrayList<>();
            for (int often = make.between(1, 4); often > 0; often--) {
                steps.add(BurstMaker.call(Method.REGISTER, phaser));
                if (make.of(30)) {
                    steps.add(BurstMaker.call(Method.GET_REGISTERED_PARTIES, phaser));
                }
                Method leaves = make.of(90) ? Method.ARRIVE_AND_DEREGISTER : Method.ARRIVE_AND_AWAIT_ADVANCE;
                steps.add(BurstMaker.call(leaves, phaser));
            }
            make.thread(steps);
        }
        make.closes(Request.of(Method.FORCE_TERMINATION, phaser));
    }

    private static void manyLooks(BurstMaker make) {
        int phaser = make.root(1);
        make.threads(make.between(2, 4), () -> comesAndGoes(phaser, make.between(1, 3)));
        for (int looker = make.between(1, 3); looker > 0; looker--) {
            Method getter = make.any(List.of(Method.GET_ARRIVED_PARTIES, Method.GET_UNARRIVED_PARTIES));
            make.thread(BurstMaker.times(make.between(2, 5), BurstMaker.call(getter, phaser)));
        }
    }

    private static void bulkRegistration(BurstMaker make) {
        int phaser = make.root(1, BurstMaker.NEVER);
        make.thread(BurstMaker.times(make.between(1, 6), BurstMaker.call(Method.ARRIVE, phaser)));
        for (int other = make.between(1, 3); other > 0; other--) {
            int count = make.between(0, 2);
            List<BurstStep> steps = new ArrayList<>();
            steps.add(BurstMaker.call(Method.BULK_REGISTER, phaser, count));
            steps.addAll(BurstMaker.times(count, BurstMaker.call(Method.ARRIVE_AND_DEREGISTER, phaser)));
            make.thread(steps);
        }
        looks(make, phaser);
    }

    /** Threads that arrive and go, some of them in the place of others, and who awaits the end. */
    private static void arrivals(BurstMaker make) {
        int parties = make.between(2, 5);
        int phaser = make.root(parties, make.policy());
        make.threads(parties, () -> BurstMaker.times(make.of(10) ? 2 : 1, BurstMaker.call(Method.ARRIVE, phaser)));
        make.thread(BurstMaker.call(Method.AWAIT_ADVANCE, phaser, 0));
        looks(make, phaser);
    }

    private static void manyArrivals(BurstMaker make) {
        int phaser = make.root(make.between(1, 2));
        make.threads(make.between(2, 4),
            () -> BurstMaker.times(make.between(4, MANY), BurstMaker.call(Method.ARRIVE, phaser)));
    }

    private static void barging(BurstMaker make) {
        int parties = make.between(1, 3);
        int phaser = make.root(parties, make.policy());
        int most = make.of(50) ? 8 : 3;
        make.threads(parties + make.between(1, 4), () -> BurstMaker.times(make.between(1, most), meet(phaser)));
        make.closes(Request.of(Method.FORCE_TERMINATION, phaser));
    }

    private static void arrivalsBehindALook(BurstMaker make) {
        int phaser = make.root(make.between(1, 2));
        for (int thread = make.between(2, 4); thread > 0; thread--) {
            List<BurstStep> steps = new ArrayList<>();
            for (int often = make.between(3, 10); often > 0; often--) {
                Method look = make.of(70) ? Method.GET_PHASE : Method.GET_UNARRIVED_PARTIES;
                steps.add(BurstMaker.call(look, phaser));
                steps.add(BurstMaker.call(Method.ARRIVE, phaser));
            }
            make.thread(steps);
        }
    }

    /**
     * In a meeting two can't wake at once: who ends a phase is a party of the next, and wakes before it arrives there.
     * Here an arrival is refused while another ends a phase, so that no more than two phases need end: more arrivals
     * come where others are awaited.
     */
    private static void waitsWhileArrivalsBarge(BurstMaker make) {
        int phaser = make.root(1);
        make.threads(make.between(2, 3),
            () -> BurstMaker.times(make.between(2, 6), BurstMaker.call(Method.ARRIVE, phaser)));
        int phases = make.between(2, 4);
        if (phases > 2) {
            make.closes(Request.of(Method.ARRIVE, phaser));
        }
        make.threads(make.between(2, 4), () -> awaits(phaser, phases));
    }

    /**
     * Two arrive at the same moments, again and again, so that both release: others have come back to wait by then.
     */
    private static void twoWhoRelease(BurstMaker make) {
        int phaser = make.root(1, BurstMaker.NEVER);
        int often = make.between(2, 6);
        long pause = make.time(50, 500);
        make.threads(2, () -> BurstMaker.times(often, BurstMaker.call(Method.ARRIVE, phaser).after(pause)));
        make.threads(make.between(2, 5), () -> awaits(phaser, often + 1));
        make.closes(Request.of(Method.FORCE_TERMINATION, phaser));
    }

    private static void looks(BurstMaker make, int phaser) {
        List<Method> getters = List.of(Method.GET_PHASE, Method.GET_REGISTERED_PARTIES, Method.GET_ARRIVED_PARTIES,
            Method.GET_UNARRIVED_PARTIES, Method.IS_TERMINATED);
        List<BurstStep> steps = new ArrayList<>();
        for (int look = make.between(2, 8); look > 0; look--) {
            steps.add(BurstMaker.call(make.any(getters), phaser));
        }
        make.thread(steps);
    }
}
