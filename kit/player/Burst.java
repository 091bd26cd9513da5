package kit.player;

import java.util.ArrayList;
import java.util.List;

/** What is played in one round: the objects, and the steps of each thread, which all run at once. */
record Burst(String kind, long seed, long round, List<Phaser> phasers, List<Barrier> barriers, List<List<BurstStep>> threads,
        Request closer, List<BurstStep> pokes, BurstClaim claim) {

    /**
     * Whose {@code onAdvance} makes the calls {@code inner} after {@code lasts} nanoseconds, and answers by {@code policy}; the
     * class's own is kept where the policy is DEFAULT.
     */
    record Phaser(int parent, int parties, Policy policy, long lasts, List<Request> inner) {
        boolean asks() {
            return policy.kind() != Policy.Kind.DEFAULT;
        }
    }

    /** {@code lasts} is how long the action runs, in nanoseconds, before its calls {@code inner}; {@code fails}: it throws. */
    record Barrier(int parties, boolean withAction, long lasts, boolean fails, List<Request> inner) {
    }

    /** The exception that a failing action throws. */
    static final int FAILURE = 77;

    /** The calls that the onAdvance or action makes there. */
    List<Request> inner(Entered where) {
        return where.ofPhaser() ? phasers.get(where.object()).inner() : barriers.get(where.object()).inner();
    }

    boolean forces() {
        return threads.stream().flatMap(List::stream)
            .anyMatch(step -> !step.interrupts() && step.request().method() == Method.FORCE_TERMINATION);
    }

    boolean hasInterrupts() {
        return threads.stream().flatMap(List::stream).anyMatch(BurstStep::interrupts);
    }

    int root(int phaser) {
        int parent = phasers.get(phaser).parent();
        return parent < 0 ? phaser : root(parent);
    }

    /** Whether it has a parent or children. */
    boolean isInTree(int phaser) {
        return phasers.get(phaser).parent() >= 0 || phasers.stream().anyMatch(other -> other.parent() == phaser);
    }

    /** A model of its objects, for its threads and the looker behind them. */
    Model model() {
        Model model = new Model(threads.size() + 1);
        phasers.forEach(phaser -> model.addPhaser(phaser.parent(), phaser.parties(), 0));
        barriers.forEach(barrier -> model.addBarrier(barrier.parties(), barrier.withAction()));
        return model;
    }

    /** The number of the looker in the model. */
    int looker() {
        return threads.size();
    }

    /** What is looked at when all threads are through. */
    List<Request> looks() {
        List<Request> looks = new ArrayList<>();
        for (int phaser = 0; phaser < phasers.size(); phaser++) {
            for (Method method : List.of(Method.GET_PHASE, Method.IS_TERMINATED, Method.GET_REGISTERED_PARTIES,
                    Method.GET_ARRIVED_PARTIES, Method.GET_UNARRIVED_PARTIES)) {
                looks.add(Request.of(method, phaser));
            }
        }
        for (int barrier = 0; barrier < barriers.size(); barrier++) {
            looks.add(Request.of(Method.IS_BROKEN, barrier));
            looks.add(Request.of(Method.GET_NUMBER_WAITING, barrier));
        }
        return looks;
    }
}
