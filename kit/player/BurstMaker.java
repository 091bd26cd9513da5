package kit.player;

import java.util.ArrayList;
import java.util.Collections;
import java.util.List;
import java.util.function.Supplier;

/** Puts a burst together: its objects, and the steps of its threads. */
final class BurstMaker {
    /** At most so many threads run at once. */
    static final int MOST_THREADS = 8;
    /** But for a crowd, of so many at most. */
    static final int CROWD = 40;

    static final Policy NEVER = new Policy(Policy.Kind.NEVER, 0);

    private final String kind;
    private final long seed;
    private final long round;
    private final long unit;
    private final Chances chances;
    private final List<Burst.Phaser> phasers = new ArrayList<>();
    private final List<Burst.Barrier> barriers = new ArrayList<>();
    private final List<List<BurstStep>> threads = new ArrayList<>();
    private final List<BurstStep> pokes = new ArrayList<>();
    private Request closer;
    private BurstClaim claim = BurstClaim.NONE;

    /** {@code unit} is about how long a few calls of the real side take, in nanoseconds: delays and times are some units. */
    BurstMaker(String kind, long seed, long round, long unit) {
        this.kind = kind;
        this.seed = seed;
        this.round = round;
        this.unit = unit;
        chances = new Chances(seed * 1_000_003 + round);
    }

    Burst burst() {
        return new Burst(kind, seed, round, phasers, barriers, threads, closer, pokes, claim);
    }

    // ---- what is drawn

    int between(int low, int high) {
        return chances.between(low, high);
    }

    boolean of(int percent) {
        return chances.of(percent);
    }

    <T> T any(List<T> list) {
        return chances.any(list);
    }

    /** A time between so many hundredths of a unit. */
    long time(int low, int high) {
        return unit * between(low, high) / 100;
    }

    /** The class's own, or one that never terminates. */
    Policy policy() {
        return of(50) ? Policy.DEFAULT : NEVER;
    }

    // ---- objects

    int root(int parties) {
        return phaser(-1, parties, Policy.DEFAULT);
    }

    int root(int parties, Policy policy) {
        return phaser(-1, parties, policy);
    }

    int phaser(int parent, int parties, Policy policy) {
        long lasts = of(50) ? 0 : time(0, of(50) ? 200 : 3_000);
        phasers.add(new Burst.Phaser(parent, parties, policy, lasts, List.of()));
        return phasers.size() - 1;
    }

    int partiesOf(int phaser) {
        return phasers.get(phaser).parties();
    }

    int barrier(int parties) {
        return barrier(parties, false, 0, false);
    }

    int barrier(int parties, boolean withAction, long lasts, boolean fails) {
        barriers.add(new Burst.Barrier(parties, withAction, lasts, fails, List.of()));
        return barriers.size() - 1;
    }

    /** The {@code onAdvance} of a phaser, which isn't the class's own, calls this phaser. */
    void insideOnAdvance(int phaser, List<Method> methods) {
        Burst.Phaser it = phasers.get(phaser);
        phasers.set(phaser, new Burst.Phaser(it.parent(), it.parties(), it.policy(), it.lasts(), requests(methods, phaser)));
    }

    /** The action of a barrier calls this barrier. */
    void insideAction(int barrier, List<Method> methods) {
        Burst.Barrier it = barriers.get(barrier);
        barriers.set(barrier,
            new Burst.Barrier(it.parties(), it.withAction(), it.lasts(), it.fails(), requests(methods, barrier)));
    }

    private static List<Request> requests(List<Method> methods, int object) {
        return methods.stream().map(method -> Request.of(method, object)).toList();
    }

    // ---- steps

    /** Answers the thread's number. */
    int thread(List<BurstStep> steps) {
        threads.add(new ArrayList<>(steps));
        return threads.size() - 1;
    }

    int thread(BurstStep... steps) {
        return thread(List.of(steps));
    }

    /** So many threads: the steps of each are drawn anew. */
    void threads(int count, Supplier<List<BurstStep>> steps) {
        for (int each = 0; each < count; each++) {
            thread(steps.get());
        }
    }

    /** One more step at the end of a thread. */
    void then(int thread, BurstStep step) {
        threads.get(thread).add(step);
    }

    /** One more step at the beginning of a thread. */
    void first(int thread, BurstStep step) {
        threads.get(thread).add(0, step);
    }

    static BurstStep call(Method method, int object) {
        return BurstStep.call(Request.of(method, object));
    }

    static BurstStep call(Method method, int object, int number) {
        return BurstStep.call(new Request(method, object, number, 0));
    }

    static BurstStep timed(Method method, int object, int number, long nanoseconds) {
        return BurstStep.call(new Request(method, object, number, nanoseconds));
    }

    /** The same steps so often. */
    static List<BurstStep> times(int count, BurstStep... steps) {
        return Collections.nCopies(count, List.of(steps)).stream().flatMap(List::stream).toList();
    }

    // ---- the rest

    /** A thread for each of so many, that interrupts it once. */
    void interruptsEach(int count) {
        for (int target = 0; target < count; target++) {
            thread(BurstStep.interrupt(target).after(time(0, 20)));
        }
    }

    /** The looker makes this call now and then as long as somebody waits. */
    void closes(Request request) {
        closer = request;
    }

    /**
     * The looker makes these calls over and over as long as somebody runs; they change nothing in the end. A wait among them is
     * another thread's, and an interrupt ends it.
     */
    void pokes(BurstStep step) {
        pokes.add(step);
    }

    void claims(BurstClaim what) {
        claim = what;
    }
}
