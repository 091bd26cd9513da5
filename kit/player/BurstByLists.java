package kit.player;

import java.util.ArrayDeque;
import java.util.ArrayList;
import java.util.Deque;
import java.util.HashMap;
import java.util.List;
import java.util.Map;
import java.util.concurrent.BlockingQueue;
import java.util.concurrent.LinkedBlockingQueue;

/**
 * One burst on a real side that takes lists: each thread is given its steps, all begin at one {@code go}, and tell when each
 * step began and ended by a clock of their own. No trip through a pipe lies between two steps.
 */
final class BurstByLists {
    /** A step that a thread was given, by its number. */
    private record Given(int number, BurstStep step) {
    }

    private final Burst burst;
    private final Stage stage;
    final BurstHistory history;
    final BlockingQueue<PortLine> told = new LinkedBlockingQueue<>();
    private final List<String> lines = new ArrayList<>();
    /** What each thread was given and hasn't made yet. */
    private final Map<Integer, Deque<Given>> given = new HashMap<>();
    /** What each thread has entered in its present call. */
    private final Map<Integer, List<PortLine>> entered = new HashMap<>();
    /** What each onAdvance and action calls, by its number. */
    private final Map<Integer, Request> inner = new HashMap<>();
    /** When the last step of each thread ended. */
    private final Map<Integer, Long> ended = new HashMap<>();
    private int numbers;
    private long went;
    private int running;

    BurstByLists(Burst burst, Stage stage) {
        this.burst = burst;
        this.stage = stage;
        history = new BurstHistory(burst, true);
    }

    /** How many threads have a list that hasn't ended. */
    int running() {
        return running;
    }

    boolean isRunning(int thread) {
        return given.containsKey(thread);
    }

    /** All threads get their steps, and what an onAdvance or an action does without asking, and begin. */
    void start() {
        stage.prepareForLists(burst.threads().size());
        for (int number = 0; number < burst.phasers().size(); number++) {
            Burst.Phaser phaser = burst.phasers().get(number);
            if (phaser.asks()) {
                boolean never = phaser.policy().kind() == Policy.Kind.NEVER;
                tellInner("phaser " + number, phaser.inner());
                lines.add("advance " + number + " " + phaser.lasts() + " " + (never ? -1 : phaser.policy().argument()));
            }
        }
        for (int number = 0; number < burst.barriers().size(); number++) {
            Burst.Barrier barrier = burst.barriers().get(number);
            if (barrier.withAction()) {
                tellInner("barrier " + number, barrier.inner());
                lines.add("action " + number + " " + barrier.lasts() + " " + (barrier.fails() ? Burst.FAILURE : 0));
            }
        }
        for (int thread = 0; thread < burst.threads().size(); thread++) {
            give(thread, burst.threads().get(thread));
        }
        went = System.nanoTime();
        go();
    }

    private void tellInner(String where, List<Request> requests) {
        for (Request request : requests) {
            inner.put(++numbers, request);
            stage.tellInner("inside " + where + " " + numbers + " " + request.words());
        }
    }

    /** The looker makes this call at once. */
    void close() {
        give(burst.looker(), List.of(BurstStep.call(burst.closer())));
        go();
    }

    /** The looks when all is quiet, and each thread's own of its interrupted status. */
    void look() {
        give(burst.looker(), burst.looks().stream().map(BurstStep::call).toList());
        for (int thread = 0; burst.hasInterrupts() && thread < burst.looker(); thread++) {
            give(thread, List.of(BurstStep.call(Request.of(Method.INTERRUPTED, 0))));
        }
        go();
    }

    private void give(int thread, List<BurstStep> steps) {
        Deque<Given> list = new ArrayDeque<>();
        for (BurstStep step : steps) {
            list.add(new Given(++numbers, step));
            lines.add("list " + name(thread) + " " + numbers + " " + step.delay() + " "
                + (step.interrupts() ? "interrupt " + step.target() : step.request().words()));
        }
        given.put(thread, list);
        running++;
    }

    private void go() {
        lines.add("go");
        stage.tellLists(lines, told);
        lines.clear();
    }

    /** The number of a thread in the protocol. */
    private int name(int thread) {
        return thread == burst.looker() ? Stage.LOOKER : thread;
    }

    /** The port has told this. */
    void take(PortLine said) {
        int thread = said.thread() == Stage.LOOKER ? burst.looker() : said.thread();
        Deque<Given> list = given.get(thread);
        if (list == null) {
            throw said.fault("thread " + said.thread() + " has no list");
        }
        switch (said.kind()) {
            case ENTERS_ROUTINE, ENTERS_ACTION -> entered.computeIfAbsent(thread, fresh -> new ArrayList<>()).add(said);
            case END -> {
                if (!list.isEmpty()) {
                    throw said.fault("call " + list.peek().number() + " of its list is missing");
                }
                given.remove(thread);
                running--;
            }
            default -> {
                BurstLine line = BurstLine.of(said);
                if (inner.containsKey((int) line.number())) {
                    callInside(thread, line);
                } else {
                    step(thread, list, line);
                }
            }
        }
    }

    /** Nothing more comes: somebody is inside a call, or, where nobody is, a list doesn't end. */
    void takeSoFar() {
        told.forEach(this::take);
        if (!history.hasOpen() && !given.isEmpty()) {
            throw new Hangs("thread " + name(given.keySet().iterator().next()) + " is in no call, and doesn't end its list");
        }
    }

    /** By the port's clock: that of this JVM may be another, but both began with the first call. */
    long now() {
        long first = history.entries().stream().mapToLong(entry -> entry.beganAt).min().orElse(0);
        return first + System.nanoTime() - went;
    }

    /** A call from inside what its thread has entered in its present call. */
    private void callInside(int thread, BurstLine line) {
        List<PortLine> where = entered.getOrDefault(thread, List.of());
        if (where.isEmpty() || !line.hasEnded()) {
            throw line.fault("that is a call inside an onAdvance or an action, and comes behind `enter`");
        }
        Request request = inner.get((int) line.number());
        history.add(new InnerCall(thread, entered(where.get(where.size() - 1)), request, line.answer(request.method())));
    }

    private static Entered entered(PortLine where) {
        return where.kind() == PortLine.Kind.ENTERS_ROUTINE
            ? Entered.onAdvance(where.number(0), where.number(1), where.number(2)) : Entered.action(where.number(0));
    }

    private void step(int thread, Deque<Given> list, BurstLine line) {
        Given next = list.poll();
        if (next == null || next.number() != line.number()) {
            throw line.fault("that isn't the next of its list");
        }
        if (line.begin() < ended.getOrDefault(thread, Long.MIN_VALUE) || line.end() < line.begin()) {
            throw line.fault("its times go back");
        }
        BurstEntry entry = new BurstEntry(thread, next.step(), line.begin(), line.begin());
        history.add(entry);
        for (PortLine where : entered.getOrDefault(thread, List.of())) {
            enter(entry, where);
        }
        entered.remove(thread);
        if (line.hasEnded()) {
            ended.put(thread, line.end());
            entry.finish(next.step().interrupts() ? Answer.NOTHING : line.answer(next.step().request().method()),
                line.end(), line.end());
        }
    }

    private void enter(BurstEntry entry, PortLine where) {
        if (where.kind() == PortLine.Kind.ENTERS_ROUTINE) {
            history.asks(entered(where), entry);
        } else {
            entry.enters(entered(where));
        }
    }
}
