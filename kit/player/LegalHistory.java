package kit.player;

import java.util.ArrayList;
import java.util.Comparator;
import java.util.HashMap;
import java.util.HashSet;
import java.util.List;
import java.util.Map;
import java.util.Set;

/**
 * Looks for one order of all calls of a burst that explains their answers: it keeps each thread's order, puts no call before
 * one that had ended before it began, and gives each call the answer of the model. A search that tries what can come next
 * and remembers where it has been (after Wing and Gong, and Lowe).
 */
final class LegalHistory {
    /** A time that isn't over before a burst is, in nanoseconds. */
    private static final long LONG = 3_600_000_000_000L;
    /** Until all has ended that has an answer. */
    static final long ALL = Long.MAX_VALUE - 1;
    /** A search through so many calls needs no stack of its own. */
    private static final int FEW = 200;

    private final BurstHistory history;
    private final List<List<BurstEntry>> lines;
    /**
     * Whether an interrupt may win over the end of a phase that came before it: who waits for a phase looks at the phase and
     * then at its status, and between these two looks both may come.
     */
    private final boolean twoLooks;
    /** What ended later than this is taken to be still open: any answer will do, or none. */
    private final long until;
    private final Freedom freedom;
    private boolean isLate;
    private final Set<List<Integer>> seen = new HashSet<>();
    private final List<BurstEntry> order = new ArrayList<>();
    /** What those answer here that may answer anything. */
    private final Map<BurstEntry, Answer> freeAnswers = new HashMap<>();

    /**
     * What isn't judged: calls of {@code answers} and of {@code calls} may answer anything, and the latter may as well not have
     * been made. {@code waiting}: whoever else has no answer has to wait in the end, and mustn't be released. The search ends at
     * the time {@code limit} of {@code nanoTime}.
     */
    record Freedom(Set<BurstEntry> answers, Set<BurstEntry> calls, boolean waiting, long limit) {
        static final Freedom NONE = new Freedom(Set.of(), Set.of(), false, Long.MAX_VALUE);

        boolean ofAnswer(BurstEntry entry) {
            return answers.contains(entry) || calls.contains(entry);
        }
    }

    /** What a search comes to; UNKNOWN where it had no more time. */
    enum Outcome { ORDER, NO_ORDER, UNKNOWN }

    private LegalHistory(BurstHistory history, boolean twoLooks, long until, Freedom freedom) {
        this.history = history;
        this.twoLooks = twoLooks;
        this.until = until;
        this.freedom = freedom;
        lines = history.lines();
        lines.sort(Comparator.comparingLong(line -> line.get(0).end()));
    }

    /** Whether there is such an order. */
    static boolean explains(BurstHistory history, boolean twoLooks) {
        return new LegalHistory(history, twoLooks, ALL, Freedom.NONE).explains();
    }

    /** Whether there is an order where not all is judged, of what ended until then. */
    static Outcome outcome(BurstHistory history, long until, Freedom freedom) {
        return new LegalHistory(history, true, until, freedom).outcome();
    }

    private Outcome outcome() {
        return explains() ? Outcome.ORDER : isEndedEarly() ? Outcome.UNKNOWN : Outcome.NO_ORDER;
    }

    /** The answer of this call in an order where it alone isn't judged. */
    static Other otherAnswer(BurstHistory history, BurstEntry entry, long limit) {
        LegalHistory search = new LegalHistory(history, true, ALL, new Freedom(Set.of(entry), Set.of(), false, limit));
        return new Other(search.outcome(), search.freeAnswers.get(entry));
    }

    /** Whether one other answer would do, and which. */
    record Other(Outcome outcome, Answer answer) {
    }

    private boolean isEndedEarly() {
        isLate |= freedom.limit() != Long.MAX_VALUE && System.nanoTime() > freedom.limit();
        return isLate;
    }

    /** The first answer, in the order in which they came, that no order explains; null where one explains all. */
    static BurstEntry firstUnexplained(BurstHistory history) {
        List<BurstEntry> answered = history.entries().stream().filter(entry -> !entry.isOpen())
            .sorted(Comparator.comparingLong(BurstEntry::end)).toList();
        int explained = 0;
        int least = answered.size();
        while (explained < least) {
            int middle = (explained + least) / 2;
            if (new LegalHistory(history, true, answered.get(middle).end(), Freedom.NONE).explains()) {
                explained = middle + 1;
            } else {
                least = middle;
            }
        }
        return least < answered.size() ? answered.get(least) : null;
    }

    /** An order of what ended before this entry did, the last first, with what has to come between. */
    static List<BurstEntry> orderBefore(BurstHistory history, BurstEntry entry) {
        LegalHistory before = new LegalHistory(history, true, entry.end() - 1, Freedom.NONE);
        before.explains();
        return before.order;
    }

    private boolean explains() {
        HistoryPoint begin = new HistoryPoint(history.burst.model(), lines.size());
        return history.entries().size() <= FEW ? goesOn(begin) : DeepStack.ask(() -> goesOn(begin));
    }

    private boolean goesOn(HistoryPoint at) {
        if (isThrough(at)) {
            return true;
        }
        if (isEndedEarly() || !seen.add(at.key())) {
            return false;
        }
        int[] lineOrder = at.byEnd(lines);
        for (int line : lineOrder) {
            HistoryPoint next = silent(at, line);
            if (next != null) {
                return steps(next, at.present(lines, line));
            }
        }
        for (int line : lineOrder) {
            BurstEntry entry = at.present(lines, line);
            if (at.hasBegun(line) ? ends(at, line, entry) : isNotMade(at, line, entry) || begins(at, line, entry)) {
                return true;
            }
        }
        return false;
    }

    /**
     * The point behind a step with the right answer that changes nothing for others, a look or the end of a released wait; null
     * where there is none. Such a step is taken as soon as it can be: whatever order there is, there is one with it here.
     */
    private HistoryPoint silent(HistoryPoint at, int line) {
        BurstEntry entry = at.present(lines, line);
        if (entry.step.interrupts() || isOpen(entry) || freedom.ofAnswer(entry)) {
            return null;
        }
        if (at.hasBegun(line)) {
            return at.model.inside(entry.thread) == null ? released(at, line, entry) : null;
        }
        if (!entry.request().method().looks() || !mayBegin(at, entry)) {
            return null;
        }
        HistoryPoint next = at.copy();
        ModelOutcome outcome = next.model.begin(entry.thread, entry.request());
        if (outcome.kind() != ModelOutcome.Kind.ANSWERS || !matches(next.model, entry, outcome.answer())) {
            return null;
        }
        next.passes(line);
        return next;
    }

    private boolean isOpen(BurstEntry entry) {
        return entry.end() > until;
    }

    /** Whether any answer will do. */
    private boolean isFree(BurstEntry entry) {
        return isOpen(entry) || freedom.ofAnswer(entry);
    }

    /** Whether it has to wait in the end. */
    private boolean hasToWait(BurstEntry entry) {
        return isOpen(entry) && freedom.waiting() && !freedom.ofAnswer(entry);
    }

    private boolean isNotMade(HistoryPoint at, int line, BurstEntry entry) {
        if (!freedom.calls().contains(entry)) {
            return false;
        }
        HistoryPoint next = at.copy();
        next.passes(line);
        return goesOn(next);
    }

    private boolean isThrough(HistoryPoint at) {
        for (int line = 0; line < lines.size(); line++) {
            BurstEntry entry = at.present(lines, line);
            if (entry != null && (!isOpen(entry) || hasToWait(entry) && !waits(at, line, entry))) {
                return false;
            }
        }
        return true;
    }

    /** Whether it waits there, and nothing lets it go on. */
    private static boolean waits(HistoryPoint at, int line, BurstEntry entry) {
        Model model = at.model;
        int thread = entry.thread;
        boolean isLate = entry.request().method().timed() && entry.request().nanoseconds() < LONG;
        return at.hasBegun(line) && model.inside(thread) == null && !model.isReleased(thread) && !model.hearsInterrupt(thread)
            && !isLate;
    }

    /** Takes a further step; where that leads to an end the entry is part of the order. */
    private boolean steps(HistoryPoint next, BurstEntry entry) {
        if (!goesOn(next)) {
            return false;
        }
        order.add(entry);
        return true;
    }

    // ---- beginnings

    private boolean mayBegin(HistoryPoint at, BurstEntry entry) {
        return at.mayBegin(lines, entry) && (!freedom.waiting() || haveBegunBefore(at, entry));
    }

    /** A call that waits for ever is taken to have begun its wait in the first quarter of the time that it was given. */
    private boolean haveBegunBefore(HistoryPoint at, BurstEntry entry) {
        for (int line = 0; line < lines.size(); line++) {
            BurstEntry other = at.present(lines, line);
            boolean stands = other != null && other != entry && !at.hasBegun(line) && hasToWait(other);
            if (stands && history.waited(other) > 0 && other.beganAt + history.waited(other) / 4 < entry.beganAt) {
                return false;
            }
        }
        return true;
    }

    private boolean begins(HistoryPoint at, int line, BurstEntry entry) {
        if (!mayBegin(at, entry)) {
            return false;
        }
        HistoryPoint next = at.copy();
        if (entry.step.interrupts()) {
            next.model.interrupt(entry.step.target());
            next.passes(line);
            return steps(next, entry);
        }
        return follows(next, line, entry, next.model.begin(entry.thread, entry.request()), false);
    }

    /** What the model makes of a call's beginning, or of the end of its routine or action. */
    private boolean follows(HistoryPoint next, int line, BurstEntry entry, ModelOutcome outcome, boolean wasInside) {
        boolean ran = !isFree(entry) && !entry.entered.isEmpty();
        boolean possible = switch (outcome.kind()) {
            case HELD -> false;
            case ANSWERS -> (wasInside || !ran) && matches(next.model, entry, outcome.answer());
            case ENTERS -> wasEntered(entry, outcome.entered());
            case WAITS -> (wasInside || !ran) && mayCome(next.model.waitsFor(entry.thread), entry);
        };
        if (!possible) {
            return false;
        }
        if (outcome.kind() != ModelOutcome.Kind.ANSWERS) {
            next.begins(line);
            return steps(next, entry);
        }
        if (hasToWait(entry)) {
            return false;
        }
        next.passes(line);
        return answers(next, entry, outcome.answer());
    }

    /** A further step by which a call has this answer. */
    private boolean answers(HistoryPoint next, BurstEntry entry, Answer answer) {
        if (!steps(next, entry)) {
            return false;
        }
        if (freedom.ofAnswer(entry)) {
            freeAnswers.put(entry, answer);
        }
        return true;
    }

    /** Whether the answer may come of this wait: an arrival index is known when it begins. */
    private boolean mayCome(ModelWait wait, BurstEntry entry) {
        return isFree(entry) || !wait.method().ofBarrier() || entry.answer().kind() != Answer.Kind.VALUE
            || entry.answer().number() == wait.number();
    }

    /** Whether the routine was asked with just these numbers, or the action ran. */
    private boolean wasEntered(BurstEntry entry, Entered where) {
        if (isFree(entry)) {
            return true;
        }
        if (!where.ofPhaser()) {
            return entry.entered.equals(List.of(where));
        }
        return !history.burst.phasers().get(where.object()).asks() || history.wasAsked(where);
    }

    // ---- ends

    private boolean ends(HistoryPoint at, int line, BurstEntry entry) {
        int thread = entry.thread;
        Model model = at.model;
        Entered inside = model.inside(thread);
        if (inside != null) {
            HistoryPoint next = at.copy();
            return follows(next, line, entry, endInside(next.model, thread, inside), true);
        }
        if (hasToWait(entry)) {
            return false;
        }
        return freedom.ofAnswer(entry) && leavesReleased(at, line, entry) || leavesInterrupted(at, line, entry)
            || leavesLate(at, line, entry);
    }

    private ModelOutcome endInside(Model model, int thread, Entered inside) {
        if (inside.ofPhaser()) {
            Burst.Phaser phaser = history.burst.phasers().get(inside.object());
            return model.end(thread, phaser.policy().decide(inside.phase(), inside.parties()) ? 1 : 0, false);
        }
        boolean fails = history.burst.barriers().get(inside.object()).fails();
        return model.end(thread, fails ? Burst.FAILURE : 0, fails);
    }

    /** The point behind the end of a released wait; null where it wasn't released, or has another answer. */
    private HistoryPoint released(HistoryPoint at, int line, BurstEntry entry) {
        if (!at.model.isReleased(entry.thread)) {
            return null;
        }
        HistoryPoint next = at.copy();
        ModelWait wait = next.model.waitsFor(entry.thread);
        Answer answer = next.model.release(entry.thread);
        if (!matches(next.model, entry, answer) && !isPlainNumber(next.model, entry, wait)) {
            return null;
        }
        next.passes(line);
        return next;
    }

    private boolean leavesReleased(HistoryPoint at, int line, BurstEntry entry) {
        HistoryPoint next = released(at, line, entry);
        return next != null && answers(next, entry, at.copy().model.release(entry.thread));
    }

    private boolean leavesInterrupted(HistoryPoint at, int line, BurstEntry entry) {
        Model model = at.model;
        boolean told = isFree(entry) || entry.answer().isThrown(Answer.INTERRUPTED);
        boolean secondLook = twoLooks && entry.request().method().ofPhaser();
        if (!told || !model.hearsInterrupt(entry.thread) || !secondLook && !model.mayLeave(entry.thread)) {
            return false;
        }
        HistoryPoint next = at.copy();
        next.model.leaveInterrupted(entry.thread);
        next.passes(line);
        return answers(next, entry, Answer.thrown(Answer.INTERRUPTED));
    }

    private boolean leavesLate(HistoryPoint at, int line, BurstEntry entry) {
        boolean told = entry.request().method().timed() && (isFree(entry) || entry.answer().isThrown(Answer.TIMEOUT));
        if (!told || !at.model.mayLeave(entry.thread) || !at.mayBeLate(lines, entry)) {
            return false;
        }
        HistoryPoint next = at.copy();
        next.model.leaveLate(entry.thread);
        next.passes(line);
        return answers(next, entry, Answer.thrown(Answer.TIMEOUT));
    }

    // ---- answers

    private boolean matches(Model model, BurstEntry entry, Answer answer) {
        return isFree(entry) || answer.equals(entry.answer()) || isMeaningless(model, entry);
    }

    /**
     * Counts after a termination are called meaningless in the Java documentation, and those of a tree change step by step: only the
     * looks in the end are judged.
     */
    private boolean isMeaningless(Model model, BurstEntry entry) {
        return switch (entry.request().method()) {
            case GET_REGISTERED_PARTIES, GET_ARRIVED_PARTIES, GET_UNARRIVED_PARTIES ->
                (model.isTerminated(entry.request().object())
                    || entry.thread != history.burst.looker() && history.burst.isInTree(entry.request().object()))
                && entry.answer().kind() == Answer.Kind.VALUE;
            default -> false;
        };
    }

    /** The documented difference {@code last-arrive-and-await}: who ends the last phase may get the plain next number. */
    private static boolean isPlainNumber(Model model, BurstEntry entry, ModelWait wait) {
        return wait.endedItself() && model.isTerminated(wait.object())
            && entry.answer().isValue(wait.number() + 1 & Integer.MAX_VALUE);
    }
}
