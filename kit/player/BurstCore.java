package kit.player;

import java.util.ArrayList;
import java.util.Collections;
import java.util.HashSet;
import java.util.List;
import java.util.Set;

/**
 * The few calls of a burst that no order explains, whatever the others did: by delta debugging over what is judged. A call that
 * isn't judged may have answered anything, and, where that is still enough, may as well not have been made. So nothing is taken
 * away that may be needed: where no order explains what is left, none explains the whole.
 */
final class BurstCore {
    /** For one search of an order, and for all of them, in nanoseconds. */
    private static final long LONGEST_SEARCH = 1_000_000_000L;
    private static final long LONGEST = 6_000_000_000L;
    /** So many other answers are told. */
    private static final int MOST_REMEDIES = 4;

    private final BurstHistory history;
    private final boolean waiting;
    private final long until;
    private final long limit;
    private final long longestSearch;
    private final Set<BurstEntry> answers = new HashSet<>();
    private final Set<BurstEntry> calls = new HashSet<>();
    private final List<BurstEntry> entries;
    private final BurstEntry first;
    private boolean whole;
    private BurstEntry early;

    /** {@code first}: the first answer that no order explains, or null where that isn't known; what ends later plays no part. */
    private BurstCore(BurstHistory history, BurstEntry first, long limit) {
        this.history = history;
        this.first = first;
        until = first == null ? LegalHistory.ALL : first.end();
        this.limit = limit;
        waiting = history.hasOpen();
        entries = history.entries();
        longestSearch = (long) (LONGEST_SEARCH * Load.factor());
        entries.stream().filter(entry -> !waiting && entry.end() > until).forEach(calls::add);
    }

    /** The core of a burst that fails, the smaller of two; null where some order explains it, or where the search took too long. */
    static BurstCore of(BurstHistory history) {
        BurstEntry first = history.hasOpen() ? null : LegalHistory.firstUnexplained(history);
        long now = System.nanoTime();
        long longest = (long) (LONGEST * Load.factor());
        BurstCore core = new BurstCore(history, first, now + longest);
        if (first == null && !core.isImpossible()) {
            return null;
        }
        core.reduce(true);
        BurstCore other = new BurstCore(history, first, now + 2 * longest);
        other.reduce(false);
        BurstCore smaller = other.whole && other.size() < core.size() ? other : core;
        smaller.early = smaller.findEarly();
        return smaller;
    }

    private int size() {
        return entries.size() - calls.size();
    }

    /** Whether what is judged has no order. */
    private boolean isImpossible() {
        long end = Math.min(limit, System.nanoTime() + longestSearch);
        return LegalHistory.outcome(history, until, new LegalHistory.Freedom(answers, calls, waiting, end))
            == LegalHistory.Outcome.NO_ORDER;
    }

    /** Whole threads at first, and then, by ever smaller parts, what is left. */
    private void reduce(boolean latestFirst) {
        for (int thread = history.burst.looker(); thread >= 0; thread--) {
            int it = latestFirst ? thread : history.burst.looker() - thread;
            List<BurstEntry> all = entries.stream().filter(entry -> entry.thread == it && !calls.contains(entry)).toList();
            if (all.stream().noneMatch(BurstEntry::isOpen)) {
                frees(all, calls);
            }
        }
        List<BurstEntry> left = new ArrayList<>(entries);
        left.removeAll(calls);
        if (latestFirst) {
            Collections.reverse(left);
        }
        for (int size = (left.size() + 1) / 2; size > 0; size = size == 1 ? 0 : (size + 1) / 2) {
            for (int from = 0; from < left.size() && isInTime();) {
                List<BurstEntry> part = List.copyOf(left.subList(from, Math.min(from + size, left.size())));
                if (frees(part, calls)) {
                    left.removeAll(part);
                } else {
                    from += size;
                }
            }
        }
        for (BurstEntry entry : left) {
            if (isInTime() && !entry.step.interrupts()) {
                frees(List.of(entry), answers);
            }
        }
        whole = isInTime();
    }

    private boolean isInTime() {
        return System.nanoTime() < limit;
    }

    /** Judges these no more, where that leaves it without an order. */
    private boolean frees(List<BurstEntry> part, Set<BurstEntry> among) {
        among.addAll(part);
        if (!part.isEmpty() && isImpossible()) {
            return true;
        }
        part.forEach(among::remove);
        return false;
    }

    /** Whether nothing more can be left out, one at a time. */
    boolean isWhole() {
        return whole;
    }

    /** What is judged, in the order in which it began. */
    List<BurstEntry> judged() {
        return entries.stream().filter(entry -> !answers.contains(entry) && !calls.contains(entry)).toList();
    }

    private BurstEntry findEarly() {
        List<BurstEntry> judged = judged();
        if (first == null || first.step.interrupts()) {
            return null;
        }
        if (judged.isEmpty()) {
            return first;
        }
        LegalHistory.Freedom any =
            new LegalHistory.Freedom(Set.of(first), Set.of(), false, System.nanoTime() + longestSearch);
        boolean alone = judged.equals(List.of(first));
        return alone && LegalHistory.outcome(history, until, any) == LegalHistory.Outcome.NO_ORDER ? first : null;
    }

    /** The call that returned too early: no answer of it would do; null where some would, or where that isn't known. */
    BurstEntry early() {
        return early;
    }

    /** What has to be made for that, whatever it answers. */
    List<BurstEntry> needed() {
        return entries.stream().filter(entry -> answers.contains(entry) && entry != early).toList();
    }

    /** How many calls play no part. */
    int others() {
        return calls.size();
    }

    /**
     * Each answer that alone would have to be another, the latest first, some at most; empty where none would do, and null where
     * that isn't known. Only what is judged comes into question: without it there is no order.
     */
    List<BurstRemedy> remedies() {
        if (waiting) {
            return null;
        }
        boolean sure = true;
        List<BurstRemedy> found = new ArrayList<>();
        List<BurstEntry> latestFirst = new ArrayList<>(judged());
        Collections.reverse(latestFirst);
        for (BurstEntry entry : latestFirst) {
            if (entry.step.interrupts() || found.size() == MOST_REMEDIES) {
                continue;
            }
            LegalHistory.Other other = LegalHistory.otherAnswer(history, entry, System.nanoTime() + longestSearch);
            if (other.outcome() == LegalHistory.Outcome.ORDER) {
                found.add(new BurstRemedy(entry, other.answer()));
            }
            sure = sure && other.outcome() != LegalHistory.Outcome.UNKNOWN;
        }
        return found.isEmpty() && !sure ? null : found;
    }
}
