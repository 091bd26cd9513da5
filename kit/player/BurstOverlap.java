package kit.player;

import java.io.PrintStream;
import java.util.List;
import java.util.LongSummaryStatistics;
import java.util.Map;
import java.util.TreeMap;

/**
 * How much the calls of bursts ran at once. What only runs one after the other shows no race, whatever is wrong: so a run that
 * found nothing has to say it.
 */
final class BurstOverlap {
    /** Where the threads of half of the bursts begin further apart, in nanoseconds, quick calls hardly meet. */
    private static final long FAR = 100_000;
    private static final int MICROSECOND = 1_000;
    private static final int PERCENT = 100;
    private static final double HALF = 0.5;
    private static final double NINE_OF_TEN = 0.9;

    private long calls;
    private long beside;
    private long bursts;
    private long alone;
    /** How far apart the threads of each burst began, in nanoseconds. */
    private final Histogram spreads = new Histogram();

    /** A burst: how many threads, calls, and calls beside another thread's it had, and how far apart its threads began. */
    record One(int threads, int calls, long beside, long spread) {
        /** A wait runs beside all that happens in it. The player's own thread doesn't count. */
        static One of(BurstHistory history) {
            List<BurstEntry> all = history.entries().stream().filter(each -> each.thread != history.burst.looker()).toList();
            long met = all.stream().filter(one -> all.stream().anyMatch(other -> runsBeside(one, other))).count();
            Map<Integer, Long> first = new TreeMap<>();
            all.forEach(each -> first.putIfAbsent(each.thread, each.beganAt - each.step.delay()));
            LongSummaryStatistics began = first.values().stream().mapToLong(Long::longValue).summaryStatistics();
            return new One(first.size(), all.size(), met, began.getMax() - began.getMin());
        }

        private static boolean runsBeside(BurstEntry one, BurstEntry other) {
            return one.thread != other.thread && one.beganAt < other.endedAt() && other.beganAt < one.endedAt();
        }
    }

    void add(One one) {
        if (one.threads() > 1) {
            spreads.add(one.spread());
            calls += one.calls();
            beside += one.beside();
            bursts++;
            alone += one.beside() == 0 ? 1 : 0;
        }
    }

    /** In a line, and in another what to do where little ran at once. */
    void tell(PrintStream to) {
        if (bursts == 0) {
            return;
        }
        long half = spreads.at(HALF);
        to.println(PERCENT * beside / calls + " % of the calls ran beside another thread's, in " + alone + " of " + bursts
            + " bursts none; the threads began within " + microseconds(half) + " us in half of the bursts, within "
            + microseconds(spreads.at(NINE_OF_TEN)) + " us in nine of ten");
        if (half > FAR) {
            to.println("that is far apart, so races of a few instructions may pass: play more bursts, on a quieter machine, of the"
                + " --kind that you doubt, or with --points (docs/PORTING.md, \"Points\")");
        }
    }

    private static String microseconds(long nanoseconds) {
        return nanoseconds < 10 * MICROSECOND
            ? nanoseconds / MICROSECOND + "." + nanoseconds % MICROSECOND * 10 / MICROSECOND : Long.toString(nanoseconds / MICROSECOND);
    }
}
