package kit.player;

import java.io.PrintStream;
import java.util.Comparator;
import java.util.HashSet;
import java.util.IntSummaryStatistics;
import java.util.Locale;
import java.util.Map;
import java.util.Set;
import java.util.TreeMap;
import java.util.stream.Collectors;

/** What came of the bursts of a run, in numbers. Those who play at once share it. */
final class BurstCount {
    /**
     * An interrupt that wins over the end of a phase may do so between two looks, which is so rare that it counts only
     * where it comes so often among so many rounds in a row.
     */
    private static final int OVERTAKEN_TO_COUNT = 3;
    private static final int ROUNDS_OF_OVERTAKING = 5_000;
    private static final long SECOND = 1_000_000_000L;
    /** With points most faults take up to so many bursts of a kind. */
    private static final int ENOUGH = 60;
    /** So many kinds are named that had the fewest. */
    private static final int FEWEST = 3;

    private final long begun = System.nanoTime();
    final BurstSuite suite = new BurstSuite();
    /** How many bursts each had. */
    private final Map<String, Integer> kindsPlayed = new TreeMap<>();
    /** How many of these were with points. */
    private final Map<String, Integer> kindsWithPoints = new TreeMap<>();
    private boolean tooFew;
    private final Set<String> kindsLeftOut = new HashSet<>();
    private final Map<String, Integer> whyLeftOut = new TreeMap<>();
    private final BurstOverlap overlap = new BurstOverlap();
    private long rounds;
    private long asked;
    private long calls;
    private int findings;
    private long firstFound;
    private long firstTry;
    private String firstAfter;
    private int overtaken;
    private long overtakenSince;

    /** One more burst is to be played. */
    synchronized void asks() {
        asked++;
    }

    /** How many bursts were to be played, and weren't left out. */
    synchronized long asked() {
        return asked;
    }

    synchronized boolean isLeftOut(String kind) {
        return kindsLeftOut.contains(kind);
    }

    /** A burst can't be played, and so none of its kind; another takes its place. */
    synchronized void leavesOut(String kind, String why) {
        asked--;
        if (kindsLeftOut.add(kind)) {
            whyLeftOut.merge(why, 1, Integer::sum);
            suite.leavesOut(kind, why);
        }
    }

    /** How a burst went whose threads all came to their end. */
    synchronized void overlaps(BurstOverlap.One one) {
        overlap.add(one);
    }

    /** A burst was played, with so many calls and interrupts. */
    synchronized void played(Burst burst, long points, int count, long nanoseconds) {
        rounds++;
        calls += count;
        kindsPlayed.merge(burst.kind(), 1, Integer::sum);
        if (points != PointSeeds.OFF) {
            kindsWithPoints.merge(burst.kind(), 1, Integer::sum);
        }
        suite.played(burst.kind(), nanoseconds);
    }

    /** A burst failed, as this text tells. */
    synchronized void fails(Burst burst, String text) {
        if (findings++ == 0) {
            firstFound = burst.round();
            firstTry = rounds;
            firstAfter = seconds();
        }
        suite.fails(burst.kind(), text);
    }

    /** An interrupt won over the end of a phase; whether that counts. With points it never does: they make it frequent. */
    synchronized boolean countsOvertaking(boolean withPoints) {
        if (rounds - overtakenSince > ROUNDS_OF_OVERTAKING) {
            overtaken = 0;
            overtakenSince = rounds;
        }
        overtaken++;
        return !withPoints && overtaken >= OVERTAKEN_TO_COUNT;
    }

    synchronized int findings() {
        return findings;
    }

    /** In a few words, while it goes on. */
    synchronized String progress() {
        return rounds + " bursts, " + findings + " found, " + seconds();
    }

    private String seconds() {
        return (System.nanoTime() - begun) / SECOND + " s";
    }

    /** How long the bursts of a kind took. */
    synchronized long nanoseconds(String kind) {
        return suite.nanoseconds(kind);
    }

    /** In some lines. */
    synchronized void tell(BurstOrder order, PrintStream to) {
        whyLeftOut.forEach((why, kinds) -> to.println(kinds + " kinds left out: " + why));
        if (rounds == 0) {
            to.println("nothing was compared");
        }
        boolean one = order.playsOneRound();
        String kinds = kindsPlayed.size() == 1 ? " kind, " : " kinds, ";
        to.println(rounds + (asked > rounds ? " of " + asked : "") + " bursts of " + kindsPlayed.size() + kinds + calls
            + " calls and interrupts, " + seconds() + ": " + findings + " found"
            + (findings == 0 || one ? "" : ", the first at try " + firstTry + ", in round " + firstFound + ", after " + firstAfter)
            + (overtaken == 0 ? "" : "; an interrupt won over the end of a phase " + overtaken + " times"));
        overlap.tell(to);
        tellEach(order, to);
        if (one) {
            to.println("round " + order.round() + (findings == 0 ? " didn't fail in " + rounds + " tries" : " failed at try " + firstTry));
        }
    }

    /** How many bursts each kind had, and whether these are too few to say anything. */
    private void tellEach(BurstOrder order, PrintStream to) {
        boolean withPoints = !order.points().areNone();
        boolean many = kindsPlayed.size() > 1;
        boolean few = withPoints && tellEach(kindsWithPoints, " in which points matter", many, to);
        if (!withPoints || order.points().share() < 1) {
            few |= tellEach(kindsPlayed, withPoints ? ", with points and without" : "", many, to) && order.isByTime();
        }
        tooFew = few && order.isByTime() && findings == 0;
        if (few && findings == 0) {
            to.println(String.format(Locale.ROOT, "too few: at a load of %.0f on %d processors, leave off other work, play longer, or"
                + " take --kind; %s", Load.now(), Load.PROCESSORS, fewest(withPoints ? kindsWithPoints : kindsPlayed)));
        }
    }

    /** Answers whether some kind had too few. */
    private boolean tellEach(Map<String, Integer> played, String which, boolean tells, PrintStream to) {
        boolean points = played == kindsWithPoints;
        IntSummaryStatistics each = kindsPlayed.keySet().stream().filter(kind -> !points || BurstKind.needsPoints(kind))
            .mapToInt(kind -> played.getOrDefault(kind, 0)).summaryStatistics();
        if (tells && each.getCount() > 0) {
            to.println(each.getCount() + " kinds" + which + ", " + each.getMin() + " to " + each.getMax() + " bursts each"
                + (points ? " with points" : ""));
        }
        return each.getCount() > 0 && each.getMin() < ENOUGH;
    }

    private String fewest(Map<String, Integer> played) {
        return kindsPlayed.keySet().stream().filter(kind -> played != kindsWithPoints || BurstKind.needsPoints(kind))
            .sorted(Comparator.comparingInt(kind -> played.getOrDefault(kind, 0))).limit(FEWEST)
            .map(kind -> kind + " had " + played.getOrDefault(kind, 0)).collect(Collectors.joining(", "));
    }

    /** The exit status: 0 where nothing was found, 1 where something was, 2 where nothing was compared, 3 too little. */
    synchronized int status() {
        return findings > 0 ? 1 : rounds == 0 ? 2 : tooFew ? 3 : 0;
    }
}
