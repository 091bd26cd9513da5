package kit.player;

import java.io.PrintStream;
import java.util.ArrayList;
import java.util.List;
import java.util.Map;
import java.util.TreeMap;

/** Counts verdicts, tells those that aren't simply the same, and knows when to end a run that has no end in sight. */
final class Tally {
    private static final int MOST_ENDLESS_IN_A_ROW = 3;

    private final int cases;
    private final boolean keepsGoing;
    private final PrintStream to;
    final Report report = new Report();
    private final Sums sums = new Sums();
    private final Map<String, Integer> whyLeftOut = new TreeMap<>();
    private final Map<String, Integer> differences = new TreeMap<>();
    private final Map<String, Integer> excused = new TreeMap<>();
    private final List<String> spinning = new ArrayList<>();
    private int same;
    private int different;
    private int stuck;
    private volatile boolean stuckBefore;
    private int unsteady;
    private int leftOut;
    private int again;
    private int endlessInARow;
    private boolean stopped;
    private final LastWords last;

    /** Of so many cases. */
    Tally(int cases, boolean keepsGoing, PrintStream to) {
        this.cases = cases;
        this.keepsGoing = keepsGoing;
        this.to = to;
        last = new LastWords(to, this::tellSums);
    }

    /** Tells what hung before the first case. */
    void before(WarmUp.Word word) {
        to.println(word.text());
        stuckBefore |= word.counts();
    }

    /** Takes one more; answers whether to go on. */
    synchronized boolean add(Played played) {
        if (stopped) {
            return false;
        }
        Verdict verdict = played.verdict();
        report.add(played);
        sums.add(verdict.notes());
        verdict.notes().differences.forEach((program, count) -> differences.merge(program, count, Integer::sum));
        verdict.notes().excused.forEach((program, count) -> excused.merge(program, count, Integer::sum));
        again += verdict.tries() > 1 ? 1 : 0;
        if (verdict.notes().spins) {
            spinning.add(played.each().name());
        }
        switch (verdict.kind()) {
            case SAME -> same++;
            case DIFFERS -> different++;
            case STUCK -> stuck++;
            case UNSTEADY -> unsteady++;
            case LEFT_OUT -> {
                leftOut++;
                whyLeftOut.merge(verdict.why(), 1, Integer::sum);
            }
        }
        if (verdict.fails() || verdict.tries() > 1) {
            Progress.clear();
            to.println(played.line());
        }
        endlessInARow = verdict.isEndless() ? endlessInARow + 1 : 0;
        return keepsGoing || endlessInARow < MOST_ENDLESS_IN_A_ROW;
    }

    /** At a terminal: how far it is. */
    synchronized void showProgress() {
        if (!stopped) {
            Progress.show(compared() + leftOut + " of " + cases + ", " + failing() + " different");
        }
    }

    /** The sums, in some lines. */
    void tell() {
        last.tell();
    }

    private synchronized void tellSums(boolean whenStopped) {
        stopped = whenStopped;
        int notPlayed = cases - compared() - leftOut;
        if (notPlayed > 0 && !stopped) {
            to.println("the run ends here, since there is no answer in " + endlessInARow
                + " cases in a row (--keep-going goes on)");
        }
        whyLeftOut.forEach((why, count) -> to.println(count + " left out: " + why));
        to.println(sums.line());
        differences.forEach((program, count) -> to.println("  " + count + " told over as in differences/" + program));
        excused.forEach((program, count) -> to.println("  " + count + " not as the JDK, but as ours, as in differences/" + program));
        if (!spinning.isEmpty()) {
            to.println(Notes.spinning(spinning));
        }
        if (compared() == 0) {
            to.println("nothing was compared");
        }
        to.println(same + " same, " + different + " different, "
            + (stuck > 0 ? stuck + " stuck, " : "") + (unsteady > 0 ? unsteady + " unsteady, " : "") + leftOut + " left out"
            + (notPlayed > 0 ? ", " + notPlayed + " not played" : "")
            + (stuckBefore ? "; stuck before the first case" : "")
            + (again > 0 ? "; " + again + " played again with more patience" : ""));
    }

    int same() {
        return same;
    }

    /** How many show a fault. */
    int failing() {
        return different + stuck + unsteady;
    }

    private int compared() {
        return same + failing();
    }

    int leftOut() {
        return leftOut;
    }

    /** The exit status: 0 where all is the same, 1 where something differs, 2 where nothing was compared. */
    int status() {
        return compared() == 0 ? 2 : failing() == 0 && !stuckBefore ? 0 : 1;
    }
}
