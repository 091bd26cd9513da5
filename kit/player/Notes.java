package kit.player;

import java.util.ArrayList;
import java.util.EnumMap;
import java.util.List;
import java.util.Map;
import java.util.TreeMap;

/** What a play has to tell beside its trace. */
final class Notes {
    enum Kind {
        /** A held call that wasn't made, since the real one would have gone on too early. */
        LEFT_OUT("left out"),
        /** An answer that was right when the wait ended, shown as that of the choice. */
        TOLD_AGAIN("told again"),
        /** A documented difference, told as Vuthgal has it. */
        TOLD_OVER("told over"),
        /** A call for which the JDK isn't asked, and which was answered as here. */
        EXCUSED("as here"),
        /** A part of the state text that the objects couldn't be asked for. */
        UNSEEN("unseen"),
        /** A call that was held, and was made all the same. */
        HELD("held"),
        /** A timed wait of a phaser ran out before its choice. */
        EARLY("early"),
        /** Something that never happens where a port is right, or where the machine isn't too slow. */
        ODD("odd"),
        /** A call that has to end didn't, though nothing of the port ran any more. No machine is that slow. */
        STUCK("odd");

        final String words;

        Kind(String words) {
            this.words = words;
        }
    }

    final Transcript transcript = new Transcript();
    /** Whether threads of the real side ran while all should wait. */
    boolean spins;

    private static final int MOST_NAMES = 5;

    private final Map<Kind, Integer> counts = new EnumMap<>(Kind.class);
    /** How often each documented difference was told over, by the name of its program. */
    final Map<String, Integer> differences = new TreeMap<>();
    /** How often a call was asked in a documented difference that the JDK isn't asked for, by the name of its program. */
    final Map<String, Integer> excused = new TreeMap<>();
    final List<String> lines = new ArrayList<>();
    private int asked;
    private int firstOdd;
    private String firstOddWords = "";

    void asked() {
        asked++;
    }

    /** {@code step} counts from 1; real threads of a port on the JVM may come here too. */
    synchronized void add(Kind kind, int step, String what) {
        counts.merge(kind, 1, Integer::sum);
        lines.add(step + " " + kind.words + ": " + what);
        if ((kind == Kind.ODD || kind == Kind.STUCK) && firstOdd == 0) {
            firstOdd = step;
            firstOddWords = what;
        }
    }

    void toldOver(KnownDifference difference, int step) {
        differences.merge(difference.program, 1, Integer::sum);
        add(Kind.TOLD_OVER, step, difference.row);
    }

    /** A call for which the JDK isn't asked was answered as here. */
    void excused(KnownDifference difference, int step, String what) {
        excused.merge(difference.program, 1, Integer::sum);
        add(Kind.EXCUSED, step, what);
    }

    int count(Kind kind) {
        return counts.getOrDefault(kind, 0);
    }

    int askedCalls() {
        return asked;
    }

    /** The first choice at which something odd happened, 0 if none. */
    int firstOdd() {
        return firstOdd;
    }

    /** What that was; empty if nothing. */
    String firstOddWords() {
        return firstOddWords;
    }

    /** What is said of these cases, in which threads spin. */
    static String spinning(List<String> cases) {
        String few = String.join(", ", cases.subList(0, Math.min(cases.size(), MOST_NAMES)));
        return "threads spin while all should wait, in " + cases.size() + (cases.size() == 1 ? " case: " : " cases: ") + few
            + (cases.size() > MOST_NAMES ? ", .." : "");
    }

    /** The line below a verdict. */
    String sums() {
        return asked + " calls asked, " + count(Kind.LEFT_OUT) + " left out, " + count(Kind.TOLD_AGAIN) + " told again, "
            + count(Kind.TOLD_OVER) + " told over";
    }
}
