package kit.player;

import java.util.List;
import java.util.function.Consumer;
import java.util.regex.Pattern;

/**
 * Plays cases on a real side and says whether their traces are Vuthgal's. Each is played twice: first on the JDK's classes,
 * with every documented difference told over, to learn which calls are held and which waits run out; then for the verdict.
 * A case that differs is played again with more patience before it counts, the last time on a fresh real side: a slow
 * machine is no difference.
 */
final class Judge {
    private static final Pattern VALUE = Pattern.compile("^[0-9]+ [tx][0-9]+ [0-9]+ (=|throw) |^[pb][0-9]+ ");

    private final Stage learner = new JvmStage(new JdkFactory());
    private final Stage stage;
    private final KnownDifferences known;
    private final Patience[] patience;

    Judge(Stage stage, KnownDifferences known) {
        this(stage, known, stage.patience());
    }

    Judge(Stage stage, KnownDifferences known, Patience... patience) {
        this.stage = stage;
        this.known = known.forAnother();
        this.patience = patience;
    }

    /** Loads what a first call loads, so that this doesn't look like a wait. */
    Judge warm() {
        return warm(word -> { });
    }

    /** The same, and tells what hangs. */
    Judge warm(Consumer<WarmUp.Word> tell) {
        WarmUp.play(learner, tell, learner.patience());
        WarmUp.play(stage, tell, patience);
        return this;
    }

    /** The real side isn't needed any more. */
    void close() {
        stage.close();
    }

    Verdict judge(Case asked) {
        return judge(asked, null);
    }

    /** Plays a case by the plan of a verdict that was the same; where there is none it is learned. */
    Verdict judge(Case asked, Plan taught) {
        Verdict verdict = null;
        for (int number = 1; number <= patience.length; number++) {
            boolean last = number > 1 && (number == patience.length || verdict.breakdown() != null);
            if (last) {
                stage.abandon();
            }
            Verdict next = once(asked, taught, number);
            verdict = verdict == null ? next : next.behind(verdict);
            if (!verdict.mayBeSlowness()) {
                break;
            }
        }
        return verdict;
    }

    private Plan learn(Case asked, int number) {
        Patience[] learning = Patience.times(patience[0].factor(), learner.patience());
        Patience patient = learning[Math.min(number, learning.length) - 1];
        Plan plan = new Plan();
        Play play = new Play(new Scene(asked.program(), learner, plan, patient, KnownDifferences.ALL, true), asked.schedule());
        try {
            play.play();
        } finally {
            play.clear();
        }
        return plan;
    }

    private Verdict once(Case asked, Plan taught, int number) {
        try {
            return once(asked, number, taught != null ? taught : learn(asked, number));
        } catch (Unplayable why) {
            return Verdict.leftOut(why.getMessage());
        }
    }

    private Verdict once(Case asked, int number, Plan plan) {
        Play play = new Play(
            new Scene(asked.program(), stage, plan, patience[number - 1], known, false), asked.schedule());
        String trace;
        try {
            trace = play.play();
        } finally {
            play.clear();
        }
        if (play.asTheJdk() != null) {
            known.doesAsTheJdk(play.asTheJdk());
            stage.abandon();
            return once(asked, number, plan);
        }
        int line = line(asked, trace, play.scene.notes);
        Verdict.Kind kind = line == 0 ? Verdict.Kind.SAME : Verdict.Kind.DIFFERS;
        Verdict.Flaw flaw = line == 0 ? null : flaw(asked, trace, line, play.scene);
        return new Verdict(kind, line, trace, play.scene.notes, plan, play.breakdown(), 1, "", "", flaw);
    }

    /** What is wrong in this line that slowness doesn't explain; null where it may. */
    private static Verdict.Flaw flaw(Case asked, String trace, int line, Scene scene) {
        if (scene.notes.count(Notes.Kind.STUCK) > 0) {
            return new Verdict.Flaw(Verdict.Kind.STUCK, line);
        }
        boolean wrongValue = !scene.mayBeSlow() && isValue(line(trace, line), line(asked.wanted(), line));
        return wrongValue ? new Verdict.Flaw(Verdict.Kind.UNSTEADY, line) : null;
    }

    private static String line(String trace, int number) {
        return trace.lines().skip(number - 1).findFirst().orElse("");
    }

    /** Whether two lines of traces tell a value or an exception of the same call, or the same object at the end. */
    private static boolean isValue(String one, String other) {
        return VALUE.matcher(one).find() && VALUE.matcher(other).find() && head(one).equals(head(other));
    }

    private static String head(String line) {
        String[] words = line.split(" ");
        return words[0].matches("[pb][0-9]+") ? words[0] : String.join(" ", List.of(words).subList(0, 3));
    }

    /** The first line that differs, or the first choice at which something odd happened; 0 if there is none. */
    private int line(Case asked, String trace, Notes notes) {
        int line = asked.firstDifference(trace);
        return line == 0 ? notes.firstOdd() : line;
    }
}
