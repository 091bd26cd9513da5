package kit.player;

import java.util.ArrayList;
import java.util.List;
import java.util.Map;
import java.util.Set;
import java.util.TreeMap;
import java.util.function.Consumer;
import java.util.regex.Pattern;
import java.util.stream.Collectors;

/** A kind of burst: its name, how one of it is put together, and what happens in it, in a sentence. */
record BurstKind(String name, Consumer<BurstMaker> maker, String words) {
    static final List<BurstKind> ALL = all();

    private static List<BurstKind> all() {
        List<BurstKind> all = new ArrayList<>();
        all.addAll(MeetingBursts.KINDS);
        all.addAll(PhaseBursts.KINDS);
        all.addAll(TreeBursts.KINDS);
        all.addAll(TripBursts.KINDS);
        all.addAll(BreakBursts.KINDS);
        all.addAll(DoorBursts.KINDS);
        all.addAll(InsideBursts.KINDS);
        return List.copyOf(all);
    }

    /**
     * All but those in which the JDK's classes may differ: there a register during the last departure from a child may wait until
     * another phase has ended.
     */
    static Set<String> playedOnTheJdk() {
        String differs = "registration-at-an-empty-child";
        return ALL.stream().map(BurstKind::name).filter(name -> !name.equals(differs)).collect(Collectors.toSet());
    }

    /** Those of times and crowds: their races aren't of two instructions, so points matter little there. */
    private static final Set<String> WITHOUT_POINTS = Set.of("time-at-the-advance", "time-that-runs-out", "time-among-pokes",
        "the-longest-time", "a-crowd-at-a-phase", "time-at-the-trip", "time-during-the-action", "the-longest-time-at-a-barrier",
        "a-crowd-at-a-barrier", "time-that-breaks");

    /** For a symptom, a part of the names of the kinds that look for it. */
    private static final Map<String, Pattern> SYMPTOMS = new TreeMap<>(Map.of(
        "action", Pattern.compile("action|^trips$"),
        "hang", Pattern.compile("meetings|^trips$|crowd|barg|alone$|alone-at|wait-against|two-who|at-an-empty|at-once|behind-an"
            + "|looks-at-a-tree|levels|inside-an"),
        "interrupt", Pattern.compile("interrupt"),
        "reset", Pattern.compile("reset|broken|break|barging$|looks-at-a-barrier"),
        "time", Pattern.compile("time"),
        "tree", Pattern.compile("tree|child")));

    static Set<String> symptoms() {
        return SYMPTOMS.keySet();
    }

    /** The names of the kinds for one of these symptoms. */
    static Set<String> like(String symptom) {
        return ALL.stream().map(BurstKind::name).filter(name -> SYMPTOMS.get(symptom).matcher(name).find())
            .collect(Collectors.toSet());
    }

    boolean needsPoints() {
        return needsPoints(name);
    }

    static boolean needsPoints(String name) {
        return !WITHOUT_POINTS.contains(name);
    }

    static boolean isName(String name) {
        return ALL.stream().anyMatch(kind -> kind.name.equals(name));
    }

    /** All of them, a line each. */
    static String list() {
        int longest = ALL.stream().mapToInt(kind -> kind.name.length()).max().orElse(0);
        StringBuilder lines = new StringBuilder();
        for (BurstKind kind : ALL) {
            lines.append(kind.name).append(" ".repeat(longest - kind.name.length() + 2)).append(kind.words).append('\n');
        }
        return lines.toString();
    }

    /** The kind of a round; they come in turn. */
    static BurstKind of(long round) {
        return ALL.get((int) Math.floorMod(round, (long) ALL.size()));
    }

    /** The burst of a round. */
    static Burst burst(long seed, long round, long unit) {
        BurstKind kind = of(round);
        BurstMaker maker = new BurstMaker(kind.name, seed, round, unit);
        kind.maker.accept(maker);
        return maker.burst();
    }
}
