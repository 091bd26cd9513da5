package kit.player;

import java.io.IOException;
import java.nio.file.Files;
import java.nio.file.Path;
import java.util.ArrayList;
import java.util.Collections;
import java.util.Iterator;
import java.util.LinkedHashSet;
import java.util.List;
import java.util.Set;

/** The words of the command line. */
final class Options {
    static final String USAGE = """
        kit/play [OPTION].. CASE [--trace FILE]
        kit/play [OPTION].. PROGRAM SCHEDULE [--trace FILE]
        kit/play [OPTION].. FOLDER.. [--transcripts FOLDER]
        kit/play [OPTION].. --random N [--seed S] [--keep FOLDER]
        kit/play [OPTION].. --burst ROUNDS [--for SECONDS] [--seed S] [--round R | --kind NAMES] [--points N] [--keep FOLDER]
        kit/play [OPTION].. --for SECONDS [--seed S] [--round R | --kind NAMES] [--points N] [--keep FOLDER]
        kit/play [OPTION].. --burst FILE [--for SECONDS] [--points N]
        kit/play --kinds
          --factory NAME     a class on the class path KIT_CLASSPATH that implements kit.player.Factory
          --port COMMAND     a command that speaks the port protocol (kit/PROTOCOL.md)
          --jobs N           starts the port so many times, and plays so many cases or bursts at once
          --known            tells documented differences over (docs/BEHAVIOUR.md, "Where the JDK differs"), and counts them
          --trace FILE       writes the trace of what was played
          --transcripts FOLDER
                             writes what was said to the JDK's classes and what they answered, for kit/replay, a file for
                             each folder of cases; into one archive where it is named NAME.zip
          --random N         plays N scenarios of its own, with documented differences told over
          --burst ROUNDS     plays so many bursts: several calls at once on threads that run freely
          --for SECONDS      plays bursts for so long, and no more than ROUNDS where these are given; on a port first with
                             the points 1 to 20, four at once unless --jobs says it, each kind for its share; fewer than 60
                             of a kind are too few
          --burst FILE       plays a burst that was kept until it fails, 20000 times at most
          --kind NAME[,NAME] plays bursts of these kinds alone; goes with no --round and no --burst FILE
          --like SYMPTOM     the same with the kinds for a symptom: action, hang, interrupt, reset, time, tree
          --kinds            lists the kinds of bursts, with a sentence each
          --points N         starts a port that has points with the seeds 1 to N, each for its share of the bursts;
                             FIRST..LAST names others
          --round R          plays the burst of round R alone until it fails, ROUNDS times at most
          --seed S           other scenarios, or other bursts; by default 1
          --keep FOLDER      writes each scenario that differs there, as NAME.txt and NAME.trace, and each burst that
                             fails, as KIND-SEED-ROUND.burst; leaves the first port in which a wait hangs, and tells its process
          --report FILE      writes all verdicts as JUnit XML
          --patience FACTOR  waits so many times as long, 0.1 to 100, before a thread counts as blocked and a call as hanging
          --first-try        plays nothing again that differs
          --keep-going       goes on where three cases in a row hang, or the port can't be started
          --vuthgal FILE     the program, by default that of this repository""";

    private static final long MOST_SCENARIOS = 1_000_000;
    private static final long LAST_SEED = 1_000_000_000_000L;
    private static final long MOST_ROUNDS = 1_000_000_000L;
    private static final long MOST_SECONDS = 10_000_000;
    private static final long MOST_JOBS = 64;
    private static final double LEAST_PATIENCE = 0.1;
    private static final double MOST_PATIENCE = 100;

    /** The words are wrong. */
    static final class Wrong extends Exception {
        private static final long serialVersionUID = 1;

        Wrong(String what) {
            super(what + "\n" + USAGE);
        }
    }

    /** With points most threads of a port sleep. */
    private static final int JOBS_WITH_POINTS = 4;

    private final List<Path> programs = new ArrayList<>();
    Path vuthgal = Path.of("bin/vuthgal");
    /** The schedule of the one program that is named; null where none is named. */
    Path schedule;
    /** Where the trace is to be written; null for nowhere. */
    Path trace;
    /** Where scenarios that differ are kept; null for nowhere. */
    Path keep;
    /** Where transcripts are to be written; null for nowhere. */
    Path transcripts;
    /** Where all verdicts are to be written; null for nowhere. */
    Path report;
    private boolean known;
    private boolean firstTry;
    boolean keepGoing;
    /** How many scenarios of its own it plays. */
    int random;
    long seed = 1;
    /** 0 where nothing is said of it. */
    private int jobs;
    /** How many times as long as usual it waits. */
    double patience = 1;
    private String burst;
    private long round = BurstOrder.EACH;
    private long seconds;
    private Set<String> kinds = Set.of();
    /** Whether the kinds of bursts are asked for. */
    boolean listsKinds;
    private PointSeeds points = PointSeeds.NONE;
    private String factory = JdkFactory.class.getName();
    private String port;

    Options(String[] words) throws Wrong {
        Iterator<String> at = List.of(words).iterator();
        while (at.hasNext()) {
            String word = at.next();
            switch (word) {
                case "--vuthgal" -> vuthgal = Path.of(argument(word, at));
                case "--factory" -> factory = argument(word, at);
                case "--port" -> port = argument(word, at);
                case "--jobs" -> jobs = (int) number(word, at, 1, MOST_JOBS);
                case "--trace" -> trace = Path.of(argument(word, at));
                case "--transcripts" -> transcripts = Path.of(argument(word, at));
                case "--keep" -> keep = Path.of(argument(word, at));
                case "--report" -> report = Path.of(argument(word, at));
                case "--random" -> random = (int) number(word, at, 1, MOST_SCENARIOS);
                case "--seed" -> seed = number(word, at, 0, LAST_SEED);
                case "--burst" -> burst = argument(word, at);
                case "--for" -> seconds = number(word, at, 1, MOST_SECONDS);
                case "--round" -> round = number(word, at, 0, MOST_ROUNDS);
                case "--kind" -> kinds = kinds(argument(word, at));
                case "--like" -> kinds = like(argument(word, at));
                case "--kinds" -> listsKinds = true;
                case "--points" -> points = points(argument(word, at));
                case "--patience" -> patience = factor(word, at);
                case "--known" -> known = true;
                case "--first-try" -> firstTry = true;
                case "--keep-going" -> keepGoing = true;
                default -> place(word);
            }
        }
        check();
    }

    private void check() throws Wrong {
        if (listsKinds) {
            return;
        }
        if (programs.isEmpty() == (random == 0 && !playsBursts())) {
            throw new Wrong("either programs, or --random, or --burst or --for");
        }
        if (playsBursts() && (random > 0 || known || firstTry || keepGoing)) {
            throw new Wrong("with --burst and --for go only --factory or --port, --jobs, --seed, --round, --kind, --points, --keep,"
                + " --report, and --patience");
        }
        checkBursts();
        if (jobs > 1 && port == null) {
            throw new Wrong("--jobs wants --port: classes on the JVM are played one case after the other");
        }
        if (keep != null && random == 0 && !playsBursts()) {
            throw new Wrong("--keep wants --random or --burst");
        }
        if (transcripts != null && (programs.isEmpty() || one() != null)) {
            throw new Wrong("--transcripts wants folders of cases");
        }
        if (trace != null && one() == null) {
            throw new Wrong("--trace wants one case");
        }
    }

    private void checkBursts() throws Wrong {
        if (round >= 0 && !playsBursts()) {
            throw new Wrong("--round wants --burst or --for");
        }
        if (!kinds.isEmpty() && !playsBursts()) {
            throw new Wrong("--kind wants --burst or --for");
        }
        if (!kinds.isEmpty() && (round >= 0 || keptBurst() != null)) {
            throw new Wrong("--kind goes with no --round and no --burst FILE: such a burst has its own");
        }
        if (!points.areNone() && (!playsBursts() || port == null)) {
            throw new Wrong("--points wants --port, and --burst or --for");
        }
    }

    private static Set<String> kinds(String names) throws Wrong {
        Set<String> kinds = new LinkedHashSet<>(List.of(names.split(",")));
        for (String kind : kinds) {
            if (!BurstKind.isName(kind)) {
                throw new Wrong("there is no kind " + kind + "; these are:\n" + BurstKind.list());
            }
        }
        return kinds;
    }

    private static Set<String> like(String symptom) throws Wrong {
        if (!BurstKind.symptoms().contains(symptom)) {
            throw new Wrong("--like wants one of " + String.join(", ", BurstKind.symptoms()) + ", and not " + symptom);
        }
        return BurstKind.like(symptom);
    }

    private static PointSeeds points(String word) throws Wrong {
        String[] ends = word.split("\\.\\.", 2);
        long first = ends.length == 1 ? 1 : number("--points", List.of(ends[0]).iterator(), 0, MOST_SCENARIOS);
        long last = number("--points", List.of(ends[ends.length - 1]).iterator(), first, MOST_SCENARIOS);
        return new PointSeeds(first, (int) (last - first + 1), 1);
    }

    /** The file of --burst FILE, or null. */
    private Path keptBurst() {
        return burst != null && Files.isRegularFile(Path.of(burst)) ? Path.of(burst) : null;
    }

    private boolean playsBursts() {
        return burst != null || seconds > 0;
    }

    private static String argument(String option, Iterator<String> at) throws Wrong {
        if (!at.hasNext()) {
            throw new Wrong(option + " wants a word behind it");
        }
        return at.next();
    }

    private static long number(String option, Iterator<String> at, long least, long most) throws Wrong {
        String word = argument(option, at);
        try {
            long number = Long.parseLong(word);
            if (number >= least && number <= most) {
                return number;
            }
        } catch (NumberFormatException none) {
            // told below
        }
        throw new Wrong(option + " wants a number from " + least + " to " + most + ", and not " + word);
    }

    private static double factor(String option, Iterator<String> at) throws Wrong {
        String word = argument(option, at);
        try {
            double factor = Double.parseDouble(word);
            if (factor >= LEAST_PATIENCE && factor <= MOST_PATIENCE) {
                return factor;
            }
        } catch (NumberFormatException none) {
            // told below
        }
        throw new Wrong(option + " wants a factor from " + LEAST_PATIENCE + " to " + (int) MOST_PATIENCE + ", and not " + word);
    }

    /** A folder, a case, a program, or the schedule of the program before it. */
    private void place(String word) throws Wrong {
        Path path = Path.of(word);
        if (word.startsWith("--") || !path.toFile().exists()) {
            throw new Wrong("there is no " + word);
        }
        if (one() != null && schedule == null && !path.toFile().isDirectory() && !Case.isCase(path)) {
            schedule = path;
        } else {
            programs.add(path);
        }
    }

    /** The bursts that were asked for, or null. */
    BurstOrder bursts() throws Wrong, IOException {
        BurstOrder order = order();
        return order == null ? null : order.of(kinds, givesPointsFirst() ? PointSeeds.AT_FIRST : points);
    }

    /** Whether nothing but the time is said of bursts on a port. */
    private boolean givesPointsFirst() {
        return port != null && burst == null && seconds > 0 && round == BurstOrder.EACH && points.areNone();
    }

    private BurstOrder order() throws Wrong, IOException {
        if (burst == null) {
            return seconds == 0 ? null : new BurstOrder(seed, round, MOST_ROUNDS, seconds);
        }
        if (keptBurst() != null) {
            BurstOrder kept = BurstOrder.ofFile(keptBurst(), seconds);
            if (kept == null) {
                throw new Wrong(burst + " is no burst that was kept");
            }
            return kept;
        }
        if (!burst.matches("-?[0-9]+")) {
            throw new Wrong("there is no " + burst);
        }
        long count = number("--burst", List.of(burst).iterator(), 1, MOST_ROUNDS);
        return new BurstOrder(seed, round, count, seconds);
    }

    /** The real side that was asked for. */
    Stage stage() throws Wrong {
        if (port != null) {
            return new PortStage(port);
        }
        try {
            return new JvmStage((Factory) Class.forName(factory).getDeclaredConstructor().newInstance());
        } catch (ReflectiveOperationException | ClassCastException none) {
            throw new Wrong(factory + " is no factory: " + none);
        }
    }

    /** A real side for each burst that is played at once. */
    List<Stage> stages() throws Wrong {
        List<Stage> stages = new ArrayList<>();
        int most = jobs == 0 && givesPointsFirst() ? JOBS_WITH_POINTS : Math.max(1, jobs);
        for (int job = 0; job < most; job++) {
            stages.add(stage());
        }
        return stages;
    }

    /** A judge for each case that is played at once. */
    List<Judge> judges() throws Wrong {
        List<Judge> judges = new ArrayList<>();
        for (int job = 0; job < Math.max(1, jobs); job++) {
            Stage stage = stage();
            Patience[] tries = Patience.times(patience, stage.patience());
            judges.add(new Judge(stage, knownDifferences(), firstTry ? new Patience[] {tries[0]} : tries));
        }
        return judges;
    }

    private KnownDifferences knownDifferences() {
        return known || random > 0 ? KnownDifferences.ALL : KnownDifferences.NONE;
    }

    /** The folders and programs that are named. */
    List<Path> programs() {
        return Collections.unmodifiableList(programs);
    }

    /** The one case or program that is named; null where it is a folder, or there are several. */
    Path one() {
        return programs.size() == 1 && !programs.get(0).toFile().isDirectory() ? programs.get(0) : null;
    }
}
