package kit.player;

import java.io.BufferedReader;
import java.io.IOException;
import java.io.InputStreamReader;
import java.io.UncheckedIOException;
import java.nio.charset.StandardCharsets;
import java.nio.file.Files;
import java.nio.file.Path;
import java.util.ArrayList;
import java.util.Comparator;
import java.util.LinkedHashMap;
import java.util.List;
import java.util.Map;
import java.util.Set;
import java.util.concurrent.CompletableFuture;
import java.util.concurrent.ConcurrentHashMap;
import java.util.stream.Stream;

/**
 * What {@code kit/run} runs: the player's own words, the cases, the differences, the wrong adapters, ports, random scenarios,
 * and bursts.
 */
public final class Kit {
    private static final int SCENARIOS = 300;

    /** Random scenarios are played beside all other parts: a thread that gets no processor for a while isn't one that is never released. */
    private static final Patience[] PATIENCE_BESIDE_ALL = Stream.of(Patience.times(2, Patience.OF_JVM))
        .map(each -> each.withBound(4 * each.bound())).toArray(Patience[]::new);
    private static final String KEPT = "transcripts";
    /** How often a case is played whose transcript isn't the one that is kept. */
    private static final int PLAYS = 5;
    /** Few adapters need a case with more choices. */
    private static final int LONG_SCHEDULE = 50;
    /** So many processes of each port, or judges of the JDK's classes, play at once. */
    private static final int JOBS = 4;
    /** Random scenarios wait most of their time. */
    private static final int JOBS_THAT_WAIT = 16;
    /** What is said on standard input once the ports are made. */
    private static final String BUILT = "built";
    private static final long SECOND = 1_000_000_000L;

    /** A case that the JDK plays as Vuthgal does, with what its first play has taught. */
    private record Learned(Case each, Plan plan) {
    }

    /** A port, and how many bursts it plays. */
    record Port(String command, int bursts) {
        /** Of words in pairs: a number of bursts, and a command. */
        static List<Port> of(List<String> words) {
            List<Port> ports = new ArrayList<>();
            for (int at = 0; at < words.size(); at += 2) {
                ports.add(new Port(words.get(at + 1), Integer.parseInt(words.get(at))));
            }
            return ports;
        }
    }

    /** What a part of the whole does. */
    private interface Body {
        void play(Part part) throws Exception;
    }

    private final Path repository;
    private final Path kit;
    private final Path program;
    private final Vuthgal vuthgal;
    private final WrongAdapters adapters;
    /** What the cases have taught. */
    private final List<Learned> learned = new ArrayList<>();
    private final CompletableFuture<Void> built = CompletableFuture.runAsync(Kit::awaitPorts);
    private final long begun = System.nanoTime();
    private int passed;
    private int failed;

    private Kit(Path repository, Path program) throws IOException {
        this.repository = repository;
        this.program = program;
        kit = repository.resolve("kit");
        vuthgal = new Vuthgal(program);
        adapters = new WrongAdapters(kit.resolve("wrong"), "kit.wrong.WrongFactory");
    }

    /**
     * The words are the repository's folder, the program to hold all against, the command of Python, that of the phaser without
     * a lock (each empty where there is none), and, for each port, how many bursts it plays, and its command; one of no bursts
     * loses interrupts.
     */
    public static void main(String[] words) throws IOException {
        Kit kit = new Kit(Path.of(words[0]), Path.of(words[1]));
        System.exit(kit.check(words[2], words[3], Port.of(List.of(words).subList(4, words.length))) ? 0 : 1);
    }

    /** Until all ports are made. */
    private static void awaitPorts() {
        try {
            if (!BUILT.equals(new BufferedReader(new InputStreamReader(System.in, StandardCharsets.UTF_8)).readLine())) {
                throw new IllegalStateException("a port can't be made");
            }
        } catch (IOException failed) {
            throw new UncheckedIOException(failed);
        }
    }

    /**
     * The cases are played first, since others play them again. Then comes all that mostly waits, at once, and behind it the
     * bursts, which need the processors: first those on what is right.
     */
    private boolean check(String python, String lockFree, List<Port> all) {
        List<Port> ports = all.stream().filter(port -> port.bursts() > 0).toList();
        play(Map.of("cases", this::checkCases));
        Map<String, Body> atOnce = new LinkedHashMap<>();
        atOnce.put("commands", part -> commands(part).checkWords());
        atOnce.put("forms of cases", part -> commands(part).checkForms());
        atOnce.put("pieces of the player", part -> new PieceChecks(part).check());
        atOnce.put("kept classes", part -> commands(part).checkCompile());
        if (!python.isEmpty()) {
            atOnce.put("commands on ports", part -> commands(part).checkPorts(python));
            atOnce.put("ends of commands", part -> commands(part).checkEnds(python));
            atOnce.put("faults of ports", part -> new FaultTable(kit.resolve("faults")).check(vuthgal, python, part));
            atOnce.put("transcripts", part -> {
                built.join();
                new ReplayChecks(kit, python, part).check(ports);
            });
            atOnce.put("soaks", part -> {
                built.join();
                new ReplayChecks(kit, python, part).checkSoaks(ports, lockFree);
            });
        }
        atOnce.put("differences", this::checkDifferences);
        atOnce.put("wrong adapters", this::checkWrongAdapters);
        ports.forEach(port -> atOnce.put("cases on `" + port.command() + "`", part -> checkPort(part, port.command())));
        atOnce.put("random scenarios", this::checkRandom);
        atOnce.put("the model", this::checkModel);
        play(atOnce);
        Map<String, Body> right = new LinkedHashMap<>();
        right.put("bursts on the JDK", part -> bursts(part).checkJdk());
        ports.forEach(port -> right.put("bursts on `" + port.command() + "`", part -> bursts(part).checkPort(port)));
        play(right);
        Map<String, Body> wrong = new LinkedHashMap<>();
        wrong.put("wrong adapters for bursts", part -> bursts(part).checkAdapters(
            new WrongAdapters(kit.resolve("wrong").resolve("burst"), "kit.wrong.burst.UnderOneLock")));
        wrong.put("ports that lose interrupts",
            part -> bursts(part).checkLoseInterrupts(all.stream().filter(port -> port.bursts() == 0).toList()));
        if (!lockFree.isEmpty()) {
            wrong.put("a phaser without a lock",
                part -> bursts(part).checkLockFree(kit.resolve("wrong/lockfree/table.txt"), lockFree));
        }
        play(wrong);
        System.out.println(passed + " passed, " + failed + " failed");
        return failed == 0;
    }

    /** Plays these at once, and tells in their order what each came to. */
    private void play(Map<String, Body> bodies) {
        List<CompletableFuture<Part>> played = new ArrayList<>();
        bodies.forEach((name, body) -> {
            CompletableFuture<Part> part = new CompletableFuture<>();
            played.add(part);
            Thread thread = new Thread(() -> play(name, body, part), name);
            thread.setDaemon(true);
            thread.start();
        });
        for (CompletableFuture<Part> each : played) {
            Part part = each.join();
            System.out.print(part.text());
            passed += part.passed();
            failed += part.failed();
        }
    }

    private void play(String name, Body body, CompletableFuture<Part> to) {
        Part part = new Part();
        String from = seconds();
        try {
            body.play(part);
            part.to.println(name + ": " + part.passed() + " passed, " + part.failed() + " failed, from " + from + " to " + seconds());
            to.complete(part);
        } catch (Exception | Error thrown) {
            to.completeExceptionally(thrown);
        }
    }

    /** Since it began. */
    private String seconds() {
        return (System.nanoTime() - begun) / SECOND + " s";
    }

    private static void tellAgain(Part part, String name, Verdict verdict) {
        if (verdict.isSame() && verdict.tries() > 1) {
            part.to.println(name + " " + verdict.words() + verdict.triesInWords());
        }
    }

    private CommandChecks commands(Part part) throws IOException {
        return new CommandChecks(kit, program, part);
    }

    // ---- cases

    private void checkCases(Part part) throws IOException {
        Sums sums = new Sums();
        Transcripts transcripts = new Transcripts();
        Map<String, String> kept = Transcripts.made(kit.resolve(KEPT));
        Map<Case, Verdict> sure = new ConcurrentHashMap<>();
        new Jobs<>(Player.casesBelow(kit.resolve("cases")), (judge, file) -> {
            Played played = Played.of(judge, Case.of(vuthgal, kit.relativize(file).toString(), file));
            sure.put(played.each(), sureTranscript(judge, kept, played.each(), played.verdict()));
            return played;
        }).run(judgesOfTheJdk(JOBS, KnownDifferences.COUNTS, Patience.OF_JVM), played -> {
            Case each = played.each();
            Verdict verdict = played.verdict();
            part.take(each.name(), verdict.isSame() && isWholeJudged(verdict.notes()) && isTrace(each), whatFails(each, verdict));
            tellAgain(part, each.name(), verdict);
            sums.add(verdict.notes());
            transcripts.add(each, sure.get(each));
            if (verdict.isSame()) {
                learned.add(new Learned(each, verdict.plan()));
            }
            return true;
        });
        transcripts.compare(kept, (file, difference) -> part.take("transcripts/" + file, difference.isEmpty(),
            "it isn't what was played (kit/play --known --transcripts kit/transcripts/cases.zip kit/cases):" + difference));
        part.to.println("cases on the JDK: " + learned.size() + " the same, " + sums.line());
    }

    private static List<Judge> judgesOfTheJdk(int count, KnownDifferences known, Patience... patience) {
        return Stream.generate(() -> new Judge(new JvmStage(new JdkFactory()), known, patience)).limit(count).toList();
    }

    /** Where the machine is busy somebody may go on a little late, and another play has the transcript that is kept. */
    private static Verdict sureTranscript(Judge judge, Map<String, String> kept, Case each, Verdict first) {
        Verdict verdict = first;
        for (int play = 0; play < PLAYS && verdict.isSame() && !Transcripts.isKept(kept, each, verdict); play++) {
            verdict = judge.judge(each, verdict.plan());
        }
        return verdict;
    }

    /** Whether nothing in it was left out, told again, or unseen. */
    private static boolean isWholeJudged(Notes notes) {
        return notes.count(Notes.Kind.LEFT_OUT) + notes.count(Notes.Kind.TOLD_AGAIN) + notes.count(Notes.Kind.UNSEEN) == 0;
    }

    private static boolean isTrace(Case each) {
        try {
            return each.wanted().equals(Case.keptTrace(each.file()));
        } catch (IOException failed) {
            throw new UncheckedIOException(failed);
        }
    }

    private static String whatFails(Case each, Verdict verdict) {
        String trace = isTrace(each) ? "" : "its trace isn't Vuthgal's, as kit/traces shows; ";
        return trace + verdict.words() + "; " + String.join("; ", verdict.notes().lines);
    }

    // ---- differences

    private List<Path> differences() {
        return Player.casesBelow(kit.resolve("differences"));
    }

    private void checkDifferences(Part part) throws IOException {
        Judge plain = new Judge(new JvmStage(new JdkFactory()), KnownDifferences.NONE);
        Judge known = new Judge(new JvmStage(new JdkFactory()), KnownDifferences.ALL);
        List<Path> files = differences();
        for (Path file : files) {
            String name = kit.relativize(file).toString();
            Case ours = Case.of(vuthgal, name, file);
            part.take(name, isTrace(ours), "its trace isn't Vuthgal's");
            String jdk = Files.readString(Case.beside(file, ".jdk"));
            Case theirs = new Case(name, file, ours.program(), ours.schedule(), jdk);
            Verdict verdict = plain.judge(theirs);
            part.take(name, verdict.trace().equals(jdk), "the JDK's trace isn't that of its .jdk:\n" + verdict.trace());
            part.take(name, !jdk.equals(ours.wanted()), "it shows no difference");
            Verdict told = known.judge(ours);
            part.take(name, told.isSame(), "with --known it is " + told.words() + "; " + String.join("; ", told.notes().lines));
        }
        part.to.println("differences: " + files.size() + " programs");
        checkRules(part);
    }

    /** Each documented difference that is told over has its row, its program, and a wrong adapter that is nearly it. */
    private void checkRules(Part part) throws IOException {
        String behaviour = Files.readString(repository.resolve("docs/BEHAVIOUR.md"));
        String table = behaviour.substring(behaviour.indexOf("## Where the JDK differs"));
        for (KnownDifference difference : KnownDifferences.ALL.list) {
            part.take(difference.row, table.contains("| " + difference.row + " |"), "there is no such row in BEHAVIOUR.md");
            Path program = kit.resolve("differences").resolve(difference.program + ".txt");
            part.take(difference.row, Files.exists(program), "there is no " + program);
            String nearly = difference.nearly;
            part.take(difference.row, adapters.names().contains(nearly), "there is no wrong adapter " + nearly);
        }
    }

    // ---- wrong adapters

    private void checkWrongAdapters(Part part) {
        Set<String> names = adapters.names();
        Map<String, String> finders = new ConcurrentHashMap<>();
        List<Learned> cases = longOnesLast();
        AtOnce.each(names, name -> {
            String finder = findByCases(name, cases);
            finder = finder != null ? finder : findByDifferences(name);
            if (finder != null) {
                finders.put(name, finder);
            }
        });
        for (String name : names) {
            part.take(name, finders.containsKey(name), "no case finds it");
            if (finders.containsKey(name)) {
                part.to.println("  " + name + " is found first by " + finders.get(name));
            }
        }
        part.to.println("wrong adapters: " + finders.size() + " found");
    }

    private Judge judgeOf(String adapter, KnownDifferences known) {
        return new Judge(adapters.stage(adapter), known,
            Patience.OF_JVM[0].withBound(SECOND / 3), Patience.OF_JVM[1].withBound(SECOND));
    }

    /** The first case in which it differs, twice; null where there is none. */
    private String findByCases(String adapter, List<Learned> cases) {
        Judge judge = judgeOf(adapter, KnownDifferences.COUNTS);
        for (Learned at : cases) {
            Verdict verdict = judge.judge(at.each(), at.plan());
            if (verdict.fails()) {
                return at.each().name() + ", line " + verdict.line();
            }
        }
        return null;
    }

    private List<Learned> longOnesLast() {
        return learned.stream().sorted(Comparator.comparing(at -> at.each().schedule().size() > LONG_SCHEDULE)).toList();
    }

    /** The same among the programs of the differences, with these told over. */
    private String findByDifferences(String adapter) {
        Judge judge = judgeOf(adapter, KnownDifferences.ALL);
        for (Path file : differences()) {
            Verdict verdict = judge.judge(Case.of(vuthgal, kit.relativize(file).toString(), file));
            if (verdict.fails()) {
                return kit.relativize(file) + ", line " + verdict.line();
            }
        }
        return null;
    }

    // ---- a port behind a pipe, and random scenarios

    private void checkPort(Part part, String command) {
        List<Judge> judges = Stream.generate(() -> new Judge(new PortStage(command), KnownDifferences.COUNTS)).limit(JOBS).toList();
        built.join();
        Sums sums = new Sums();
        int[] leftOut = {0};
        new Jobs<>(learned, (judge, at) -> Played.of(judge, at.each(), at.plan())).run(judges, played -> {
            Verdict verdict = played.verdict();
            boolean none = verdict.kind() == Verdict.Kind.LEFT_OUT;
            leftOut[0] += none ? 1 : 0;
            part.take(played.each().name() + " by " + command, verdict.isSame() || none,
                verdict.words() + "; " + String.join("; ", verdict.notes().lines));
            tellAgain(part, played.each().name() + " by the port", verdict);
            sums.add(verdict.notes());
            return true;
        });
        part.to.println("cases on the port `" + command + "`: " + sums.line());
        part.to.println(leftOut[0] + " cases that it can't play");
    }

    private void checkRandom(Part part) throws IOException {
        part.to.println("random scenarios on the JDK, seeds 1 to " + SCENARIOS + ":");
        Tally tally = new Tally(SCENARIOS, true, part.to);
        List<Judge> judges = judgesOfTheJdk(JOBS_THAT_WAIT, KnownDifferences.ALL, PATIENCE_BESIDE_ALL);
        new RandomCases(vuthgal, tally, null, part.to).play(judges, 1, SCENARIOS);
        part.take(tally.same(), tally.failing());
    }

    // ---- bursts

    private void checkModel(Part part) throws IOException {
        BurstKit bursts = bursts(part);
        bursts.checkModel(learned.stream().map(Learned::each).toList());
        bursts.checkCores();
    }

    private BurstKit bursts(Part part) {
        return new BurstKit(vuthgal, part);
    }
}
