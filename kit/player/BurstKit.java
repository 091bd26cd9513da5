package kit.player;

import java.io.IOException;
import java.nio.file.Files;
import java.nio.file.Path;
import java.util.ArrayList;
import java.util.Arrays;
import java.util.LinkedHashMap;
import java.util.List;
import java.util.Map;
import java.util.Set;
import java.util.TreeMap;
import java.util.concurrent.ConcurrentHashMap;
import java.util.function.Function;
import java.util.regex.Pattern;

/**
 * The part of {@code kit/run} about bursts: the model that judges them, the JDK, the adapters that they have to find,
 * ports.
 */
final class BurstKit {
    private static final int SCENARIOS = 100;
    private static final int ROUNDS_ON_THE_JDK = 2_000;
    private static final int ROUNDS_ON_THE_RIGHT_ONE = 1_000;
    private static final int ROUNDS_TO_FIND = 6_000;
    /** Calls of a long burst: more than the search for an order could try without a stack of its own. */
    private static final int LONG_ONE = 6_000;
    /** What hangs among so many is told in few lines. */
    private static final int RESETS = 2_200;
    private static final int FEW_LINES = 20;
    /**
     * A race is a matter of chance, and of free processors: what the bursts of one seed don't find, those of another
     * may.
     */
    private static final int SEEDS_TO_FIND = 32;
    /** What is wrong may be taken to wait for ever sooner, if it is at rest then. */
    private static final long IMPATIENT = 200_000_000L;
    private static final Pattern FOUND_BY =
        Pattern.compile("<p>Found by ([\\w-]+).*\\R +\\*/\\R +static final class (\\w+)");

    private final Vuthgal vuthgal;
    private final Part part;

    BurstKit(Vuthgal vuthgal, Part part) {
        this.vuthgal = vuthgal;
        this.part = part;
    }

    /** The model plays the cases, and random scenarios, as Vuthgal does. */
    void checkModel(List<Case> cases) throws IOException {
        ModelCheck check = new ModelCheck();
        for (Case each : cases) {
            countModel(check, each);
        }
        Path room = Files.createTempDirectory("vuthgal-model");
        for (int seed = 1; seed <= SCENARIOS; seed++) {
            Path file = Scenario.of(seed).write(room);
            countModel(check, Case.of(vuthgal, "random-" + seed, file));
            Files.delete(file);
        }
        Files.delete(room);
        part.to.println("the model of the bursts played " + cases.size() + " cases and " + SCENARIOS + " random scenarios");
    }

    /** What a failed burst says of itself: the few calls that no order explains, and the answer that would do. */
    void checkCores() {
        Request arrive = Request.of(Method.ARRIVE, 0);
        Request look = Request.of(Method.GET_PHASE, 0);
        String arrival = report(new Told(0, arrive, 1, 2, Answer.value(0)), new Told(1, arrive, 3, 4, Answer.value(0)),
            new Told(2, look, 1, 9, Answer.value(0)), new Told(0, arrive, 5, 6, Answer.value(0)),
            new Told(1, look, 7, 8, Answer.value(1)));
        checkSays(arrival, "  no order explains these alone, whatever the other 2 did:\n    thread 0: arrive 0 = 0\n"
            + "  with these made, whatever they answer:\n    thread 0: arrive 0\n    thread 1: arrive 0\n"
            + "  with one other answer there is an order: thread 0: arrive 0 = 1\n");
        String two = report(new Told(0, arrive, 1, 2, Answer.value(1)), new Told(1, look, 1, 3, Answer.value(7)));
        checkSays(two, "  one other answer isn't enough\n");
        Request await = new Request(Method.AWAIT_ADVANCE, 0, 0, 0);
        String lost = report(new Told(0, arrive, 1, 2, Answer.value(0)), new Told(1, arrive, 1, 2, Answer.value(0)),
            new Told(2, await, 1, Long.MAX_VALUE, null));
        checkSays(lost, "    thread 2: awaitAdvance 0 0 has no answer\n  with these made, whatever they answer:\n"
            + "    thread 0: arrive 0\n    thread 1: arrive 0\n");
        String bothLost = report(new Told(0, arrive, 1, 2, Answer.value(0)), new Told(1, arrive, 1, 2, Answer.value(0)),
            new Told(2, await, 1, Long.MAX_VALUE, null), new Told(1, await, 3, Long.MAX_VALUE, null));
        checkSays(bothLost, "  no order explains these alone, whatever the other 1 did:\n    thread 2: awaitAdvance 0 0 has no answer\n"
            + "  with these made, whatever they answer:\n    thread 0: arrive 0\n    thread 1: arrive 0\n");
        checkSays(bothLost, " s  awaitAdvance 0 0, after arrive 0 = 0\n    thread 2 ");
        List<Told> many = new ArrayList<>(List.of(new Told(0, arrive, 1, 2, Answer.value(0)),
            new Told(1, look, 99, 100, Answer.value(7))));
        for (int time = 3; time < 99; time += 2) {
            many.add(new Told(1, look, time, time + 1, Answer.value(0)));
        }
        String folded = report(many.toArray(Told[]::new));
        checkSays(folded, "    0..1 thread 0: arrive 0 = 0\n    2..97 thread 1: getPhase 0 = 0, 48 times\n    98..99 thread 1: ");
        checkSays(folded, " order:\n    thread 0: arrive 0 = 0\n    thread 1: getPhase 0 = 0, 48 times\n  no order explains");
        checkSays(Excerpt.lines("a\n".repeat(61), "; kept"), "a\n  .. 2 more lines; kept\na\n");
        checkSays(Excerpt.lines("a\n".repeat(60), "; kept") + "end", "a\n".repeat(60) + "end");
        String right = report(new Told(0, arrive, 1, 2, Answer.value(0)), new Told(2, await, 1, Long.MAX_VALUE, null));
        part.take("a wait that has to be", !right.contains("no order explains these"), right);
        checkEarly(arrive);
        checkLongOne(arrive);
        checkNamed(arrive, look);
        checkResets();
    }

    /** A wait that returns before it may: no answer would do, so that there is none to list. */
    private void checkEarly(Request arrive) {
        String early = "  too early: whatever it answers, this mustn't have returned yet: thread 2: awaitAdvance 0 ";
        String alone = report(new Told(2, new Request(Method.AWAIT_ADVANCE, 0, 0, 0), 1, 2, Answer.value(0)));
        checkSays(alone, "thread 2: awaitAdvance 0 0 = 0\n  no order explains thread 2: awaitAdvance 0 0 = 0\n" + early + "0\n");
        for (int answer = 0; answer < 2; answer++) {
            String behind = report(new Told(0, arrive, 1, 2, Answer.value(0)), new Told(1, arrive, 1, 2, Answer.value(0)),
                new Told(2, new Request(Method.AWAIT_ADVANCE, 0, 1, 0), 3, 4, Answer.value(answer)));
            checkSays(behind, early + "1\n");
            part.take("too early", !behind.contains("one other answer") && !behind.contains("alone"), behind);
        }
    }

    /** The one whose answer would have to be another is named at once; where several would do, each is told. */
    private void checkNamed(Request arrive, Request look) {
        String one = report(new Told(1, arrive, 1, 2, Answer.value(0)), new Told(0, look, 3, 4, Answer.value(0)),
            new Told(2, look, 5, 6, Answer.value(1)), new Told(0, look, 7, 8, Answer.value(0)));
        checkSays(one, "burst 1 0 meetings\n  no order explains the answers: thread 2: getPhase 0 = 1\n");
        String either = report(new Told(0, look, 1, 2, Answer.value(1)), new Told(1, arrive, 3, 4, Answer.value(0)),
            new Told(1, arrive, 5, 6, Answer.value(1)));
        checkSays(either, "  no order explains the answers\n");
        checkSays(either, "  one other answer isn't enough\n");
        Request meet = Request.of(Method.ARRIVE_AND_AWAIT_ADVANCE, 0);
        String several = report(new Told(0, meet, 1, 4, Answer.value(1)), new Told(1, arrive, 2, 3, Answer.value(1)),
            new Told(2, look, 5, 6, Answer.value(0)));
        part.take("two that differ", several.contains("  one other answer isn't enough\n"), several);
    }

    /** However often the player goes on for it, what hangs is told in few lines. */
    private void checkResets() {
        BurstMaker make = new BurstMaker("resets-among-waiters", 1, 0, 1);
        make.barrier(2);
        for (int thread = 0; thread < 2; thread++) {
            make.thread();
        }
        Request await = Request.of(Method.AWAIT, 0);
        List<Told> calls = new ArrayList<>(List.of(new Told(0, await, 1, 4, Answer.thrown(Answer.BROKEN_BARRIER)),
            new Told(1, await, 5, Long.MAX_VALUE, null)));
        for (int time = 2; time < RESETS; time += 2) {
            calls.add(new Told(2, Request.of(Method.RESET, 0), time, time + 1, Answer.NOTHING));
        }
        BurstHistory history = history(make, calls.toArray(Told[]::new));
        history.giveUp(RESETS, List.of());
        String text = new BurstReport(history, BurstJudge.judge(history)).text();
        long lines = text.lines().count();
        part.take("a wait that a thousand resets don't end", lines < FEW_LINES
            && text.contains("waits for ever: thread 1: await 0 has no answer\n")
            && text.contains("thread 1: await 0 has no answer\n  with these made, whatever they answer:\n    thread 2: reset 0\n"), text);
    }

    /** So many calls come where a wait hangs, and the player goes on for it. */
    private void checkLongOne(Request arrive) {
        Told[] calls = new Told[LONG_ONE];
        for (int number = 0; number < LONG_ONE; number++) {
            calls[number] = new Told(0, arrive, 2 * number + 1, 2 * number + 2, Answer.value(number / 2));
        }
        String words = BurstJudge.judge(history(meetings(), calls)).words();
        part.take("a long burst", words == null, words);
    }

    /** A call as it is put into a history; it has no answer where that is null. */
    private record Told(int thread, Request request, long begin, long end, Answer answer) {
    }

    private static String report(Told... calls) {
        return report(meetings(), calls);
    }

    private static String report(BurstMaker make, Told... calls) {
        BurstHistory history = history(make, calls);
        return new BurstReport(history, BurstJudge.judge(history)).text();
    }

    /** Three threads at a phaser of two parties. */
    private static BurstMaker meetings() {
        BurstMaker make = new BurstMaker("meetings", 1, 0, 1);
        make.root(2);
        for (int thread = 0; thread < 3; thread++) {
            make.thread();
        }
        return make;
    }

    private static BurstHistory history(BurstMaker make, Told... calls) {
        BurstHistory history = new BurstHistory(make.burst(), true);
        for (Told call : calls) {
            BurstEntry entry = new BurstEntry(call.thread(), BurstStep.call(call.request()), call.begin(), call.begin());
            history.add(entry);
            if (call.answer() != null) {
                entry.finish(call.answer(), call.end(), call.end());
            }
        }
        return history;
    }

    private void checkSays(String report, String words) {
        part.take("a failed burst", report.contains(words), "it doesn't say:\n" + words + "but:\n" + report);
    }

    private void countModel(ModelCheck check, Case each) {
        String differs = check.differs(each);
        part.take(each.name() + " on the model", differs == null, differs);
    }

    void checkJdk() throws IOException {
        checkRight("the JDK", new JvmStage(new JdkFactory()), ROUNDS_ON_THE_JDK, BurstKind.playedOnTheJdk());
    }

    void checkPort(Kit.Port port) throws IOException {
        Stage stage = new PortStage(port.command());
        checkRight("the port `" + port.command() + "`", stage, port.bursts(), Set.of());
        stage.close();
    }

    /** Bursts of these kinds, or of all where none is named, find nothing. */
    private void checkRight(String name, Stage stage, int rounds, Set<String> kinds) throws IOException {
        Bursts bursts = new Bursts(List.of(stage), Bursts.PATIENT, null, part.to);
        bursts.play(new BurstOrder(1, BurstOrder.EACH, rounds, 0).of(kinds, PointSeeds.NONE));
        int found = bursts.count.findings();
        part.take("bursts on " + name, found == 0, found + " found");
        part.to.print("bursts on " + name + ": ");
        bursts.tell();
    }

    /**
     * Each wrong adapter is found by some burst, best of the kind that its comment names, and the right one by none.
     */
    void checkAdapters(WrongAdapters adapters) throws IOException {
        String wrong = new Bursts(List.of(adapters.right()), Bursts.PATIENT, null, part.to)
            .find(1, ROUNDS_ON_THE_RIGHT_ONE, null, PointSeeds.OFF);
        part.take("UnderOneLock", wrong == null, "it is right, and found: " + wrong);
        Map<String, String> kinds = new TreeMap<>();
        for (Path source : adapters.sources) {
            FOUND_BY.matcher(Files.readString(source)).results()
                .forEach(found -> kinds.put(found.group(2), found.group(1)));
        }
        if (!kinds.keySet().equals(adapters.names())) {
            throw new IllegalStateException("each of " + adapters.names() + " has to say which kind of burst finds it");
        }
        takeFindings(kinds, adapters::stage);
    }

    /**
     * What is to be found, each by bursts of its kind: a few are played at once, since many wait for ever when they
     * are found.
     */
    private void takeFindings(Map<String, String> kinds, Function<String, Stage> stageOf) {
        Map<String, String> findings = new ConcurrentHashMap<>();
        AtOnce.few(kinds.keySet(), name -> {
            Stage stage = stageOf.apply(name);
            String finding = finding(stage, kinds.get(name));
            stage.close();
            if (finding != null) {
                findings.put(name, finding);
            }
        });
        for (String name : kinds.keySet()) {
            part.take(name, findings.containsKey(name), "no burst finds it");
            if (findings.containsKey(name)) {
                part.to.println("  " + name + " is found by " + findings.get(name));
            }
        }
        part.to.println("to be found by bursts: " + findings.size() + " found");
    }

    /**
     * What bursts find in something wrong: some of this kind, and with points where it has some, in turn; else many of
     * all kinds.
     */
    private String finding(Stage stage, String kind) {
        Bursts bursts = new Bursts(List.of(stage), IMPATIENT, null, part.to);
        Bursts withPoints = new Bursts(List.of(stage), IMPATIENT, null, part.to);
        String finding = null;
        for (String only : Arrays.asList(kind, null)) {
            for (int seed = 1; seed <= SEEDS_TO_FIND && finding == null; seed++) {
                finding = bursts.find(seed, ROUNDS_TO_FIND, only, PointSeeds.OFF);
                if (finding == null && only != null && !stage.isHere()) {
                    finding = withPoints.find(seed, ROUNDS_TO_FIND, only, seed);
                    finding = finding == null ? null : finding + ", with points";
                }
            }
        }
        return finding;
    }

    /** Ports that lose interrupts are found by the waits that only an interrupt ends, at either class. */
    void checkLoseInterrupts(List<Kit.Port> ports) {
        for (String kind : List.of("an-interrupt-alone", "an-interrupt-alone-at-a-barrier")) {
            Map<String, String> kinds = new LinkedHashMap<>();
            ports.forEach(port -> kinds.put(port.command(), kind));
            takeFindings(kinds, PortStage::new);
        }
    }

    /** The phaser without a lock: its bursts find nothing as long as it has no fault, and each fault of the table. */
    void checkLockFree(Path table, String command) throws IOException {
        checkPort(new Kit.Port(command, ROUNDS_ON_THE_RIGHT_ONE));
        Map<String, String> kinds = new LinkedHashMap<>();
        for (String line : Files.readAllLines(table)) {
            if (!line.startsWith("#")) {
                String[] words = line.split(" \\| ");
                kinds.put(words[0], words[1]);
            }
        }
        takeFindings(kinds, fault -> new PortStage("FAULT=" + fault + " " + command));
    }
}
