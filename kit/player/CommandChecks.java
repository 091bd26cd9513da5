package kit.player;

import java.io.ByteArrayOutputStream;
import java.io.IOException;
import java.io.PrintStream;
import java.io.UncheckedIOException;
import java.nio.file.Files;
import java.nio.file.Path;
import java.util.ArrayList;
import java.util.Collections;
import java.util.List;
import java.util.Map;
import java.util.Optional;
import java.util.Set;
import java.util.concurrent.TimeUnit;
import java.util.regex.Matcher;
import java.util.regex.Pattern;
import java.util.stream.Stream;

/** Whether the command {@code kit/play} says the right words, and leaves nothing behind, where it can't simply play. */
final class CommandChecks {
    /** A port on the JVM that has barriers alone. */
    public static final class BarriersAlone implements Factory {
        @Override
        public PhaserUnderTest phaser(PhaserUnderTest parent, int parties, int firstPhase, OnAdvance onAdvance) {
            throw new UnsupportedOperationException("it makes no phaser");
        }

        @Override
        public BarrierUnderTest barrier(int parties, Runnable action) {
            return new JdkFactory().barrier(parties, action);
        }
    }

    /** The words of a command, its status, and what has to come in what it says. */
    private record Check(int status, String says, String... words) {
    }

    private static final String NO_NUMBER = " wants a number from ";
    private static final int INTERRUPT = 2;
    private static final long MILLISECOND = 1_000_000L;
    private static final long SOON = 10_000 * MILLISECOND;
    /** So many times as long as the right port takes, which is less than ten seconds where the machine isn't busy. */
    private static final int TIMES_THE_RIGHT_ONE = 6;

    private final Path kit;
    private final Path vuthgal;
    private final Part part;
    private final Path room;

    CommandChecks(Path kit, Path vuthgal, Part part) throws IOException {
        this.kit = kit.toAbsolutePath().normalize();
        this.vuthgal = vuthgal.toAbsolutePath();
        this.part = part;
        room = Files.createTempDirectory("vuthgal-commands");
    }

    /** What is no command, and what can't be played to its end. */
    void checkWords() throws IOException {
        String reset = folder("reset");
        String one = reset + "/a-timed-wait.txt";
        List<Check> checks = List.of(
            new Check(0, "kit/play [OPTION].. CASE [--trace FILE]\n", "--help"),
            new Check(2, "there is no case in", reset, room.toString()),
            new Check(2, "--random" + NO_NUMBER, "--random", "-5"),
            new Check(2, "--random" + NO_NUMBER, "--random", "0"),
            new Check(2, "--random" + NO_NUMBER, "--random", "5000000000"),
            new Check(2, "--seed" + NO_NUMBER, "--random", "1", "--seed", "-1"),
            new Check(2, "--seed" + NO_NUMBER, "--random", "1", "--seed", "9223372036854775807"),
            new Check(2, "--jobs" + NO_NUMBER, "--jobs", "0", reset),
            new Check(2, "--jobs wants --port", "--jobs", "2", reset),
            new Check(2, "--patience wants a factor", "--patience", "NaN", reset),
            new Check(2, "--keep wants --random or --burst", "--keep", room.toString(), reset),
            new Check(2, "--burst" + NO_NUMBER, "--burst", "0"),
            new Check(2, "there is no ./nosuch.burst", "--burst", "./nosuch.burst"),
            new Check(2, "with --burst and --for go only", "--burst", "1", "--known"),
            new Check(2, "--round wants --burst or --for", "--round", "1", reset),
            new Check(2, "--for" + NO_NUMBER, "--for", "0"),
            new Check(2, "--kind wants --burst or --for", "--kind", "trips", reset),
            new Check(2, "there is no kind trip; these are:\nmeetings ", "--burst", "1", "--kind", "trip"),
            new Check(2, "--kind goes with no --round and no --burst FILE", "--burst", "1", "--round", "5", "--kind", "trips"),
            new Check(2, "--points wants --port", "--burst", "1", "--points", "1"),
            new Check(2, "--points" + NO_NUMBER, "--burst", "1", "--port", "true", "--points", "7..6"),
            new Check(0, "\ntrips ", "--kinds"),
            new Check(0, "20 bursts of 2 kinds, ", "--burst", "20", "--kind", "trips,barging"),
            new Check(0, " % of the calls ran beside another thread's, in ", "--burst", "20"),
            new Check(3, "\ntoo few: at a load of ", "--for", "1", "--burst", "1000000000"),
            new Check(0, "14 bursts of 7 kinds, ", "--burst", "14", "--like", "action"),
            new Check(2, "--like wants one of action, hang, ", "--burst", "6", "--like", "noise"),
            new Check(0, "round 5 didn't fail in 3 tries\n", "--burst", "3", "--round", "5"),
            new Check(1, "the port doesn't answer: case", "--port", "exec sleep 600", one),
            new Check(1, "burst 1 0 meetings\n  the port has ended before its first answer",
                "--burst", "1", "--port", "./nosuch"),
            new Check(1, "with status 127 (no such command)", "--port", "./nosuch", reset),
            new Check(1, " different, 0 left out\n", "--keep-going", "--port", "./nosuch", reset),
            new Check(0, "2 left out: it makes no phaser\n", "--factory", BarriersAlone.class.getName(), folder("action")),
            new Check(2, "nothing was compared\n", "--factory", BarriersAlone.class.getName(), folder("policies")),
            new Check(0, " left out: it makes no phaser\n", "--factory", BarriersAlone.class.getName(), "--random", "30"));
        AtOnce.each(checks, this::check);
        AtOnce.each(List.of(
            new Check(2, "there is no case in", room.toString()),
            new Check(0, "<testsuite name=\"bursts\" tests=\"20\" failures=\"0\" errors=\"0\" skipped=\"0\"",
                "--burst", "20", "--report", "/dev/stdout"),
            new Check(1, "the run ends here, since there is no answer in 3 cases in a row", "--port", "./nosuch", reset)),
            this::checkScript);
        checkNothingIsWritten();
    }

    /** The files that make a case, and those that make none. */
    void checkForms() throws IOException {
        Path forms = Files.createTempDirectory("vuthgal-forms");
        String program = ".phaser p 1\n.thread ann main\nmain: parr r0 p\n halt\n";
        write(forms.resolve("one.txt"), program + " .run ; its schedule\nt0*2\n");
        write(forms.resolve("two.asm"), program);
        write(forms.resolve("two.schedule"), "t0*2\n");
        write(forms.resolve("by-name.asm"), program);
        write(forms.resolve("by-name.plan"), "ann.\n");
        write(forms.resolve("alone.asm"), program);
        write(forms.resolve("read-me.txt"), "how to .run it\n");
        AtOnce.each(List.of(
            new Check(0, "\n3 same, 0 different, 0 left out\n", forms.toString()),
            new Check(0, "same\n1 calls asked", forms.resolve("one.txt").toString()),
            new Check(0, "same\n1 calls asked", forms.resolve("two.asm").toString()),
            new Check(0, "same\n1 calls asked", forms.resolve("by-name.asm").toString()),
            new Check(0, "same\n1 calls asked", forms.resolve("alone.asm").toString(), forms.resolve("two.schedule").toString()),
            new Check(0, "\n2 same, 0 different", forms.resolve("one.txt").toString(), forms.resolve("two.asm").toString()),
            new Check(2, "alone.asm is no case: that is NAME.txt with", forms.resolve("alone.asm").toString()),
            new Check(2, "read-me.txt is no case: that is NAME.txt with", forms.resolve("read-me.txt").toString()),
            new Check(2, "--transcripts wants folders", "--transcripts", "there", forms.resolve("one.txt").toString())
        ), this::check);
        write(forms.resolve("two.plan"), "..\n");
        check(new Check(2, "two.asm has a schedule and a plan", forms.toString()));
    }

    /** Classes are kept, and no compiler is needed again until a source changes; two who compile at once don't meet. */
    void checkCompile() throws IOException {
        Path other = Files.createDirectories(Files.createTempDirectory("vuthgal-kit").resolve("a kit"));
        for (String folder : List.of("player", "wrong", "wrong/burst")) {
            write(Files.createDirectories(other.resolve(folder)).resolve("One.java"),
                "package " + folder.replace('/', '.') + ";\nclass One {\n}\n");
        }
        Path cache = room.resolve("cache");
        List<String> first = Collections.synchronizedList(new ArrayList<>());
        AtOnce.each(List.of(1, 2, 3, 4), number -> first.add(compile(other, cache, "javac")));
        Path classes = Path.of(first.get(0));
        part.take("kit/compile, four at once", Set.copyOf(first).size() == 1 && Files.exists(classes.resolve("wrong/burst/One.class"))
            && classes.startsWith(cache) && count(classes.getParent()) == 1, first + ", and " + count(classes.getParent()) + " are kept");
        String again = compile(other, cache, "false");
        part.take("kit/compile, again", again.equals(first.get(0)), again);
        write(other.resolve("wrong/One.java"), "package wrong;\nclass One {\n    int more;\n}\n");
        String changed = compile(other, cache, "javac");
        part.take("kit/compile, a change", !changed.equals(again) && Files.exists(Path.of(changed, "wrong/One.class")), changed);
        String kept = compile(other, Path.of("/dev/null"), "javac");
        part.take("kit/compile, nothing can be kept", Path.of(kept).startsWith(room) && Files.exists(Path.of(kept, "wrong/One.class")), kept);
        write(other.resolve("wrong/One.java"), "package wrong;\nclas One {\n}\n");
        String refused = compile(other, cache, "javac");
        part.take("kit/compile, a wrong source", refused.contains("status 1") && count(classes.getParent()) == 2, refused);
    }

    private static long count(Path folder) {
        try (Stream<Path> all = Files.list(folder)) {
            return all.count();
        } catch (IOException failed) {
            throw new UncheckedIOException(failed);
        }
    }

    /** What `kit/compile` says of another kit, with this command in place of the compiler. */
    private String compile(Path other, Path cache, String compiler) {
        String words = "javac() { command " + compiler + " \"$@\"; }; export -f javac; export XDG_CACHE_HOME='" + cache
            + "'; '" + kit.resolve("compile") + "' '" + room + "' '" + other + "' || echo status $?";
        return Output.by(inRoom(List.of("bash", "-c", words))).text().strip();
    }

    private static void write(Path file, String text) throws IOException {
        Files.writeString(file, text);
    }

    /** A scenario that differs is kept as a case, which plays as it was told. */
    private void checkKept(String port) throws IOException {
        Path kept = Files.createTempDirectory("vuthgal-kept");
        Path one = kept.resolve("random-1.txt");
        check(new Check(1, "kept as " + one + "\n", "--random", "1", "--first-try", "--keep", kept.toString(),
            "--port", port + "'64 = ' 'say 64 = x\\n'"));
        boolean plays = Files.exists(one) && new Vuthgal(vuthgal).run(one).equals(Files.readString(Case.beside(one, ".trace")));
        part.take("--keep", plays, "random-1.txt, as it was kept, doesn't play as random-1.trace");
        check(new Check(0, "1 same, 0 different", kept.toString()));
        Path burst = kept.resolve("meetings-1-0.burst");
        check(new Check(1, "kept; again: --burst " + burst + "\n", "--burst", "1", "--keep", kept.toString(),
            "--port", port + "'0 did' 'exit 3'"));
        check(new Check(1, "round 0 failed at try 1\n", "--burst", burst.toString(), "--port", port + "'0 did' 'exit 3'"));
        check(new Check(2, "--kind goes with no --round and no --burst FILE", "--burst", burst.toString(), "--kind", "trips"));
    }

    /** What a port that isn't whole, or that has to be killed, comes to. */
    void checkPorts(String python) throws IOException {
        String port = faults(python);
        String wrong = wrong(python);
        String stands = ", and it stands still";
        String one = folder("reset") + "/a-timed-wait.txt";
        List<Check> checks = List.of(
            new Check(0, "2 left out: it makes no phaser\n", "--port", port + "without phaser", folder("action")),
            new Check(2, "nothing was compared\n", "--port", port + "without barrier", folder("reset")),
            new Check(2, "nothing was compared\n", "--port", port + "without case", folder("reset")),
            new Check(1, "burst 1 0 meetings\n  the port has ended, with status 3",
                "--burst", "1", "--port", port + "'0 did' 'exit 3'"),
            new Check(1, "  thread 0 is in no call, and doesn't end its list\n", "--burst", "1", "--patience", "0.1",
                "--port", port + "'0 end' 'say '"),
            new Check(1, ": 1 found, the first at try 1, in round 0, after ", "--burst", "1", "--port", port + "'0 did' 'exit 3'"),
            new Check(1, "round 0 failed at try 1\n", "--burst", "3", "--round", "0", "--port", port + "'0 did' 'exit 3'"),
            new Check(0, " same, 0 different, 0 left out\n", "--port", right(python), kit.resolve("differences").toString()),
            new Check(0, " not as the JDK, but as ours, as in differences/own-reset\n", "--known", "--port", right(python),
                kit.resolve("differences").toString()),
            new Check(0, "the port takes no lists, so its calls came one by one", "--burst", "3", "--port", port + "without lists"),
            new Check(0, "the port takes no lists, so its calls came one by one", "--burst", "3", "--port", port + "old lists"),
            new Check(0, "116 bursts of 58 kinds, ", "--burst", "116", "--jobs", "2", "--port", port + "nothing ''"),
            new Check(0, "21 kinds left out: it makes no barrier\n58 bursts of 37 kinds, ",
                "--burst", "58", "--port", port + "without barrier"),
            new Check(0, "2 kinds left out: it makes no inside\n58 bursts of 56 kinds, ",
                "--burst", "58", "--port", port + "without inside"),
            new Check(1, "that is a call inside an onAdvance or an action, and comes behind `enter`\n", "--burst", "40",
                "--kind", "calls-inside-an-action", "--port", port + "'0 enter' 'say '"),
            new Check(2, "nothing was compared\n", "--burst", "50", "--port", port + "without case"),
            new Check(0, "12 bursts of 12 kinds, ", "--burst", "12", "--points", "3", "--port", right(python)),
            new Check(0, "12 kinds in which points matter, 1 to 1 bursts each with points\ntoo few: at a load of ",
                "--burst", "12", "--points", "3", "--port", right(python)),
            new Check(3, "\ntoo few: at a load of ", "--for", "1", "--port", right(python)),
            new Check(1, " of its list is missing\n", "--burst", "5", "--kind", "an-interrupt-alone", "--port", wrong + "clears_late.py"),
            spins("polls.py 0", wrong, "waiting/for-the-present-phase.txt"),
            spins("spins.py interrupted", wrong, "waiting/interrupted-before.txt"),
            spins("spins.py held", wrong, "registration/held-while-onadvance-runs.txt"),
            spins("spins.py action", wrong, "action/others-come-while-it-runs.txt"),
            new Check(1, "who-has-arrived-goes-on-waiting.txt differs ", "--port", wrong + "wakes_others.py meetings",
                folder("interruption")),
            new Check(1, "an-interrupt-wakes-no-other-waiter.txt differs ", "--port", wrong + "wakes_others.py action",
                folder("action")),
            new Check(1, "with POINTS=7\nagain: --burst 20000 --seed 1 --round 0 --points 7..7\n",
                "--burst", "1", "--points", "7..9", "--port", port + "'0 did' 'exit 3'"),
            new Check(1, "burst 1 0 meetings\n  the port's race detector warns:\n    WARNING: DATA RACE, as kit/faults/port.py"
                + " has it\n    Read by thread 0\n", "--burst", "20", "--port", port + "'0 did' 'warn Read by thread 0'"),
            new Check(1, "burst 1 0 meetings\n  the port's race detector warns:\n    WARNING: DATA RACE, as kit/faults/port.py"
                + " has it\n    the last answer\n", "--burst", "1", "--port", port + "'64 end' 'warn the last answer'"),
            new Check(0, "before the first case: an interrupt doesn't end awaitAdvanceInterruptibly 0 2 " + Caller.HOUR
                + " of t0 (its last line is `0 = 2`" + stands, "--port", wrong + "ignores_interrupts.py", folder("phase-numbers")),
            new Check(1, "before the first case: the port doesn't answer: case (it has written nothing" + stands
                + "; is each line flushed?)\n", "--port", wrong + "flushes_nothing.py", one),
            new Check(1, "before the first case: the call getPhase 0 doesn't answer (its last line is `ok`" + stands
                + "; is each line flushed?)\n", "--port", wrong + "flushes_nothing.py threads", one),
            new Check(0, "\n3 same, 0 different, 0 left out", "--random", "3", "--port",
                python + " " + kit.resolve("faults/begins_late.py")),
            new Check(1, "before the first case: not so when it was tried again\n",
                "--port", wrong + "loses_wake_ups.py 7", folder("phase-numbers")),
            new Check(1, "5 same, 0 different, 0 left out; stuck before the first case\n",
                "--port", wrong + "loses_wake_ups.py 7", folder("phase-numbers")),
            new Check(1, " same, 0 different, 2 stuck, 0 left out; 2 played again with more patience\n", "--port", wrong + "loses_wake_ups.py", folder("waiting")));
        AtOnce.each(checks, this::check);
        checkScript(new Check(0, "1 bursts of 1 kind, ", "--burst", "1", "--port", "[ -z \"${POINTS+set}\" ] && " + right(python)),
            "env", PointSeeds.VARIABLE + "=5");
        checkScript(new Check(1, "--keep FOLDER writes it\n", "--random", "1", "--port", port + "'64 = ' 'say 64 = x\\n'"));
        checkEarly(wrong + "wakes_others.py ");
        checkNothingIsWritten();
        checkKept(port);
        checkLists(port);
    }

    /** Who comes out too early is seen though its next turn comes behind the end, where its answer is the right one. */
    private void checkEarly(String wakesOthers) throws IOException {
        Path early = Files.createTempDirectory("vuthgal-early");
        Path meeting = early.resolve("meeting.txt");
        write(meeting, ".phaser root 2\n.thread one meets\n.thread two hurries\n.thread driver main\nmeets: paaa r1 root\nhalt\n"
            + "hurries: pawaiti r1 root r0\nhalt\nmain: intr two\nparr r0 root\nhalt\n.run\nt0 t1 t2 t1*2 t2*2 t0*2\n");
        check(new Check(1, " odd: arriveAndAwaitAdvance 0 of t0 ends too early\n", "--port", wakesOthers + "meetings", meeting.toString()));
        Path action = early.resolve("action.txt");
        write(action, ".phaser root 1\n.barrier gate 3 action act\n.thread one comes\n.thread two comes\n.thread last comes\n"
            + ".thread driver main\ncomes: cawait r0 gate\nhalt\nact: ret\nmain: intr one\nparr r0 root\nhalt\n.run\n"
            + "t0 t1 t2 t3*3 t2*2 t0*2 t1*2\n");
        check(new Check(1, " odd: await 0 of t0 ends too early\n", "--port", wakesOthers + "action", action.toString()));
    }

    /** How soon the player says what hangs, and what a signal leaves. */
    void checkEnds(String python) throws IOException, InterruptedException {
        String port = faults(python);
        checkSoon(right(python), wrong(python) + "ignores_interrupts.py",
            folder("reset") + "/a-timed-wait.txt");
        checkLeft(wrong(python) + "ignores_interrupts.py");
        checkStop(port);
        checkEnd(port, "TERM");
        if (!ignoresInterrupts()) {
            checkEnd(port, "INT");
        }
    }

    /** A port that hangs is left where bursts are kept: it lives on when the player has ended, and each wait is told. */
    private void checkLeft(String port) throws IOException {
        Output told = Output.by(player(List.of(), "--burst", "1", "--kind", "an-interrupt-alone", "--patience", "0.1",
            "--keep", Files.createTempDirectory("vuthgal").toString(), "--port", port));
        Matcher left = Pattern.compile("\n    thread 0 +[0-9.]+ s  awaitAdvanceInterruptibly 0 0\n"
            + "  process \\d+: \\d+ threads sleep: [\\d ]+\n.*: process (\\d+); kill it").matcher(told.text());
        Optional<ProcessHandle> process = left.find() ? ProcessHandle.of(Long.parseLong(left.group(1))) : Optional.empty();
        boolean lives = process.filter(CommandChecks::lives).isPresent();
        part.take("a port that hangs is left", told.status() != null && lives, told.text());
        process.ifPresent(ProcessHandle::destroyForcibly);
    }

    /** What hangs before the first case is told within ten seconds; later only where the right port is slow, too. */
    private void checkSoon(String right, String hanging, String one) throws IOException, InterruptedException {
        long usual = nanosecondsUntil("same\n", "--port", right, one);
        long told = nanosecondsUntil("before the first case: ", "--port", hanging, one);
        part.take("what hangs before the first case", told < Math.max(SOON, TIMES_THE_RIGHT_ONE * usual),
            "it is told after " + told / MILLISECOND + " ms, and the right port takes " + usual / MILLISECOND + " ms");
    }

    /** How long it takes until a command has said this. */
    private long nanosecondsUntil(String says, String... words) throws IOException, InterruptedException {
        Path told = Files.createTempFile("vuthgal", ".told");
        long begun = System.nanoTime();
        Process process = Output.begin(player(List.of(), words), told);
        boolean said = false;
        while (!said && System.nanoTime() - begun < Output.LONGEST_SECONDS * 1000 * MILLISECOND) {
            boolean lives = process.isAlive();
            said = Output.read(told).contains(says);
            if (!lives) {
                break;
            }
            Thread.sleep(10);
        }
        long took = System.nanoTime() - begun;
        process.destroy();
        process.waitFor(Output.LONGEST_SECONDS, TimeUnit.SECONDS);
        Files.delete(told);
        return said ? took : Long.MAX_VALUE / TIMES_THE_RIGHT_ONE;
    }

    /** What a port may tell of its list in the first burst in place of what it did, and what is said of that. */
    private void checkLists(String port) {
        Map<String, String> says = Map.of(
            "0 did 1 1 2 = x", "`x` is no int",
            "0 did 1 x 2 = 1", "`x` is no number",
            "0 did 1 1 2", "a number, two times, and an answer have to follow",
            "0 did 1 2 1 = 1", "its times go back",
            "0 did 2 1 2 = 1", "that isn't the next of its list",
            "0 end", "call 1 of its list is missing",
            "7 end", "thread 7 has no list",
            "0 did 1 1 2 through 5", "no onAdvance or action of this call was told to throw that");
        AtOnce.each(List.copyOf(says.entrySet()), each -> {
            ByteArrayOutputStream told = new ByteArrayOutputStream();
            Stage stage = new PortStage(port + "'0 did' 'say " + each.getKey() + "\\n'");
            Bursts bursts = new Bursts(List.of(stage), Bursts.PATIENT, null, new PrintStream(told));
            bursts.play(new BurstOrder(1, BurstOrder.EACH, 1, 0));
            bursts.tell();
            stage.close();
            String fault = "burst 1 0 meetings\n  the port wrote `" + each.getKey() + "`: " + each.getValue() + "\n";
            part.take("a list's line " + each.getKey(), told.toString().startsWith(fault), told.toString());
        });
    }

    /** A wrong port that is right but for its spinning, in this case. */
    private Check spins(String port, String wrong, String one) {
        return new Check(0, "threads spin while all should wait, in 1 case: ", "--first-try", "--port", wrong + port, folder(one));
    }

    private String right(String python) {
        return python + " '" + kit.resolve("ports/python/port.py") + "'";
    }

    /** How the command of a port with a fault begins. */
    private String faults(String python) {
        return python + " '" + kit.resolve("faults/port.py") + "' ";
    }

    /** How the commands of the wrong ports begin. */
    private String wrong(String python) {
        return python + " " + kit.resolve("wrong/ports") + "/";
    }

    private String folder(String rule) {
        return kit.resolve("cases").resolve(rule).toString();
    }

    private void checkNothingIsWritten() throws IOException {
        try (Stream<Path> written = Files.list(room)) {
            part.take("kit/play without --keep", written.findAny().isEmpty(), "it has written something");
        }
    }

    /** In this JVM, since most of a start is the loading of classes. */
    private void check(Check check) {
        try {
            ByteArrayOutputStream told = new ByteArrayOutputStream();
            PrintStream to = new PrintStream(told);
            List<String> words = new ArrayList<>(List.of("--vuthgal", vuthgal.toString()));
            words.addAll(List.of(check.words()));
            take(check, new Output(Player.run(words.toArray(String[]::new), to, to), told.toString()));
        } catch (IOException failed) {
            throw new UncheckedIOException(failed);
        }
    }

    /** By the command as it is, started by these words. */
    private void checkScript(Check check, String... starts) {
        List<String> command = new ArrayList<>(List.of(starts));
        command.addAll(List.of(kit.resolve("play").toString(), "--vuthgal", vuthgal.toString()));
        command.addAll(List.of(check.words()));
        take(check, Output.by(inRoom(command)));
    }

    private void take(Check check, Output told) {
        boolean passes = told.is(check.status(), check.says());
        part.take("kit/play " + String.join(" ", check.words()), passes, told.toString());
    }

    /** Ends the player by a signal while a port with a child hangs: neither stays behind. */
    private void checkEnd(String port, String signal) throws IOException, InterruptedException {
        Path told = Files.createTempFile("vuthgal", ".told");
        Process player = Output.begin(
            player(List.of(), "--patience", "100", "--port", port + "ok child; sleep 600", folder("reset")), told);
        List<ProcessHandle> below = List.of();
        for (int wait = 0; wait < 1_200 && !hasChild(below); wait++) {
            Thread.sleep(50);
            below = player.descendants().toList();
        }
        boolean played = hasChild(below);
        new ProcessBuilder("kill", "-" + signal, Long.toString(player.pid())).start().waitFor();
        player.waitFor(Output.LONGEST_SECONDS, TimeUnit.SECONDS);
        Thread.sleep(100);
        List<ProcessHandle> left = below.stream().filter(CommandChecks::lives).toList();
        part.take("kit/play ended by SIG" + signal, played && left.isEmpty(), "of " + below + " these live on: " + left);
        left.forEach(ProcessHandle::destroyForcibly);
        Files.delete(told);
    }

    /** Bursts that are ended by a signal are counted. */
    private void checkStop(String port) throws IOException, InterruptedException {
        String text = stopped("--burst", "1000000", "--port", port + "nothing ''");
        boolean counted = text.contains("stopped by a signal\n") && text.contains(": 0 found\n") && !text.contains("burst 1 ");
        part.take("bursts ended by SIGTERM", counted, text);
        part.take("bursts at a terminal", text.matches("(?s)\r[0-9]+ bursts, 0 found, [0-9]+ s\033.*"), text);
        String random = stopped("--random", "1000000", "--port", port + "nothing ''");
        counted = random.matches("(?s).*\033\\[Kstopped by a signal\n[1-9].* calls asked, .*\n[1-9][0-9]* same, 0 different, 0 left out, [0-9]+ not played[^\n]*\n");
        part.take("scenarios ended by SIGTERM", counted, random);
    }

    /** What the player tells that is ended by a signal which its port gets too, and sooner. */
    private String stopped(String... words) throws IOException, InterruptedException {
        Path told = Files.createTempFile("vuthgal", ".told");
        Process player = Output.begin(player(List.of("-Dkit.progress=true"), words), told);
        for (int wait = 0; wait < Output.LONGEST_SECONDS * 20 && Files.size(told) == 0; wait++) {
            Thread.sleep(50);
        }
        List<String> command = new ArrayList<>(List.of("kill", "-TERM"));
        player.descendants().forEach(each -> command.add(Long.toString(each.pid())));
        command.add(Long.toString(player.pid()));
        new ProcessBuilder(command).start().waitFor();
        player.waitFor(Output.LONGEST_SECONDS, TimeUnit.SECONDS);
        String text = Output.read(told);
        Files.delete(told);
        return text;
    }

    private static boolean hasChild(List<ProcessHandle> processes) {
        return processes.stream().anyMatch(each -> each.info().commandLine().orElse("").endsWith("sleep 87654"));
    }

    /** Whether this process was started so, as a shell starts what runs in the background: the player would ignore them, too. */
    private static boolean ignoresInterrupts() throws IOException {
        String ignored = Files.readAllLines(Path.of("/proc/self/status")).stream()
            .filter(line -> line.startsWith("SigIgn:")).findFirst().orElse("SigIgn: 0");
        return (Long.parseUnsignedLong(ignored.substring("SigIgn:".length()).strip(), 16) & 1 << (INTERRUPT - 1)) != 0;
    }

    /** Whether it is there, and not only its entry until somebody asks how it ended. */
    private static boolean lives(ProcessHandle process) {
        try {
            return process.isAlive() && !Files.readString(Path.of("/proc/" + process.pid() + "/stat")).contains(") Z ");
        } catch (IOException gone) {
            return false;
        }
    }

    /** The player in a JVM of its own. */
    private ProcessBuilder player(List<String> ofJava, String... words) {
        String java = Path.of(System.getProperty("java.home"), "bin", "java").toString();
        List<String> command = new ArrayList<>(List.of(java, "-XX:+UseSerialGC", "-XX:TieredStopAtLevel=1", "--add-opens",
            "java.base/java.util.concurrent=ALL-UNNAMED", "-cp", System.getProperty("java.class.path")));
        command.addAll(ofJava);
        command.addAll(List.of(Player.class.getName(), "--vuthgal", vuthgal.toString()));
        command.addAll(List.of(words));
        return inRoom(command);
    }

    private ProcessBuilder inRoom(List<String> command) {
        return new ProcessBuilder(command).directory(room.toFile());
    }
}
