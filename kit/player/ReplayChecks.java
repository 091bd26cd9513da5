package kit.player;

import java.io.IOException;
import java.nio.file.Files;
import java.nio.file.Path;
import java.util.ArrayList;
import java.util.List;
import java.util.Map;

/** Whether what works without a JDK does: {@code kit/replay} with the transcripts, and the words that name it. */
final class ReplayChecks {
    /** Where all stand still, so many times as long at each try, since the machine may be busy; more and a time would be over. */
    private static final List<String> PATIENCE = List.of("2", "4", "4");
    private static final String RIGHT = " same, 0 different, 0 left out\n";
    /** So few that it takes some seconds. Where a heap still grows then, `kit/soak` makes twice as many. */
    private static final int WAITS = 24_000;
    /** Enough where something of each wait is kept. */
    private static final int FEW_WAITS = 6_000;
    /** Longer than what many a reader of lines has room for. */
    private static final int LONG_LINE = 100_000;

    /** The status of a replay and what it has to say, the command of the port, and folders of cases. */
    private record Check(int status, String says, String command, String folders) {
    }

    private final Path kit;
    private final String python;
    /** How the commands of the wrong ports begin. */
    private final String wrong;
    private final Part part;

    ReplayChecks(Path kit, String python, Part part) {
        this.kit = kit.toAbsolutePath().normalize();
        this.python = python;
        wrong = python + " " + this.kit.resolve("wrong/ports") + "/";
        this.part = part;
    }

    /** All transcripts are right on each of the ports, those that no program makes also on the JDK, and wrong ports are found. */
    void check(List<Kit.Port> ports) throws IOException {
        List<Runnable> checks = new ArrayList<>();
        checks.add(() -> check(1, "/reset: a-broken-one-is-whole-again fails\n0 passed, 2 failed\n", Map.of("VUTHGAL", "false"),
            "cd '" + kit + "' && ./traces cases/action cases/reset"));
        ports.forEach(port -> checks.add(() -> checkPoints(port.command())));
        List<Check> everything = new ArrayList<>();
        for (String folder : folders()) {
            everything.add(right("", folder));
        }
        ports.forEach(port -> checks.add(() -> checkAll(port.command(), everything)));
        String java = Path.of(System.getProperty("java.home"), "bin", "java") + " --add-opens"
            + " java.base/java.util.concurrent=ALL-UNNAMED -cp " + System.getProperty("java.class.path") + " kit.player.JdkPort";
        for (String folder : List.of("children", "constructors", "times", "phase-numbers")) {
            Check right = right(java, folder);
            checks.add(() -> check(right));
        }
        wrongPorts().forEach(each -> checks.add(() -> check(each)));
        AtOnce.each(checks, Runnable::run);
        checkExamples(ports);
        checkAgain();
        checkWithoutJdk();
    }

    /** What a port costs that waits: the right ones nothing, and wrong ones are found, among them the phaser without a lock. */
    void checkSoaks(List<Kit.Port> ports, String lockFree) {
        List<Runnable> checks = new ArrayList<>();
        for (Kit.Port port : ports) {
            checks.add(() -> soak(0, port.command(), WAITS, "while 60 threads wait: "));
        }
        checks.add(() -> soak(0, "--help", WAITS, "What a port costs that waits: "));
        String without = python + " " + kit.resolve("faults/port.py") + " without barrier";
        checks.add(() -> soak(0, without, WAITS, "left out: it makes no barrier\n"));
        checks.add(() -> soak(1, wrong + "keeps_waits.py", FEW_WAITS, "while 60 threads wait: 0."));
        checks.add(() -> soak(1, wrong + "polls.py 0.01", 0, "\n  new waits at a barrier alone: "));
        checks.add(() -> soak(1, wrong + "spins.py interrupted 0.001", 0, dearest("interrupted waits")));
        checks.add(() -> soak(1, wrong + "spins.py held 0.001", 0, dearest("held registrations")));
        checks.add(() -> soak(1, wrong + "spins.py action 0.001", 0, "calls during an action alone: "));
        checks.add(() -> soak(1, wrong + "spins.py comers 0.001", 0, dearest("interrupted calls during an action")));
        checks.add(() -> soak(1, wrong + "keeps_waits.py breaks", FEW_WAITS, "at a barrier, all interrupted before: "));
        if (!lockFree.isEmpty()) {
            checks.add(() -> soak(1, "FAULT=permit-is-kept " + lockFree, WAITS, dearest("waits after a release"),
                "all too late: less than "));
            checks.add(() -> soak(1, "FAULT=left-on-the-stack " + lockFree, WAITS, " bytes a wait are left, resident\n"));
            checks.add(() -> soak(1, "FAULT=freed-while-queued " + lockFree, WAITS, "behind waits that are late, "));
        }
        checks.add(() -> soak(2, python + " " + kit.resolve("faults/port.py") + " ok 'say okay\\n'", WAITS,
            "case has to have the answers ok, and has okay\n"));
        checks.add(() -> check(2, "kit/soak COMMAND [WAITS]", Map.of(), python + " '" + kit.resolve("soak") + "'"));
        AtOnce.sleepers(checks);
    }

    private List<Check> wrongPorts() {
        String faults = python + " " + kit.resolve("faults/port.py") + " ";
        return List.of(
            new Check(1, "interruption/while-it-waits differs, at line ", wrong + "ignores_interrupts.py", "interruption"),
            new Check(1, "policies/until-tells-the-waiters differs, at line ", wrong + "loses_wake_ups.py 1", "policies"),
            constructs("negative", "a-phaser-of-negative-parties"),
            constructs("too-many", "a-phaser-of-too-many-parties"),
            constructs("no-room", "a-child-without-room-in-its-parent"),
            constructs("barrier", "a-barrier-of-0-parties"),
            new Check(1, "times/the-longest-of-a-phase differs, at line ", wrong + "overflows.py", "times"),
            new Check(1, "times/the-longest-at-a-barrier differs, at line ", wrong + "overflows.py", "times"),
            new Check(1, "0 same, ", wrong + "flushes_nothing.py threads", "phase-numbers"),
            new Check(1, "`< 0 = 0`: ['0 = 7'] came", faults + "'0 = 0' 'say 0 = 7\\n'", "phase-numbers"),
            new Check(1, "waiting/for-the-present-phase differs, at line ", faults + "'1 = 0' 'also 0 = 1\\n'", "waiting"),
            new Check(0, " left out: no it makes no barrier\n", faults + "without barrier", "tiers action"),
            new Check(2, "0 same, 0 different, 374 left out\n", faults + "without case", ""),
            new Check(2, "kit/replay [--patience FACTOR] COMMAND [FILE..]", "--none", ""));
    }

    /** A port whose constructors refuse all but one thing, and the transcript that it plays otherwise. */
    private Check constructs(String what, String transcript) {
        return new Check(1, "constructors/" + transcript + " differs, at line ", wrong + "constructs_all.py " + what, "constructors");
    }

    /** An empty seed of points is none, and another word that is no number is refused. */
    private void checkPoints(String command) {
        check(0, "ok\n", Map.of(PointSeeds.VARIABLE, ""), "echo case | " + command);
        for (String word : List.of("12x", "+5", "18446744073709551616")) {
            check(2, "POINTS has to be a number, and is " + word + "\n", Map.of(PointSeeds.VARIABLE, word), command + " < /dev/null");
        }
    }

    /** How it is said that this way to wait costs most. */
    private static String dearest(String way) {
        return " % of a processor\n  " + way + " alone: ";
    }

    /** What a port costs that waits, by {@code kit/soak}. */
    private void soak(int status, String command, int waits, String... says) {
        String quoted = "'" + command.replace("'", "'\\''") + "' " + waits;
        check(status, List.of(says), Map.of(), python + " '" + kit.resolve("soak") + "' " + quoted);
    }

    /** The folders of cases of which there are transcripts. */
    private List<String> folders() throws IOException {
        return Transcripts.kept(kit.resolve("transcripts")).keySet().stream().map(file -> file.replace(".txt", "")).toList();
    }

    /** All transcripts of this folder's cases are right. */
    private Check right(String command, String folder) throws IOException {
        String transcripts = Transcripts.kept(kit.resolve("transcripts")).get(folder + ".txt");
        return new Check(0, transcripts.lines().filter(line -> line.startsWith("# ")).count() + RIGHT, command, folder);
    }

    /** All transcripts by one replay; folder by folder, and with more patience, where something differs. */
    private void checkAll(String command, List<Check> folders) {
        int all = folders.stream().mapToInt(each -> Integer.parseInt(each.says().split(" ")[0])).sum();
        if (replay(command, "", PATIENCE.get(0)).is(0, all + RIGHT)) {
            part.take(folders.size(), 0);
        } else {
            folders.forEach(each -> replay(each.status(), each.says(), command, files(each)));
        }
    }

    /** The examples of the port protocol are played as they stand in its page, without their remarks, and a line that is long. */
    private void checkExamples(List<Kit.Port> ports) throws IOException {
        String page = Files.readString(kit.resolve("PROTOCOL.md"));
        StringBuilder examples = new StringBuilder();
        int number = 0;
        for (String line : page.substring(page.indexOf("**Examples.** `>`"), page.indexOf("## Transcripts")).split("\n")) {
            if (line.matches("    [><.].*")) {
                String said = line.strip().replaceAll(" {2,}.*", "");
                examples.append(said.equals("> case") ? "# example " + ++number + ": of the page\n" : "").append(said).append('\n');
            }
        }
        examples.append("# a long line: with blanks behind it\n> case").append(" ".repeat(LONG_LINE)).append("\n< ok\n");
        Path file = Files.createTempFile("vuthgal", ".txt");
        Files.writeString(file, examples);
        for (Kit.Port port : ports) {
            replay(0, number + 1 + RIGHT, port.command(), " " + file);
        }
        Files.delete(file);
    }

    private void check(Check check) {
        replay(check.status(), check.says(), check.command(), check.folders().isEmpty() ? "" : files(check));
    }

    private static String files(Check check) {
        StringBuilder files = new StringBuilder();
        for (String name : check.folders().split(" ")) {
            files.append(" transcripts/").append(name).append(".txt");
        }
        return files.toString();
    }

    private void replay(int status, String says, String command, String files) {
        String words = "kit/replay '" + command + "'" + files;
        Output told = null;
        for (String patience : PATIENCE) {
            if (told != null) {
                part.to.println(words + " is played again: " + told.text());
            }
            told = replay(command, files, patience);
            if (told.is(status, says)) {
                break;
            }
        }
        part.take(words, told.is(status, says), told.toString());
    }

    private Output replay(String command, String files, String patience) {
        String quoted = "'" + command.replace("'", "'\\''") + "'";
        return shell("cd '" + kit + "' && " + python + " ./replay --patience " + patience + " " + quoted + files, Map.of());
    }

    /** The factor of patience has its bounds, and a port that differs is dead before another is started in its place. */
    private void checkAgain() throws IOException {
        String replay = python + " '" + kit.resolve("replay") + "'";
        check(2, "--patience wants a factor from 0.1 to 100, and not 0\n", Map.of(), replay + " --patience 0 true");
        Path room = Files.createTempDirectory("vuthgal-again");
        Path file = Files.writeString(room.resolve("case.txt"), "# a case: which begins\n> case\n< ok\n");
        Path first = room.resolve("first");
        String differs = "echo $$ > " + first + "; echo okay; exec sleep 600";
        String isRight = "! kill -0 $(cat " + first + ") && " + python + " " + kit.resolve("ports/python/port.py");
        check(0, "1" + RIGHT, Map.of(), replay + " 'if [ -e " + first + " ]; then " + isRight + "; else " + differs + "; fi' " + file);
        Files.delete(first);
        Files.delete(file);
        Files.delete(room);
    }

    /** With a path on which the commands of the system stand, but no {@code javac}. */
    private void checkWithoutJdk() throws IOException {
        Path room = Files.createTempDirectory("vuthgal-path");
        List<Path> links = new ArrayList<>();
        for (String name : List.of("bash", "dirname", "env", "mktemp", "mkdir", "realpath", "rm")) {
            links.add(Files.createSymbolicLink(room.resolve(name), Path.of("/usr/bin", name)));
        }
        Map<String, String> path = Map.of("PATH", room.toString());
        for (String command : List.of("play", "run")) {
            check(2, "no javac: kit/" + command + " needs a JDK, 17 or later. Without one kit/replay", path, kit.resolve(command) + "");
        }
        for (Path link : links) {
            Files.delete(link);
        }
        Files.delete(room);
    }

    private void check(int status, String says, Map<String, String> environment, String words) {
        check(status, List.of(says), environment, words);
    }

    private void check(int status, List<String> says, Map<String, String> environment, String words) {
        Output told = shell(words, environment);
        part.take(words, says.stream().allMatch(each -> told.is(status, each)), told.toString());
    }

    private Output shell(String words, Map<String, String> environment) {
        ProcessBuilder command = new ProcessBuilder("/usr/bin/bash", "-c", words);
        command.environment().putAll(environment);
        return Output.by(command);
    }
}
