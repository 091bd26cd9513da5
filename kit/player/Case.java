package kit.player;

import java.io.IOException;
import java.io.UncheckedIOException;
import java.nio.charset.StandardCharsets;
import java.nio.file.Files;
import java.nio.file.Path;
import java.util.List;
import java.util.regex.Matcher;
import java.util.regex.Pattern;

/** A program with its schedule, and the trace that Vuthgal gives it. */
record Case(String name, Path file, Program program, List<Choice> schedule, String wanted) {
    static final String IN_A_FOLDER = "NAME.txt with a line `.run` and its schedule, or NAME.asm with NAME.schedule or NAME.plan";
    private static final Pattern RUN = Pattern.compile("(?dm)^[ \t\r]*\\.run[ \t\r]*(;.*)?$");
    private static final String TEXT = ".txt";

    /** A program under the schedule of another file. */
    static Case of(Vuthgal vuthgal, String name, Path file, Path schedule) {
        return under(vuthgal, name, file, read(schedule));
    }

    /** A text {@code NAME.txt} with its schedule, or {@code NAME.asm} with a schedule or a plan beside it. */
    static Case of(Vuthgal vuthgal, String name, Path file) {
        if (file.toString().endsWith(TEXT)) {
            return ofText(vuthgal, name, file);
        }
        Path schedule = beside(file, ".schedule");
        Path plan = beside(file, ".plan");
        if (!Files.exists(plan)) {
            return of(vuthgal, name, file, schedule);
        }
        if (Files.exists(schedule)) {
            throw new Vuthgal.Refused(file + " has a schedule and a plan");
        }
        return under(vuthgal, name, file, vuthgal.plan(file, plan));
    }

    private static Case ofText(Vuthgal vuthgal, String name, Path file) {
        String text = read(file);
        Matcher run = RUN.matcher(text);
        run.find();
        String wanted = vuthgal.run(file);
        Program program = new Program(vuthgal.list(file, text.substring(0, run.start())));
        return new Case(name, file, program, Choice.schedule(text.substring(run.end())), wanted);
    }

    private static Case under(Vuthgal vuthgal, String name, Path file, String schedule) {
        String wanted = vuthgal.run(file, schedule);
        return new Case(name, file, new Program(vuthgal.list(file)), Choice.schedule(schedule), wanted);
    }

    /** Whether a file is a case, alone or with what stands beside it. */
    static boolean isCase(Path file) {
        if (file.toString().endsWith(TEXT)) {
            return Files.isRegularFile(file) && RUN.matcher(read(file)).find();
        }
        return file.toString().endsWith(".asm")
            && (Files.exists(beside(file, ".schedule")) || Files.exists(beside(file, ".plan")));
    }

    private static String read(Path file) {
        try {
            return Files.readString(file, StandardCharsets.ISO_8859_1);
        } catch (IOException failed) {
            throw new UncheckedIOException(failed);
        }
    }

    /** The file beside a program with another ending. */
    static Path beside(Path file, String ending) {
        return file.resolveSibling(title(file) + ending);
    }

    /**
     * The trace that is kept of a case, after the line {@code == NAME}: in the file {@code traces} of its folder, or of this folder
     * in the archive {@code traces.zip} beside it. It is null if none is kept.
     */
    static String keptTrace(Path file) throws IOException {
        Path folder = file.toAbsolutePath().normalize().getParent();
        Path alone = folder.resolve("traces");
        String all = Files.exists(alone) ? read(alone)
            : Archive.read(folder.resolveSibling("traces.zip")).getOrDefault(folder.getFileName() + TEXT, "");
        String named = title(file) + "\n";
        for (String each : ("\n" + all + "== ").split("\n== ")) {
            if (each.startsWith(named)) {
                return each.substring(named.length()) + "\n";
            }
        }
        return null;
    }

    private static String title(Path file) {
        String name = file.getFileName().toString();
        int dot = name.lastIndexOf('.');
        return dot < 0 ? name : name.substring(0, dot);
    }

    /** The file's name without its ending. */
    String title() {
        return title(file);
    }

    /** Whether it is called as its file, as a scenario of the player's own isn't. */
    boolean isOfAFile() {
        return name.endsWith(file.getFileName().toString());
    }

    /** The first line in which another trace isn't this case's; 0 where there is none. */
    int firstDifference(String trace) {
        List<String> ours = wanted.lines().toList();
        List<String> theirs = trace.lines().toList();
        int line = 0;
        while (line < ours.size() && line < theirs.size() && ours.get(line).equals(theirs.get(line))) {
            line++;
        }
        return line == ours.size() && line == theirs.size() ? 0 : line + 1;
    }

    /** What the comment in the program's first line says: the heading of BEHAVIOUR.md and the rule; empty where it says none. */
    String rule() {
        String text = Files.exists(file) ? read(file) : "";
        return text.startsWith("; ") ? text.substring(2).lines().findFirst().orElse("") : "";
    }

    /** The heading alone. */
    String heading() {
        int colon = rule().indexOf(':');
        return colon < 0 ? "" : rule().substring(0, colon);
    }
}
