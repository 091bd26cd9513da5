package kit.player;

import java.io.IOException;
import java.io.PrintStream;
import java.io.UncheckedIOException;
import java.nio.file.Files;
import java.nio.file.Path;
import java.util.ArrayList;
import java.util.List;
import java.util.stream.Stream;

/** The command {@code kit/play}: plays cases on the JDK's classes, or on a port, and says whether they are the same. */
public final class Player {
    private final Options options;
    private final Vuthgal vuthgal;
    private final PrintStream to;

    /** The file of a case, and the name by which it is told. */
    private record Named(String name, Path file) {
    }

    private Player(Options options, PrintStream to) {
        this.options = options;
        this.to = to;
        vuthgal = new Vuthgal(options.vuthgal);
    }

    public static void main(String[] words) throws IOException {
        System.exit(run(words, System.out, System.err));
    }

    /** Answers the exit status. */
    static int run(String[] words, PrintStream to, PrintStream errors) throws IOException {
        if (List.of(words).contains("--help")) {
            to.println(Options.USAGE);
            return 0;
        }
        try {
            return new Player(new Options(words), to).run();
        } catch (Options.Wrong | Vuthgal.Refused wrong) {
            errors.println(wrong.getMessage());
            return 2;
        }
    }

    private int run() throws IOException, Options.Wrong {
        if (options.listsKinds) {
            to.print(BurstKind.list());
            return 0;
        }
        BurstOrder bursts = options.bursts();
        if (bursts != null) {
            return playBursts(bursts);
        }
        if (options.random > 0) {
            return playRandom();
        }
        return options.one() != null ? playOne() : playAll();
    }

    private int playBursts(BurstOrder bursts) throws IOException, Options.Wrong {
        List<Stage> stages = options.stages();
        Bursts played = new Bursts(stages, (long) (Bursts.PATIENT * options.patience), options.keep, to);
        played.play(bursts);
        played.tell();
        stages.forEach(Stage::close);
        if (options.report != null) {
            played.count.suite.write(options.report);
        }
        return played.count.status();
    }

    private int playOne() throws IOException, Options.Wrong {
        Case each = caseOf(options.one(), options.schedule);
        Judge judge = options.judges().get(0).warm(word -> to.println(word.text()));
        Played played = Played.of(judge, each);
        judge.close();
        Verdict verdict = played.verdict();
        to.println(verdict.words() + verdict.triesInWords());
        to.println(verdict.notes().sums());
        verdict.notes().lines.forEach(to::println);
        if (verdict.notes().spins) {
            to.println(Notes.spinning(List.of(each.name())));
        }
        if (options.trace != null) {
            Files.writeString(options.trace, verdict.trace());
        }
        Report report = new Report();
        report.add(played);
        return end(report, verdict.isSame() ? 0 : verdict.fails() ? 1 : 2);
    }

    private Case caseOf(Path program, Path schedule) {
        if (schedule != null) {
            return Case.of(vuthgal, program.toString(), program, schedule);
        }
        if (!Case.isCase(program)) {
            throw new Vuthgal.Refused(program + " is no case: that is " + Case.IN_A_FOLDER);
        }
        return Case.of(vuthgal, program.toString(), program);
    }

    private int playRandom() throws IOException, Options.Wrong {
        Tally tally = new Tally(options.random, options.keepGoing, to);
        RandomCases cases = new RandomCases(vuthgal, tally, options.keep, to);
        cases.play(options.judges(), options.seed, options.random);
        return end(tally.report, tally.status());
    }

    private int playAll() throws IOException, Options.Wrong {
        List<Named> programs = new ArrayList<>();
        for (Path place : options.programs()) {
            programs.addAll(named(place));
        }
        Tally tally = new Tally(programs.size(), options.keepGoing, to);
        Transcripts transcripts = new Transcripts();
        new Jobs<>(programs, (judge, each) -> Played.of(judge, Case.of(vuthgal, each.name(), each.file())))
            .tell(tally::before).run(options.judges(), played -> {
                transcripts.add(played.each(), played.verdict());
                boolean goesOn = tally.add(played);
                tally.showProgress();
                return goesOn;
            });
        tally.tell();
        if (options.transcripts != null) {
            transcripts.write(options.transcripts);
        }
        return end(tally.report, tally.status());
    }

    private static List<Named> named(Path place) {
        List<Path> files = casesBelow(place);
        if (files.isEmpty()) {
            throw new Vuthgal.Refused("there is no case in " + place + ": no " + Case.IN_A_FOLDER);
        }
        return files.stream()
            .map(file -> new Named(file.equals(place) ? file.toString() : place.relativize(file).toString(), file)).toList();
    }

    private int end(Report report, int status) throws IOException {
        if (options.report != null) {
            report.write(options.report);
        }
        return status;
    }

    /** The cases in a folder and below, or the one that is named. */
    static List<Path> casesBelow(Path place) {
        try (Stream<Path> all = Files.walk(place)) {
            return all.filter(Case::isCase).sorted().toList();
        } catch (IOException failed) {
            throw new UncheckedIOException(failed);
        }
    }
}
