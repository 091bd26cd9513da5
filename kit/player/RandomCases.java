package kit.player;

import java.io.IOException;
import java.io.PrintStream;
import java.io.UncheckedIOException;
import java.nio.file.Files;
import java.nio.file.Path;
import java.nio.file.StandardCopyOption;
import java.util.List;
import java.util.stream.LongStream;

/** Plays random scenarios, and keeps as cases those that differ. */
final class RandomCases {
    private final Vuthgal vuthgal;
    private final Tally tally;
    private final Path keep;
    private final PrintStream to;
    private Path room;

    /** Where {@code keep} is null nothing is written. */
    RandomCases(Vuthgal vuthgal, Tally tally, Path keep, PrintStream to) {
        this.vuthgal = vuthgal;
        this.tally = tally;
        this.keep = keep;
        this.to = to;
    }

    /** Plays the scenarios of so many seeds, and tells what differs, and the sums. */
    void play(List<Judge> judges, long firstSeed, int count) throws IOException {
        room = Files.createTempDirectory("vuthgal");
        List<Long> seeds = LongStream.range(firstSeed, firstSeed + count).boxed().toList();
        new Jobs<>(seeds, this::play).tell(tally::before).run(judges, this::take);
        Files.deleteIfExists(room);
        tally.tell();
    }

    private Played play(Judge judge, long seed) {
        try {
            return Played.of(judge, Case.of(vuthgal, "random-" + seed, Scenario.of(seed).write(room)));
        } catch (IOException failed) {
            throw new UncheckedIOException(failed);
        }
    }

    private boolean take(Played played) {
        boolean goesOn = tally.add(played);
        try {
            if (played.verdict().fails()) {
                to.println("  " + (keep != null ? "kept as " + keep(played.each()) : "--keep FOLDER writes it"));
            }
            Files.delete(played.each().file());
        } catch (IOException failed) {
            throw new UncheckedIOException(failed);
        }
        tally.showProgress();
        return goesOn;
    }

    private Path keep(Case scenario) throws IOException {
        Files.createDirectories(keep);
        Path file = keep.resolve(scenario.file().getFileName());
        Files.copy(scenario.file(), file, StandardCopyOption.REPLACE_EXISTING);
        Files.writeString(Case.beside(file, ".trace"), scenario.wanted());
        return file;
    }
}
