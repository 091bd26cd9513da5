package kit.player;

import java.io.IOException;
import java.nio.file.Files;
import java.nio.file.Path;
import java.util.List;

/** Pieces of the player by themselves, where a command shows them only now and then. */
final class PieceChecks {
    private static final int MANY = 16;
    private static final int NUMBERS = 100_000;
    /** One of so many parts is near. */
    private static final int NEAR = 50;

    private final Part part;

    PieceChecks(Part part) {
        this.part = part;
    }

    void check() throws IOException {
        checkTasks();
        checkHistogram();
    }

    /** Tasks that end while one looks hide no other that runs. */
    private void checkTasks() throws IOException {
        Path folder = Files.createTempDirectory("vuthgal-tasks");
        for (int task = 1; task <= MANY; task++) {
            Files.writeString(Files.createDirectory(folder.resolve("" + task)).resolve("stat"), "");
        }
        Path runs = Files.createDirectory(folder.resolve("0"));
        Files.writeString(runs.resolve("stat"), "0 (port) R 1 1");
        Files.writeString(runs.resolve("schedstat"), "1 1 1\n");
        part.take("tasks that end", !new Tasks(List.of(folder)).areAtRest(), "one that runs isn't seen");
    }

    /** What lies below a part of the numbers is right within some percent, for small numbers and for large ones. */
    private void checkHistogram() {
        for (long unit = 1; unit < Long.MAX_VALUE / NUMBERS; unit *= 1_000) {
            Histogram histogram = new Histogram();
            for (int number = 0; number < NUMBERS; number++) {
                histogram.add(number * unit);
            }
            long right = NUMBERS / 2 * unit;
            long half = histogram.at(0.5);
            part.take("a histogram of numbers to " + NUMBERS * unit, Math.abs(half - right) <= right / NEAR,
                half + " isn't near to " + right);
        }
    }
}
