package kit.player;

import java.io.IOException;
import java.nio.file.Files;
import java.nio.file.Path;
import java.util.ArrayList;
import java.util.Collections;
import java.util.List;

/** The faults of ports in kit/faults, and whether the player tells each in the right words, and soon. */
final class FaultTable {
    private static final long LONGEST = 10_000_000_000L;
    private static final long MILLISECOND = 1_000_000;
    /** On a busy machine a fault may take so many times as long as the right port, beyond that. */
    private static final int TIMES_THE_RIGHT_ONE = 4;
    private static final Row RIGHT = new Row(1, "nothing", "", " same");

    private final List<Row> rows = new ArrayList<>();
    private final Path folder;

    /** A fault: how patient the player is, what the port does where it would write a line, and words of the verdict. */
    private record Row(double patience, String when, String what, String words) {
    }

    FaultTable(Path folder) throws IOException {
        this.folder = folder;
        for (String line : Files.readAllLines(folder.resolve("table.txt"))) {
            if (!line.isEmpty() && !line.startsWith("#")) {
                String[] cells = line.split(" \\| ", 4);
                rows.add(new Row(Double.parseDouble(cells[0]), cells[1], cells[2], cells[3]));
            }
        }
    }

    /** Makes all the faults, some at a time, and those again, one by one, that took too long beside the others. */
    void check(Vuthgal vuthgal, String python, Part part) {
        Case played = Case.of(vuthgal, "faults/case.txt", folder.resolve("case.txt"));
        List<Row> late = Collections.synchronizedList(new ArrayList<>());
        Told right = told(RIGHT, played, python);
        take(RIGHT, right, Long.MAX_VALUE, part);
        AtOnce.each(rows, row -> {
            Told told = told(row, played, python);
            if (isLate(told, longest(right))) {
                late.add(row);
            } else {
                take(row, told, Long.MAX_VALUE, part);
            }
        });
        for (Row row : late) {
            long longest = longest(told(RIGHT, played, python));
            take(row, told(row, played, python), longest, part);
        }
    }

    /** What the player says of a fault, and how many nanoseconds that takes it. */
    private record Told(String line, long nanoseconds) {
    }

    private static long longest(Told right) {
        return LONGEST + TIMES_THE_RIGHT_ONE * right.nanoseconds();
    }

    private static boolean isLate(Told told, long longest) {
        return told.nanoseconds() >= longest;
    }

    private Told told(Row row, Case played, String python) {
        String port = quoted(folder.resolve("port.py").toString());
        Stage stage = new PortStage(python + " " + port + " " + quoted(row.when()) + " " + quoted(row.what()));
        Judge judge = new Judge(stage, KnownDifferences.NONE, Patience.times(row.patience(), stage.patience()));
        Played told = Played.of(judge, played);
        judge.close();
        return new Told(told.line(), told.nanoseconds());
    }

    private static void take(Row row, Told told, long longest, Part part) {
        boolean passes = told.line().contains(row.words()) && !isLate(told, longest);
        part.take("faults: `" + row.when() + "`, " + row.what(), passes,
            told.line() + ", after " + told.nanoseconds() / MILLISECOND + " ms");
    }

    private static String quoted(String word) {
        return "'" + word.replace("'", "'\\''") + "'";
    }
}
