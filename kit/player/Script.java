package kit.player;

import java.util.ArrayList;
import java.util.List;

/** The rows of one thread, routine or action of a scenario, while they are written. */
final class Script {
    /** A row; {@code target} is a row of the same script that stands behind its words, or -1. */
    private record Line(String words, int target) {
    }

    private final List<Line> lines = new ArrayList<>();

    Script row(String words) {
        lines.add(new Line(words, -1));
        return this;
    }

    /** A row that goes to the row which comes so many rows behind it. */
    Script rowTo(String words, int ahead) {
        lines.add(new Line(words, lines.size() + ahead));
        return this;
    }

    /** A row whose exceptions are caught: as many turns whether it throws or not. */
    Script guarded(String words) {
        return rowTo("try", 3).row(words).row("endtry");
    }

    int size() {
        return lines.size();
    }

    /** Its text, with this row of the program as its first. */
    String text(int first) {
        StringBuilder text = new StringBuilder();
        for (Line line : lines) {
            text.append(line.words());
            if (line.target() >= 0) {
                text.append(" #").append(first + line.target());
            }
            text.append('\n');
        }
        return text.toString();
    }
}
