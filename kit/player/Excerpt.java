package kit.player;

import java.util.List;

/** What is long, as it is told: cut. */
final class Excerpt {
    private static final int LONGEST = 200;
    private static final int MOST_LINES = 60;

    private Excerpt() {
    }

    /** What somebody else wrote, on one line. */
    static String of(String words) {
        StringBuilder told = new StringBuilder();
        for (int at = 0; at < words.length() && at < LONGEST; at++) {
            char letter = words.charAt(at);
            told.append(letter < ' ' || letter > '~' ? '?' : letter);
        }
        return words.length() > LONGEST ? told + ".." : told.toString();
    }

    /** The first and the last lines; {@code where} the others are is told, too. */
    static String lines(String text, String where) {
        List<String> lines = text.lines().toList();
        if (lines.size() <= MOST_LINES) {
            return text;
        }
        int first = MOST_LINES / 2;
        int last = lines.size() - (MOST_LINES - first - 1);
        return String.join("\n", lines.subList(0, first)) + "\n  .. " + (last - first) + " more lines" + where + "\n"
            + String.join("\n", lines.subList(last, lines.size())) + "\n";
    }
}
