package kit.player;

import java.io.BufferedInputStream;
import java.io.IOException;
import java.io.InputStream;

/** The lines of a port's output. One that is too long is told, and not kept whole. */
final class BoundedLines {
    private static final int LONGEST = 10_000;

    private final InputStream from;
    private final StringBuilder begun = new StringBuilder();

    BoundedLines(InputStream output) {
        from = new BufferedInputStream(output);
    }

    /** The next line, without its LF; null where there is no further one. */
    String next() throws IOException {
        for (int next = from.read(); next >= 0; next = from.read()) {
            String line = take((char) next);
            if (line != null) {
                return line;
            }
        }
        return null;
    }

    /** The line that ends with this character, or null. */
    private synchronized String take(char letter) {
        if (letter == '\n') {
            String line = begun.toString();
            begun.setLength(0);
            return line;
        }
        begun.append(letter);
        if (begun.length() > LONGEST) {
            String excerpt = Excerpt.of(begun.toString());
            throw new ProtocolFault("the port wrote a line of more than " + LONGEST + " characters: `" + excerpt + "`");
        }
        return null;
    }

    /** What has come of a line that hasn't ended, in words; empty where there is none. */
    synchronized String unfinished() {
        return begun.length() == 0 ? "" : ", in the line `" + Excerpt.of(begun.toString()) + "`, which has no end";
    }
}
