package kit.player;

import java.io.ByteArrayOutputStream;
import java.io.PrintStream;
import java.nio.charset.StandardCharsets;

/** A part of {@code kit/run}: what it tells, kept until its turn has come, since parts are played at once, and its counts. */
final class Part {
    private final ByteArrayOutputStream text = new ByteArrayOutputStream();
    private int passed;
    private int failed;
    final PrintStream to = new PrintStream(text, true, StandardCharsets.UTF_8);

    /** Takes what a check came to. */
    void take(String name, boolean passes, String what) {
        take(passes ? 1 : 0, passes ? 0 : 1);
        if (!passes) {
            to.println("FAILED " + name + ": " + what);
        }
    }

    /** Takes so many checks. */
    synchronized void take(int more, int moreFailed) {
        passed += more;
        failed += moreFailed;
    }

    synchronized int passed() {
        return passed;
    }

    synchronized int failed() {
        return failed;
    }

    String text() {
        return text.toString(StandardCharsets.UTF_8);
    }
}
