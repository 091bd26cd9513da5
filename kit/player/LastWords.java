package kit.player;

import java.io.PrintStream;
import java.util.function.Consumer;

/** What a run came to is told once: at its end, or when a signal ends it before. */
final class LastWords {
    private final PrintStream to;
    private final Consumer<Boolean> words;
    private boolean told;

    /** {@code words} tells it, and is told whether the run was stopped. */
    LastWords(PrintStream to, Consumer<Boolean> words) {
        this.to = to;
        this.words = words;
        Runtime.getRuntime().addShutdownHook(new Thread(this::tellWhenStopped, "last words"));
    }

    synchronized void tell() {
        told = true;
        Progress.clear();
        words.accept(false);
    }

    /** There is nothing to be told. */
    synchronized void drop() {
        told = true;
    }

    private synchronized void tellWhenStopped() {
        if (!told) {
            told = true;
            Progress.clear();
            to.println("stopped by a signal");
            words.accept(true);
        }
    }
}
