package kit.player;

/** A line on the standard error that says how far a run is, where that is a terminal. */
final class Progress {
    private static final boolean SHOWS = Boolean.getBoolean("kit.progress");

    private Progress() {
    }

    static void show(String words) {
        if (SHOWS) {
            System.err.print("\r" + words + "\033[K");
        }
    }

    static void clear() {
        show("");
    }
}
