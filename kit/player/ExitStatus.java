package kit.player;

import java.util.Map;
import java.util.Set;

/** How a process ended, in words. */
final class ExitStatus {
    private static final int NOT_FOUND = 127;
    private static final int FIRST_SIGNAL = 128;
    private static final int LAST_SIGNAL = 192;
    private static final Set<Integer> FOR_ALL = Set.of(FIRST_SIGNAL + 1, FIRST_SIGNAL + 2, FIRST_SIGNAL + 15);
    private static final Map<Integer, String> SIGNALS = Map.ofEntries(
        Map.entry(1, "SIGHUP"), Map.entry(2, "SIGINT"), Map.entry(3, "SIGQUIT"), Map.entry(4, "SIGILL"),
        Map.entry(6, "SIGABRT"), Map.entry(7, "SIGBUS"), Map.entry(8, "SIGFPE"), Map.entry(9, "SIGKILL"),
        Map.entry(11, "SIGSEGV"), Map.entry(13, "SIGPIPE"), Map.entry(15, "SIGTERM"));

    private ExitStatus() {
    }

    /** Whether it was ended by a signal that mostly goes to all who belong together: SIGHUP, SIGINT, SIGTERM. */
    static boolean isForAll(int status) {
        return FOR_ALL.contains(status);
    }

    static String words(int status) {
        if (status > FIRST_SIGNAL && status <= LAST_SIGNAL) {
            int signal = status - FIRST_SIGNAL;
            return "by signal " + signal + (SIGNALS.containsKey(signal) ? " (" + SIGNALS.get(signal) + ")" : "");
        }
        return "with status " + status + (status == NOT_FOUND ? " (no such command)" : "");
    }
}
