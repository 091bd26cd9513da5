package kit.player;

import java.io.IOException;
import java.util.HashSet;
import java.util.List;
import java.util.Locale;
import java.util.Set;

/** The processes of ports that live now. None of them outlives the player, however that is ended. */
final class LivingPorts {
    private static final Set<Process> LIVING = new HashSet<>();
    private static boolean ending;
    private static boolean left;

    static {
        Runtime.getRuntime().addShutdownHook(new Thread(LivingPorts::killAll, "end of the ports"));
    }

    private LivingPorts() {
    }

    /** {@code points} is the seed of its points; those of the player's own environment aren't handed on. */
    static synchronized Process start(String command, long points) throws IOException {
        check();
        ProcessBuilder builder = new ProcessBuilder("bash", "-c", command);
        if (points == PointSeeds.OFF) {
            builder.environment().remove(PointSeeds.VARIABLE);
        } else {
            builder.environment().put(PointSeeds.VARIABLE, Long.toString(points));
        }
        Process process = builder.start();
        LIVING.add(process);
        return process;
    }

    /** Ends a process, and all that it has started. */
    static synchronized void kill(Process process) {
        List<ProcessHandle> below = process.descendants().toList();
        process.destroyForcibly();
        below.forEach(ProcessHandle::destroyForcibly);
        LIVING.remove(process);
    }

    /**
     * Leaves a process to live on for an hour at most: since a port ends with its input, another process holds that open. False
     * where one was left before, or this one can't be.
     */
    static synchronized boolean leave(Process process) {
        if (left) {
            return false;
        }
        try {
            String holder = "exec timeout 3600 tail --pid=%1$d -f /dev/null > /proc/%1$d/fd/0 2> /dev/null";
            new ProcessBuilder("bash", "-c", String.format(Locale.ROOT, holder, process.pid())).start();
            left = LIVING.remove(process);
        } catch (IOException none) {
            return false;
        }
        return left;
    }

    private static synchronized void killAll() {
        ending = true;
        List.copyOf(LIVING).forEach(LivingPorts::kill);
    }

    /** Stops whoever comes here once the player is ended: what its ports do then is told to nobody. */
    static synchronized void check() {
        while (ending) {
            try {
                LivingPorts.class.wait();
            } catch (InterruptedException goesOnWaiting) {
                continue;
            }
        }
    }
}
