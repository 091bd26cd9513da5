package kit.player;

import java.io.File;
import java.io.IOException;
import java.nio.file.Files;
import java.nio.file.Path;
import java.util.ArrayList;
import java.util.HashSet;
import java.util.List;
import java.util.Set;
import java.util.stream.Stream;

/**
 * Gives each thread of a process a processor of its own, one after the other, by {@code taskset} where there is one. On a busy
 * machine the system would let threads that are woken together run on one, and so one behind the other.
 */
final class BurstSpread {
    private static final int PROCESSORS = Runtime.getRuntime().availableProcessors();

    private final Process process;
    private final Set<Path> spread = new HashSet<>();

    BurstSpread(Process process) {
        this.process = process;
    }

    /** The threads that there are by now, and that have none yet. */
    void spread() {
        StringBuilder commands = new StringBuilder();
        try {
            List<Integer> processors = processors();
            for (Path task : tasks()) {
                if (spread.add(task)) {
                    commands.append("taskset -cp ").append(processors.get(spread.size() % processors.size())).append(' ')
                        .append(task.getFileName()).append('\n');
                }
            }
            if (PROCESSORS > 1 && !commands.isEmpty()) {
                File nowhere = new File("/dev/null");
                new ProcessBuilder("bash", "-c", commands.toString()).redirectOutput(nowhere).redirectError(nowhere)
                    .start().waitFor();
            }
        } catch (IOException | InterruptedException goesWithout) {
            return;
        }
    }

    /** In the order in which they were made. */
    private List<Path> tasks() throws IOException {
        List<Path> tasks = new ArrayList<>();
        for (ProcessHandle each : Stream.concat(Stream.of(process.toHandle()), process.descendants()).toList()) {
            try (Stream<Path> all = Files.list(Path.of("/proc/" + each.pid() + "/task"))) {
                all.sorted((one, other) -> Long.compare(number(one), number(other))).forEach(tasks::add);
            }
        }
        return tasks;
    }

    private static long number(Path task) {
        return Long.parseLong(task.getFileName().toString());
    }

    /** The processors on which this process may run. */
    private static List<Integer> processors() throws IOException {
        String allowed = Files.readAllLines(Path.of("/proc/self/status")).stream()
            .filter(line -> line.startsWith("Cpus_allowed_list:")).findFirst().orElseThrow(IOException::new);
        List<Integer> processors = new ArrayList<>();
        for (String range : allowed.substring(allowed.indexOf(':') + 1).strip().split(",")) {
            String[] ends = range.split("-");
            for (int one = Integer.parseInt(ends[0]); one <= Integer.parseInt(ends[ends.length - 1]); one++) {
                processors.add(one);
            }
        }
        return processors;
    }
}
