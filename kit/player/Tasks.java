package kit.player;

import java.io.File;
import java.io.FileInputStream;
import java.io.IOException;
import java.nio.charset.StandardCharsets;
import java.nio.file.DirectoryIteratorException;
import java.nio.file.DirectoryStream;
import java.nio.file.Files;
import java.nio.file.Path;
import java.util.ArrayList;
import java.util.Comparator;
import java.util.HashMap;
import java.util.List;
import java.util.Map;
import java.util.TreeMap;
import java.util.concurrent.locks.LockSupport;
import java.util.stream.Collectors;
import java.util.stream.Stream;

/** The threads of a process and of those below it, as the system shows them. */
final class Tasks {
    private static final int LOOKS = 10;
    private static final long BETWEEN_LOOKS = 10_000_000;
    /** Whoever has had a processor for so long has begun what it was told, in nanoseconds. */
    private static final long LONG_ENOUGH = 1_000_000;
    /** What the system says of a task is shorter. */
    private static final int LONGEST = 1_024;
    private static final boolean HAS_CHILDREN = Files.exists(Path.of("/proc/thread-self/children"));
    private static final boolean HAS_TIMES = Files.exists(Path.of("/proc/self/schedstat"));

    /** What is seen of a task: whether it sleeps, how long it has run, in nanoseconds, and how often it was given a processor. */
    private record Seen(boolean sleeps, long ran, long turns) {
    }

    private final List<Path> folders;
    /** What was seen when the present call was told. */
    private Map<String, Seen> before = Map.of();
    private long marked;

    Tasks(Process process) {
        this(folders(process));
    }

    /** {@code folders} have a folder for each task. */
    Tasks(List<Path> folders) {
        this.folders = folders;
    }

    private static List<Path> folders(Process process) {
        if (!HAS_CHILDREN) {
            return Stream.concat(Stream.of(process.toHandle()), process.descendants()).map(each -> folder(each.pid())).toList();
        }
        List<Path> found = new ArrayList<>(List.of(folder(process.pid())));
        for (int at = 0; at < found.size(); at++) {
            addChildren(found.get(at), found);
        }
        return found;
    }

    private static Path folder(long process) {
        return Path.of("/proc/" + process + "/task");
    }

    /** Without a look at each process of the system. */
    private static void addChildren(Path folder, List<Path> to) {
        try (DirectoryStream<Path> tasks = Files.newDirectoryStream(folder)) {
            for (Path task : tasks) {
                children(task).filter(word -> !word.isEmpty()).forEach(word -> to.add(folder(Long.parseLong(word))));
            }
        } catch (IOException | DirectoryIteratorException gone) {
            return;
        }
    }

    /** None of a task that ends meanwhile. */
    private static Stream<String> children(Path task) {
        try {
            return Stream.of(Files.readString(task.resolve("children")).split(" "));
        } catch (IOException gone) {
            return Stream.empty();
        }
    }

    /** Whether they are at rest whenever one looks, for a while. */
    boolean stayAtRest() {
        for (int look = 0; look < LOOKS; look++) {
            if (!areAtRest()) {
                return false;
            }
            LockSupport.parkNanos(BETWEEN_LOOKS);
        }
        return true;
    }

    /** From now on {@code rest} counts how long each has run. */
    void mark() {
        before = look();
        marked = System.nanoTime();
    }

    /** How much of a processor they have taken since the mark, all together. */
    double share() {
        long ran = 0;
        for (Map.Entry<String, Seen> now : look().entrySet()) {
            Seen then = before.get(now.getKey());
            ran += now.getValue().ran() - (then == null ? 0 : then.ran());
        }
        return (double) ran / (System.nanoTime() - marked);
    }

    /** How much they rest, and whether those that don't have run since the mark. */
    RealThread.Rest rest() {
        Map<String, Seen> now = look();
        if (areAtRest(now)) {
            return RealThread.Rest.ASLEEP;
        }
        return now.keySet().stream().allMatch(task -> now.get(task).sleeps() || hasRun(task, now.get(task)))
            ? RealThread.Rest.RUNNING : RealThread.Rest.STARVING;
    }

    /** Taken for granted where the system doesn't say it. */
    private boolean hasRun(String task, Seen now) {
        Seen then = before.get(task);
        return !HAS_TIMES || now.ran() - (then == null ? 0 : then.ran()) >= LONG_ENOUGH;
    }

    /** Whether they are those of an earlier mark, which slept then and sleep now, and were given no processor between. */
    boolean haveSleptSince(Tasks earlier) {
        Map<String, Seen> now = look();
        return now.values().stream().allMatch(Seen::sleeps) && now.equals(earlier.before);
    }

    /** Whether there was a moment at which all slept. */
    boolean areAtRest() {
        return areAtRest(look());
    }

    /**
     * One look after the other misses what a task hands to one that was seen asleep before. So a second look follows: whoever
     * slept at both, and was given no processor between, slept at the moment between them.
     */
    private boolean areAtRest(Map<String, Seen> first) {
        return first.values().stream().allMatch(Seen::sleeps) && look().equals(first);
    }

    /** A line for each process: what its threads do, by their numbers in the system. */
    List<String> states() {
        List<String> lines = new ArrayList<>();
        for (Path folder : folders) {
            Map<String, List<String>> numbers = new TreeMap<>();
            for (String task : tasks(folder)) {
                numbers.computeIfAbsent(state(folder.resolve(task)), fresh -> new ArrayList<>()).add(task);
            }
            if (!numbers.isEmpty()) {
                lines.add("process " + folder.getParent().getFileName() + ": " + numbers.entrySet().stream()
                    .map(each -> each.getValue().size() + " threads " + each.getKey() + ": " + String.join(" ", each.getValue()))
                    .collect(Collectors.joining("; ")));
            }
        }
        return lines;
    }

    private static List<String> tasks(Path folder) {
        String[] tasks = new File(folder.toString()).list();
        return tasks == null ? List.of() : List.of(tasks);
    }

    private static String state(Path task) {
        try {
            String stat = line(task + "/stat");
            char state = stat.charAt(stat.lastIndexOf(')') + 2);
            return state == 'R' ? "run" : state == 'S' ? "sleep" : "have the state " + state;
        } catch (IOException | RuntimeException gone) {
            return "have ended";
        }
    }

    /** The number of the process that has the most threads. */
    String largest() {
        return folders.stream().max(Comparator.comparingInt(folder -> tasks(folder).size()))
            .map(folder -> folder.getParent().getFileName().toString()).orElseThrow();
    }

    private Map<String, Seen> look() {
        Map<String, Seen> seen = new HashMap<>();
        for (Path folder : folders) {
            for (String task : tasks(folder)) {
                look(folder + "/" + task, seen);
            }
        }
        return seen;
    }

    /** A task that ends meanwhile isn't there, or has files without their words. */
    private static void look(String task, Map<String, Seen> seen) {
        try {
            String stat = line(task + "/stat");
            char state = stat.charAt(stat.lastIndexOf(')') + 2);
            String[] times = (HAS_TIMES ? line(task + "/schedstat").strip() : "0 0 0").split(" ");
            seen.put(task, new Seen(state != 'R' && state != 'D', Long.parseLong(times[0]), Long.parseLong(times[2])));
        } catch (IOException | RuntimeException gone) {
            seen.remove(task);
        }
    }

    /** The only line of a file of a task, by one read: there are many, and often. */
    private static String line(String file) throws IOException {
        try (FileInputStream from = new FileInputStream(file)) {
            byte[] bytes = new byte[LONGEST];
            return new String(bytes, 0, Math.max(0, from.read(bytes)), StandardCharsets.ISO_8859_1);
        }
    }
}
