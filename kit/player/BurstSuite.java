package kit.player;

import java.io.IOException;
import java.nio.file.Files;
import java.nio.file.Path;
import java.util.Map;
import java.util.TreeMap;

/** The bursts of a run as JUnit XML: one suite, and in it a test for each kind. */
final class BurstSuite {
    /** What came of a kind. */
    private static final class Kind {
        private long nanoseconds;
        private String leftOut;
        private int failures;
        private String failure;
    }

    private final Map<String, Kind> kinds = new TreeMap<>();

    private Kind kind(String name) {
        return kinds.computeIfAbsent(name, fresh -> new Kind());
    }

    void leavesOut(String name, String why) {
        kind(name).leftOut = why;
    }

    void played(String name, long nanoseconds) {
        kind(name).nanoseconds += nanoseconds;
    }

    long nanoseconds(String name) {
        Kind kind = kinds.get(name);
        return kind == null ? 0 : kind.nanoseconds;
    }

    /** The first failure of a kind is told whole. */
    void fails(String name, String text) {
        Kind kind = kind(name);
        kind.failure = kind.failures++ == 0 ? text : kind.failure;
    }

    void write(Path file) throws IOException {
        StringBuilder text = new StringBuilder("<?xml version=\"1.0\" encoding=\"UTF-8\"?>\n<testsuites>\n");
        text.append("  <testsuite name=\"bursts\" tests=\"").append(kinds.size());
        text.append("\" failures=\"").append(kinds.values().stream().filter(kind -> kind.failures > 0).count());
        text.append("\" errors=\"0\" skipped=\"").append(kinds.values().stream().filter(kind -> kind.leftOut != null).count());
        text.append("\" time=\"").append(Report.seconds(kinds.values().stream().mapToLong(kind -> kind.nanoseconds).sum()));
        text.append("\">\n");
        kinds.forEach((name, kind) -> text.append(test(name, kind)));
        Files.writeString(file, text.append("  </testsuite>\n</testsuites>\n"));
    }

    private static String test(String name, Kind kind) {
        String begin = "    <testcase classname=\"bursts\" name=\"" + Report.escaped(name) + "\" time=\""
            + Report.seconds(kind.nanoseconds) + "\"";
        if (kind.leftOut != null) {
            return begin + ">\n      <skipped message=\"" + Report.escaped(kind.leftOut) + "\"/>\n    </testcase>\n";
        }
        if (kind.failures == 0) {
            return begin + "/>\n";
        }
        return begin + ">\n      <failure message=\"" + kind.failures + " of its bursts failed\">"
            + Report.escaped(kind.failure) + "</failure>\n    </testcase>\n";
    }
}
