package kit.player;

import java.io.IOException;
import java.nio.file.Files;
import java.nio.file.Path;
import java.util.ArrayList;
import java.util.LinkedHashMap;
import java.util.List;
import java.util.Locale;
import java.util.Map;

/** All verdicts of a run as JUnit XML: a suite for each folder of cases, and in it a test for each case. */
final class Report {
    private final Map<String, List<Played>> suites = new LinkedHashMap<>();

    void add(Played played) {
        suites.computeIfAbsent(folder(played.each()), fresh -> new ArrayList<>()).add(played);
    }

    /** The folder of a program names the rule, as {@code tiers} does; a scenario of the player's own lies in none. */
    private static String folder(Case each) {
        Path folder = each.file().toAbsolutePath().normalize().getParent().getFileName();
        return each.isOfAFile() && folder != null ? folder.toString() : each.name().replaceAll("-[0-9]+$", "");
    }

    void write(Path file) throws IOException {
        StringBuilder text = new StringBuilder("<?xml version=\"1.0\" encoding=\"UTF-8\"?>\n<testsuites>\n");
        suites.forEach((folder, all) -> {
            text.append("  <testsuite name=\"").append(escaped(folder)).append("\" tests=\"").append(all.size());
            text.append("\" failures=\"").append(all.stream().filter(each -> each.verdict().fails()).count());
            text.append("\" errors=\"0\" skipped=\"").append(all.stream().filter(Report::isLeftOut).count());
            text.append("\" time=\"").append(seconds(all.stream().mapToLong(Played::nanoseconds).sum())).append("\">\n");
            all.forEach(each -> text.append(test(folder, each)));
            text.append("  </testsuite>\n");
        });
        Files.writeString(file, text.append("</testsuites>\n"));
    }

    private static boolean isLeftOut(Played played) {
        return played.verdict().kind() == Verdict.Kind.LEFT_OUT;
    }

    private static String test(String folder, Played played) {
        String name = played.each().title();
        String heading = played.each().heading();
        String begin = "    <testcase classname=\"" + escaped(folder) + "\" name=\""
            + escaped(heading.isEmpty() ? name : name + " (" + heading + ")")
            + "\" time=\"" + seconds(played.nanoseconds()) + "\"";
        Verdict verdict = played.verdict();
        return switch (verdict.kind()) {
            case SAME -> begin + "/>\n";
            case LEFT_OUT -> begin + ">\n      <skipped message=\"" + escaped(verdict.why()) + "\"/>\n    </testcase>\n";
            case DIFFERS, STUCK, UNSTEADY -> begin + ">\n      <failure message=\"" + escaped(verdict.words()) + "\">"
                + escaped(failure(played)) + "</failure>\n    </testcase>\n";
        };
    }

    /** The rule, the line that differs as it was and as it has to be, and what else there is to tell. */
    private static String failure(Played played) {
        Verdict verdict = played.verdict();
        List<String> lines = new ArrayList<>();
        lines.add(played.each().rule());
        if (!verdict.differs()) {
            lines.add(verdict.wordsWithOdd() + verdict.triesInWords());
            return String.join("\n", lines);
        }
        lines.add("was:       " + line(verdict.trace(), verdict.line()));
        lines.add("has to be: " + line(played.each().wanted(), verdict.line()));
        lines.addAll(verdict.notes().lines);
        return String.join("\n", lines);
    }

    private static String line(String trace, int number) {
        String[] lines = trace.split("\n");
        return number > 0 && number <= lines.length ? lines[number - 1] : "(no line)";
    }

    static String seconds(long nanoseconds) {
        return String.format(Locale.ROOT, "%.3f", nanoseconds / 1e9);
    }

    static String escaped(String text) {
        StringBuilder escaped = new StringBuilder();
        for (char letter : text.toCharArray()) {
            switch (letter) {
                case '<' -> escaped.append("&lt;");
                case '>' -> escaped.append("&gt;");
                case '&' -> escaped.append("&amp;");
                case '"' -> escaped.append("&quot;");
                default -> escaped.append(letter < ' ' && letter != '\n' ? '?' : letter);
            }
        }
        return escaped.toString();
    }
}
