package kit.player;

import java.io.IOException;
import java.nio.file.Files;
import java.nio.file.Path;
import java.util.List;
import java.util.Map;
import java.util.TreeMap;
import java.util.function.BiConsumer;
import java.util.stream.Stream;

/** The transcripts of cases that are the same, a text for each folder of cases. */
final class Transcripts {
    /** The archive of those that this program makes; the others stand beside it. */
    private static final String MADE = "cases.zip";
    private static final String TEXT = ".txt";
    private static final String CASE = "# ";

    private final Map<String, String> texts = new TreeMap<>();

    void add(Case each, Verdict verdict) {
        if (verdict.isSame()) {
            texts.merge(folder(each), text(each, verdict), String::concat);
        }
    }

    private static String folder(Case each) {
        return each.file().toAbsolutePath().normalize().getParent().getFileName() + TEXT;
    }

    private static String text(Case each, Verdict verdict) {
        String name = folder(each).replace(TEXT, "/") + each.title();
        return CASE + name + ": " + each.rule() + "\n" + verdict.notes().transcript + "\n";
    }

    /** Whether these texts have it so. */
    static boolean isKept(Map<String, String> kept, Case each, Verdict verdict) {
        return kept.getOrDefault(folder(each), "").contains(text(each, verdict));
    }

    /** Those of the folder, by the names of their files, whether these stand in its archive or beside it. */
    static Map<String, String> kept(Path folder) throws IOException {
        Map<String, String> all = made(folder);
        try (Stream<Path> files = Files.list(folder)) {
            for (Path file : files.filter(each -> each.toString().endsWith(TEXT)).toList()) {
                all.put(file.getFileName().toString(), Files.readString(file));
            }
        }
        return all;
    }

    /** Those of the folder's archive alone. */
    static Map<String, String> made(Path folder) throws IOException {
        return Archive.read(folder.resolve(MADE));
    }

    /** Into an archive, or into files of a folder. */
    void write(Path to) throws IOException {
        if (Archive.isNamed(to)) {
            Archive.write(to, texts);
            return;
        }
        Files.createDirectories(to);
        for (Map.Entry<String, String> text : texts.entrySet()) {
            Files.writeString(to.resolve(text.getKey()), text.getValue());
        }
    }

    /** Says of each text where it isn't as these have it; nothing where it is. */
    void compare(Map<String, String> kept, BiConsumer<String, String> take) {
        texts.forEach((name, text) -> take.accept(name, difference(kept.getOrDefault(name, ""), text)));
    }

    /** The first line that isn't the same, and the case in which it stands. */
    private static String difference(String kept, String played) {
        List<String> ours = kept.lines().toList();
        List<String> theirs = played.lines().toList();
        String head = "";
        for (int line = 0; line < Math.max(ours.size(), theirs.size()); line++) {
            String was = line < ours.size() ? ours.get(line) : "";
            String is = line < theirs.size() ? theirs.get(line) : "";
            head = is.startsWith(CASE) ? is : head;
            if (!was.equals(is)) {
                return "\n  " + head + "\n  line " + (line + 1) + "\n  - " + was + "\n  + " + is;
            }
        }
        return kept.equals(played) ? "" : "\n  its last line has another end";
    }
}
