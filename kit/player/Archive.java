package kit.player;

import java.io.IOException;
import java.nio.charset.StandardCharsets;
import java.nio.file.Files;
import java.nio.file.Path;
import java.time.LocalDateTime;
import java.util.Map;
import java.util.TreeMap;
import java.util.zip.ZipEntry;
import java.util.zip.ZipInputStream;
import java.util.zip.ZipOutputStream;

/** Texts that a script makes and nobody edits, kept together in one file. */
final class Archive {
    /** The same texts make the same bytes, whenever they are written. */
    private static final LocalDateTime NO_TIME = LocalDateTime.of(1980, 1, 1, 0, 0);
    private static final int SMALLEST = 9;

    private Archive() {
    }

    static boolean isNamed(Path file) {
        return file.toString().endsWith(".zip");
    }

    /** Its texts by their names; none where there is no such file. */
    static Map<String, String> read(Path file) throws IOException {
        Map<String, String> texts = new TreeMap<>();
        if (Files.exists(file)) {
            try (ZipInputStream from = new ZipInputStream(Files.newInputStream(file))) {
                for (ZipEntry entry = from.getNextEntry(); entry != null; entry = from.getNextEntry()) {
                    texts.put(entry.getName(), new String(from.readAllBytes(), StandardCharsets.ISO_8859_1));
                }
            }
        }
        return texts;
    }

    static void write(Path file, Map<String, String> texts) throws IOException {
        try (ZipOutputStream to = new ZipOutputStream(Files.newOutputStream(file))) {
            to.setLevel(SMALLEST);
            for (Map.Entry<String, String> text : texts.entrySet()) {
                ZipEntry entry = new ZipEntry(text.getKey());
                entry.setTimeLocal(NO_TIME);
                to.putNextEntry(entry);
                to.write(text.getValue().getBytes(StandardCharsets.ISO_8859_1));
            }
        }
    }
}
