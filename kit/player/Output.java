package kit.player;

import java.io.IOException;
import java.nio.charset.StandardCharsets;
import java.nio.file.Files;
import java.nio.file.Path;
import java.util.concurrent.TimeUnit;

/** What a command said, and its status, none where it didn't end. */
record Output(Integer status, String text) {
    /** Generous: a busy machine takes its time to start so many at once. */
    static final long LONGEST_SECONDS = 240;

    static Output by(ProcessBuilder command) {
        try {
            Path told = Files.createTempFile("vuthgal", ".told");
            Process process = begin(command, told);
            boolean ended = process.waitFor(LONGEST_SECONDS, TimeUnit.SECONDS);
            process.destroy();
            String text = read(told);
            Files.delete(told);
            return new Output(ended ? process.exitValue() : null, text);
        } catch (IOException | InterruptedException failed) {
            throw new IllegalStateException(failed);
        }
    }

    /** What it says goes to this file. */
    static Process begin(ProcessBuilder command, Path to) throws IOException {
        return command.redirectErrorStream(true).redirectOutput(to.toFile()).start();
    }

    static String read(Path told) throws IOException {
        return Files.readString(told, StandardCharsets.ISO_8859_1);
    }

    boolean is(int wanted, String says) {
        return status != null && status == wanted && text.contains(says);
    }

    @Override
    public String toString() {
        return (status == null ? "no end" : "status " + status) + ", it says:\n" + text;
    }
}
