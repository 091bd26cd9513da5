package kit.player;

import java.io.IOException;
import java.io.OutputStream;
import java.io.UncheckedIOException;
import java.nio.charset.StandardCharsets;
import java.nio.file.Files;
import java.nio.file.Path;
import java.util.ArrayList;
import java.util.List;

/** The product, called as a program. */
final class Vuthgal {
    /** It refused its input; the message is its line on standard error. */
    static final class Refused extends RuntimeException {
        private static final long serialVersionUID = 1;

        Refused(String why) {
            super(why);
        }
    }

    private final Path program;

    Vuthgal(Path program) {
        if (!Files.isExecutable(program)) {
            throw new Refused("there is no program " + program);
        }
        this.program = program.toAbsolutePath();
    }

    /** The canonical text of a program's text or image. */
    String list(Path file) {
        return output(file, "", "list", file.toString());
    }

    /** The same of the program that a file holds beside its schedule. */
    String list(Path file, String program) {
        return output(file, program, "list", "/dev/stdin");
    }

    /** The trace of a text that holds its schedule. */
    String run(Path file) {
        return output(file, "", "run", file.toString());
    }

    /** The trace of a program under a schedule. */
    String run(Path file, String schedule) {
        return output(file, schedule, "run", file.toString(), "-");
    }

    /** The schedule of a plan. */
    String plan(Path file, Path plan) {
        return output(file, "", "plan", file.toString(), plan.toString());
    }

    private String output(Path file, String input, String... words) {
        List<String> command = new ArrayList<>(List.of(program.toString()));
        command.addAll(List.of(words));
        try {
            Path errors = Files.createTempFile("vuthgal", ".errors");
            try {
                Process process = new ProcessBuilder(command).redirectError(errors.toFile()).start();
                try (OutputStream into = process.getOutputStream()) {
                    into.write(input.getBytes(StandardCharsets.ISO_8859_1));
                }
                String output = new String(process.getInputStream().readAllBytes(), StandardCharsets.US_ASCII);
                if (process.waitFor() != 0) {
                    throw new Refused(file.getFileName() + " is refused: " + Files.readString(errors).strip());
                }
                return output;
            } finally {
                Files.delete(errors);
            }
        } catch (IOException failed) {
            throw new UncheckedIOException(failed);
        } catch (InterruptedException never) {
            throw new IllegalStateException(never);
        }
    }
}
