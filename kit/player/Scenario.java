package kit.player;

import java.io.IOException;
import java.nio.file.Files;
import java.nio.file.Path;

/** A random program with its schedule. */
record Scenario(String name, String text, String schedule) {
    static Scenario of(long seed) {
        return new ScenarioMaker(seed).make();
    }

    /** Writes NAME.txt into a folder, and answers it. */
    Path write(Path folder) throws IOException {
        return Files.writeString(folder.resolve(name + ".txt"), text + ".run\n" + schedule);
    }
}
