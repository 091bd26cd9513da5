package kit.player;

import java.io.IOException;
import java.nio.file.Files;
import java.nio.file.Path;

/** How busy the machine is. */
final class Load {
    private static final Path FILE = Path.of("/proc/loadavg");
    static final int PROCESSORS = Runtime.getRuntime().availableProcessors();

    private Load() {
    }

    /** How many threads run or want to: of the last minute, or now if that is more; 0 where the system doesn't say it. */
    static double now() {
        try {
            String[] words = Files.readString(FILE).split("[ /]");
            return Math.max(Double.parseDouble(words[0]), Double.parseDouble(words[3]));
        } catch (IOException | RuntimeException unknown) {
            return 0;
        }
    }

    /** How many times as long whatever is done takes, 1 where there are processors for all. */
    static double factor() {
        return Math.max(1, now() / PROCESSORS);
    }
}
