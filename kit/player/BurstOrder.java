package kit.player;

import java.io.IOException;
import java.nio.file.Files;
import java.nio.file.Path;
import java.util.Set;

/**
 * Which bursts are to be played: {@code count} of a seed at most, or, where {@code round} isn't negative, that one so often; for
 * how many seconds, or without such a bound where that is 0; of which kinds, or of all where none is named; and with which seeds
 * of points.
 */
record BurstOrder(long seed, long round, long count, long seconds, Set<String> kinds, PointSeeds points) {
    static final long EACH = -1;
    /** So often is a round played that failed before. */
    static final int TRIES_OF_ONE = 20_000;
    /** Of the first line of a kept one: HEAD, the seed, the round, and the kind. */
    private static final int WORDS = 4;

    BurstOrder(long seed, long round, long count, long seconds) {
        this(seed, round, count, seconds, Set.of(), PointSeeds.NONE);
    }

    BurstOrder of(Set<String> some, PointSeeds seeds) {
        return new BurstOrder(seed, round, count, seconds, some, seeds);
    }

    boolean playsOneRound() {
        return round != EACH;
    }

    /** Whether time alone decides how many there are, of some kinds. */
    boolean isByTime() {
        return seconds > 0 && !playsOneRound();
    }

    boolean wants(String kind) {
        return kinds.isEmpty() || kinds.contains(kind);
    }

    /** The burst of a file that was kept; null where it is none, or where that round is of another kind now. */
    static BurstOrder ofFile(Path file, long seconds) throws IOException {
        String[] words = Files.readString(file).split("\\s+", WORDS + 1);
        if (words.length <= WORDS || !words[0].equals(BurstReport.HEAD)) {
            return null;
        }
        try {
            long round = Long.parseLong(words[2]);
            return words[3].equals(BurstKind.of(round).name())
                ? new BurstOrder(Long.parseLong(words[1]), round, TRIES_OF_ONE, seconds) : null;
        } catch (NumberFormatException none) {
            return null;
        }
    }
}
