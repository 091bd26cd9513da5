package kit.player;

import java.util.List;
import java.util.Random;

/** What a scenario's maker draws. */
final class Chances {
    private static final int WARM_UP = 8;

    final Random random;

    Chances(long seed) {
        random = new Random(seed * 0x9E3779B97F4A7C15L);
        for (int round = 0; round < WARM_UP; round++) {
            random.nextInt();
        }
    }

    boolean of(int percent) {
        return random.nextInt(100) < percent;
    }

    <T> T any(List<T> list) {
        return list.get(random.nextInt(list.size()));
    }

    int between(int low, int high) {
        return low + random.nextInt(high - low + 1);
    }
}
