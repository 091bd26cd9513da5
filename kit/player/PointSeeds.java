package kit.player;

/**
 * The seeds with which a port is started that has points (kit/points), one after the other: each for the same part of the
 * bursts. None where {@code count} is 0. Behind {@code share} of the whole come bursts without points.
 */
record PointSeeds(long first, int count, double share) {
    static final PointSeeds NONE = new PointSeeds(0, 0, 0);
    /** Where time decides and nobody asks for others. */
    static final PointSeeds AT_FIRST = new PointSeeds(1, 20, 0.6);
    /** The variable of the environment that has the seed. */
    static final String VARIABLE = "POINTS";
    /** What a process has that is started without. */
    static final long OFF = -1;

    boolean areNone() {
        return count == 0;
    }

    /** The seed when this part of the whole, from 0 to 1, has been played. */
    long at(double part) {
        boolean over = share < 1 && part >= share;
        return areNone() || over ? OFF : first + Math.min(count - 1, (long) (part / share * count));
    }

    /** How a seed is told, and asked for again. */
    static String option(long seed) {
        return seed == OFF ? "" : " --points " + seed + ".." + seed;
    }
}
