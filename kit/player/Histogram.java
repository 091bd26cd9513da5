package kit.player;

/** How often numbers from 0 came, by classes whose ends are no more than 3 % apart: as small after millions as at the beginning. */
final class Histogram {
    /** Numbers below two to this power have a class each; between a power of two and the next one there are half so many. */
    private static final int BITS = 6;

    private final long[] counts = new long[Long.SIZE - BITS + 1 << BITS - 1];
    private long count;

    void add(long number) {
        counts[classOf(number)]++;
        count++;
    }

    /** The middle of the class below which this part of the numbers lies, from 0 up to, and without, 1. */
    long at(double part) {
        long below = (long) (part * count);
        int at = 0;
        for (long passed = counts[0]; passed <= below; passed += counts[at]) {
            at++;
        }
        return (least(at) + least(at + 1) - 1) / 2;
    }

    private static int classOf(long number) {
        int shift = Math.max(0, Long.SIZE - Long.numberOfLeadingZeros(number) - BITS);
        return (shift << BITS - 1) + (int) (number >> shift);
    }

    private static long least(int of) {
        int shift = Math.max(0, (of >> BITS - 1) - 1);
        return (long) (of - (shift << BITS - 1)) << shift;
    }
}
