package kit.player;

/**
 * Makes the objects of a program. A port on the JVM is a public class that implements this and has a constructor without
 * parameters; the player takes it by its name ({@code --factory NAME}).
 */
public interface Factory {
    /** What a phaser's {@code onAdvance} is overridden by. */
    interface OnAdvance {
        boolean onAdvance(int phase, int registeredParties);
    }

    /**
     * A phaser, the child of {@code parent} where that isn't null. Where {@code onAdvance} is null the class's own stays.
     * It begins in phase {@code firstPhase}, which is 0 but where a root is declared otherwise; a class that can't do that
     * throws UnsupportedOperationException, and the case is left out.
     */
    PhaserUnderTest phaser(PhaserUnderTest parent, int parties, int firstPhase, OnAdvance onAdvance);

    /** A barrier; {@code action} is null where it has none. */
    BarrierUnderTest barrier(int parties, Runnable action);
}
