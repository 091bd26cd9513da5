package kit.player;

import java.util.concurrent.TimeoutException;

/** A phaser as the player sees it: its calls are those of {@code java.util.concurrent.Phaser}. */
public interface PhaserUnderTest {
    int register();
    int bulkRegister(int parties);
    int arrive();
    int arriveAndDeregister();
    int arriveAndAwaitAdvance();
    int awaitAdvance(int phase);
    int awaitAdvanceInterruptibly(int phase) throws InterruptedException;
    int awaitAdvanceInterruptibly(int phase, long nanoseconds) throws InterruptedException, TimeoutException;
    void forceTermination();
    int getPhase();
    int getRegisteredParties();
    int getArrivedParties();
    int getUnarrivedParties();
    boolean isTerminated();
    /** The object that the factory gave for the parent, or null. */
    PhaserUnderTest getParent();
    /** The object that the factory gave for the root. */
    PhaserUnderTest getRoot();
}
