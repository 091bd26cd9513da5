package kit.wrong.burst;

import kit.player.BarrierUnderTest;
import kit.player.Factory;
import kit.player.PhaserUnderTest;
import kit.wrong.WrongFactory;

/**
 * Makes phasers, each with its own lock, and barriers over one lock. Without an adapter they are right: no burst finds
 * anything, and no case. From inside an onAdvance or an action they answer as the JDK does.
 */
public final class UnderOneLock implements Factory {
    private final Class<?> adapter;

    /** By the adapter that the variable FAULT names, as {@code WrongTrips$LastOutRenews}, or without one. */
    public UnderOneLock() throws ClassNotFoundException {
        this(Class.forName("kit.wrong.burst." + System.getenv().getOrDefault("FAULT", "UnderOneLock")));
    }

    public UnderOneLock(Class<?> adapter) {
        this.adapter = adapter;
    }

    @Override
    public PhaserUnderTest phaser(PhaserUnderTest parent, int parties, int firstPhase, OnAdvance onAdvance) {
        if (firstPhase != 0) {
            throw new UnsupportedOperationException("a first phase but 0");
        }
        return parent == null ? WrongFactory.make(LockedPhaser.class, adapter).begin(parties, onAdvance)
            : WrongFactory.make(TieredChild.class, adapter).begin(parent, parties);
    }

    @Override
    public BarrierUnderTest barrier(int parties, Runnable action) {
        return WrongFactory.make(LockedBarrier.class, adapter).begin(parties, action);
    }
}
