package kit.wrong;

import java.lang.reflect.Constructor;
import java.util.stream.Stream;
import kit.player.BarrierUnderTest;
import kit.player.Factory;
import kit.player.JdkFactory;
import kit.player.PhaserUnderTest;

/** Makes the JDK's objects, with the misunderstanding of an adapter put before them. */
public final class WrongFactory implements Factory {
    private final JdkFactory jdk = new JdkFactory();
    private final Class<?> adapter;

    /** By the adapter that the variable FAULT names, as {@code WrongArrivals$LeavingOnlyArrives}, or without one. */
    public WrongFactory() throws ClassNotFoundException {
        this(Class.forName("kit.wrong." + System.getenv().getOrDefault("FAULT", "WrongFactory")));
    }

    public WrongFactory(Class<?> adapter) {
        this.adapter = adapter;
    }

    /** An object of the adapter, or of a class inside it, if that is a {@code right}; else the right one itself. */
    public static <T> T make(Class<T> right, Class<?> adapter) {
        Class<?> made = Stream.concat(Stream.of(adapter), Stream.of(adapter.getDeclaredClasses()))
            .filter(right::isAssignableFrom).findFirst().orElse(right);
        try {
            Constructor<?> constructor = made.getDeclaredConstructor();
            constructor.setAccessible(true);
            return right.cast(constructor.newInstance());
        } catch (ReflectiveOperationException none) {
            throw new IllegalStateException(none);
        }
    }

    @Override
    public PhaserUnderTest phaser(PhaserUnderTest parent, int parties, int firstPhase, OnAdvance onAdvance) {
        PhaserWrapper above = (PhaserWrapper) parent;
        PhaserWrapper phaser = make(PhaserWrapper.class, adapter);
        phaser.routine = onAdvance;
        phaser.standBefore(jdk.phaser(above == null ? null : above.right, parties, firstPhase, phaser.asked()), above);
        return phaser;
    }

    @Override
    public BarrierUnderTest barrier(int parties, Runnable action) {
        BarrierWrapper barrier = make(BarrierWrapper.class, adapter);
        barrier.action = action;
        barrier.right = jdk.barrier(parties, barrier.run());
        return barrier;
    }
}
