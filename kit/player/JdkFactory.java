package kit.player;

import java.lang.reflect.Field;
import java.util.concurrent.BrokenBarrierException;
import java.util.concurrent.CyclicBarrier;
import java.util.concurrent.Phaser;
import java.util.concurrent.TimeUnit;
import java.util.concurrent.TimeoutException;

/** The JDK's own classes, put in as a porter puts in his. */
public class JdkFactory implements Factory {
    @Override
    public PhaserUnderTest phaser(PhaserUnderTest parent, int parties, int firstPhase, OnAdvance onAdvance) {
        JdkPhaser phaser = new JdkPhaser(parent == null ? null : ((PhaserView) parent).phaser, parties, onAdvance);
        if (firstPhase != 0) {
            beginIn(phaser, firstPhase);
        }
        return phaser.view;
    }

    @Override
    public BarrierUnderTest barrier(int parties, Runnable action) {
        return new BarrierView(new CyclicBarrier(parties, action));
    }

    /** No call gives a first phase: the private word is set, for which the module has to be opened. */
    private static void beginIn(Phaser phaser, int firstPhase) {
        try {
            Field word = Phaser.class.getDeclaredField("state");
            word.setAccessible(true);
            word.setLong(phaser, word.getLong(phaser) | (long) firstPhase << 32);
        } catch (ReflectiveOperationException | RuntimeException closed) {
            throw new UnsupportedOperationException("a first phase", closed);
        }
    }

    private static final class JdkPhaser extends Phaser {
        private final OnAdvance asked;
        private final PhaserView view = new PhaserView(this);

        JdkPhaser(Phaser parent, int parties, OnAdvance asked) {
            super(parent, parties);
            this.asked = asked;
        }

        @Override
        protected boolean onAdvance(int phase, int registeredParties) {
            return asked == null ? super.onAdvance(phase, registeredParties) : asked.onAdvance(phase, registeredParties);
        }
    }

    private static final class PhaserView implements PhaserUnderTest {
        private final JdkPhaser phaser;

        PhaserView(JdkPhaser phaser) {
            this.phaser = phaser;
        }

        @Override public int register() { return phaser.register(); }
        @Override public int bulkRegister(int parties) { return phaser.bulkRegister(parties); }
        @Override public int arrive() { return phaser.arrive(); }
        @Override public int arriveAndDeregister() { return phaser.arriveAndDeregister(); }
        @Override public int arriveAndAwaitAdvance() { return phaser.arriveAndAwaitAdvance(); }
        @Override public int awaitAdvance(int phase) { return phaser.awaitAdvance(phase); }

        @Override
        public int awaitAdvanceInterruptibly(int phase) throws InterruptedException {
            return phaser.awaitAdvanceInterruptibly(phase);
        }

        @Override
        public int awaitAdvanceInterruptibly(int phase, long nanoseconds) throws InterruptedException, TimeoutException {
            return phaser.awaitAdvanceInterruptibly(phase, nanoseconds, TimeUnit.NANOSECONDS);
        }

        @Override public void forceTermination() { phaser.forceTermination(); }
        @Override public int getPhase() { return phaser.getPhase(); }
        @Override public int getRegisteredParties() { return phaser.getRegisteredParties(); }
        @Override public int getArrivedParties() { return phaser.getArrivedParties(); }
        @Override public int getUnarrivedParties() { return phaser.getUnarrivedParties(); }
        @Override public boolean isTerminated() { return phaser.isTerminated(); }

        @Override
        public PhaserUnderTest getParent() {
            return phaser.getParent() == null ? null : ((JdkPhaser) phaser.getParent()).view;
        }

        @Override
        public PhaserUnderTest getRoot() {
            return ((JdkPhaser) phaser.getRoot()).view;
        }
    }

    private static final class BarrierView implements BarrierUnderTest {
        private final CyclicBarrier barrier;

        BarrierView(CyclicBarrier barrier) {
            this.barrier = barrier;
        }

        @Override
        public int await() throws InterruptedException, BrokenBarrierException {
            return barrier.await();
        }

        @Override
        public int await(long nanoseconds) throws InterruptedException, BrokenBarrierException, TimeoutException {
            return barrier.await(nanoseconds, TimeUnit.NANOSECONDS);
        }

        @Override public void reset() { barrier.reset(); }
        @Override public boolean isBroken() { return barrier.isBroken(); }
        @Override public int getNumberWaiting() { return barrier.getNumberWaiting(); }
        @Override public int getParties() { return barrier.getParties(); }
    }
}
