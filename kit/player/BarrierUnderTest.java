package kit.player;

import java.util.concurrent.BrokenBarrierException;
import java.util.concurrent.TimeoutException;

/** A cyclic barrier as the player sees it: its calls are those of {@code java.util.concurrent.CyclicBarrier}. */
public interface BarrierUnderTest {
    int await() throws InterruptedException, BrokenBarrierException;
    int await(long nanoseconds) throws InterruptedException, BrokenBarrierException, TimeoutException;
    void reset();
    boolean isBroken();
    int getNumberWaiting();
    int getParties();
}
