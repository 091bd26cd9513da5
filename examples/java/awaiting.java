import java.util.concurrent.Phaser;
import java.util.concurrent.TimeUnit;
import java.util.concurrent.TimeoutException;

/** Awaiting without arriving, for some time; then everybody is released. Prints what awaiting.expect says. */
class Awaiting {
    public static void main(String[] words) throws InterruptedException {
        Phaser work = new Phaser(2);
        int[] got = new int[2];
        Thread ann = new Thread(() -> got[0] = work.arriveAndAwaitAdvance());
        Thread guard = new Thread(() -> {
            try {
                work.awaitAdvanceInterruptibly(0, 100, TimeUnit.MILLISECONDS);
            } catch (InterruptedException | TimeoutException thrown) {
                got[1] = thrown instanceof TimeoutException ? 5 : 3;
                work.forceTermination();
            }
        });
        ann.start();
        guard.start();
        ann.join();
        guard.join();
        System.out.println("ann out " + got[0]);
        System.out.println("guard out " + got[1]);
    }
}
