import java.util.concurrent.BrokenBarrierException;
import java.util.concurrent.CyclicBarrier;
import java.util.concurrent.TimeUnit;
import java.util.concurrent.TimeoutException;

/** A third party never comes: the first to lose patience breaks the barrier for both. Prints what breakage.expect says. */
class Breakage {
    public static void main(String[] words) throws InterruptedException {
        CyclicBarrier three = new CyclicBarrier(3);
        int[] got = new int[3];
        Thread ann = new Thread(() -> {
            try {
                three.await(100, TimeUnit.MILLISECONDS);
            } catch (TimeoutException thrown) {
                got[0] = 5;
                got[1] = three.isBroken() ? 1 : 0;
            } catch (InterruptedException | BrokenBarrierException thrown) {
                got[0] = 4;
            }
        });
        Thread bob = new Thread(() -> {
            try {
                three.await();
            } catch (InterruptedException | BrokenBarrierException thrown) {
                got[2] = thrown instanceof BrokenBarrierException ? 4 : 3;
            }
        });
        ann.start();
        bob.start();
        ann.join();
        bob.join();
        System.out.println("ann out " + got[0] + " " + got[1]);
        System.out.println("bob out " + got[2]);
    }
}
