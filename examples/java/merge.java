import java.util.concurrent.BrokenBarrierException;
import java.util.concurrent.CyclicBarrier;

/** A barrier with an action: the last to arrive merges the two parts. Prints what merge.expect says. */
class Merge {
    static int left;
    static int right;
    static int total;

    static void await(CyclicBarrier barrier) {
        try {
            barrier.await();
        } catch (InterruptedException | BrokenBarrierException thrown) {
            throw new IllegalStateException(thrown);
        }
    }

    public static void main(String[] words) throws InterruptedException {
        CyclicBarrier barrier = new CyclicBarrier(2, () -> total = left + right);
        int[] got = new int[2];
        Thread ann = new Thread(() -> {
            left = 3;
            await(barrier);
            got[0] = total;
        });
        Thread bob = new Thread(() -> {
            right = 4;
            await(barrier);
            got[1] = total;
        });
        ann.start();
        bob.start();
        ann.join();
        bob.join();
        System.out.println("ann out " + got[0]);
        System.out.println("bob out " + got[1]);
    }
}
