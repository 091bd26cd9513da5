import java.util.concurrent.Phaser;

/** A tree for many threads: at most two at a phaser, and one phase for all. Prints what tree.expect says. */
class Tree {
    public static void main(String[] words) throws InterruptedException {
        Phaser root = new Phaser();
        Phaser left = new Phaser(root, 2);
        Phaser right = new Phaser(root, 1);
        int[] got = new int[3];
        Thread ann = new Thread(() -> got[0] = left.arriveAndAwaitAdvance());
        Thread bob = new Thread(() -> got[1] = left.arriveAndAwaitAdvance());
        Thread cem = new Thread(() -> {
            got[2] = root.getRegisteredParties();
            right.arriveAndAwaitAdvance();
        });
        for (Thread thread : new Thread[] {ann, bob, cem}) {
            thread.start();
        }
        for (Thread thread : new Thread[] {ann, bob, cem}) {
            thread.join();
        }
        System.out.println("ann out " + got[0]);
        System.out.println("bob out " + got[1]);
        System.out.println("cem out " + got[2]);
    }
}
