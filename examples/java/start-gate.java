import java.util.concurrent.Phaser;

/** A start gate: two threads begin their work when a third one lets them. Prints what start-gate.expect says. */
class StartGate {
    public static void main(String[] words) throws InterruptedException {
        Phaser gate = new Phaser(3);
        int[] got = new int[3];
        Thread ann = new Thread(() -> got[1] = gate.arriveAndAwaitAdvance());
        Thread bob = new Thread(() -> got[2] = gate.arriveAndAwaitAdvance());
        ann.start();
        bob.start();
        got[0] = gate.arriveAndDeregister();
        ann.join();
        bob.join();
        System.out.println("opener out " + got[0]);
        System.out.println("ann out " + got[1]);
        System.out.println("bob out " + got[2]);
    }
}
