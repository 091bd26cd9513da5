import java.util.concurrent.Phaser;

/** Three rounds: the phaser terminates after the last, and each thread counts its rounds. Prints what rounds.expect says. */
class Rounds {
    public static void main(String[] words) throws InterruptedException {
        Phaser rounds = new Phaser(2) {
            @Override
            protected boolean onAdvance(int phase, int parties) {
                return phase >= 2;
            }
        };
        int[] got = new int[2];
        Thread[] threads = new Thread[2];
        for (int i = 0; i < 2; i++) {
            int number = i;
            threads[i] = new Thread(() -> {
                do {
                    got[number]++;
                    rounds.arriveAndAwaitAdvance();
                } while (!rounds.isTerminated());
            });
            threads[i].start();
        }
        for (Thread thread : threads) {
            thread.join();
        }
        System.out.println("ann out " + got[0]);
        System.out.println("bob out " + got[1]);
    }
}
