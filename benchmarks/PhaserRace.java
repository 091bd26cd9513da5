import java.util.concurrent.Phaser;

/**
 * The race that {@code vuthgal race} plays, on the JDK's own Phaser: {@code PhaserRace PARTIES ROUNDS [WARM_UP]}. PARTIES
 * threads call arriveAndAwaitAdvance ROUNDS times each, after as many threads have done so WARM_UP times, on another
 * phaser, for the compiler's sake. Prints the phaser's last phase and the seconds.
 */
public class PhaserRace {
    public static void main(String[] words) throws InterruptedException {
        int parties = Integer.parseInt(words[0]);
        int rounds = Integer.parseInt(words[1]);
        if (words.length > 2) {
            race(parties, Integer.parseInt(words[2]));
        }
        System.out.println(race(parties, rounds));
    }

    static String race(int parties, int rounds) throws InterruptedException {
        Phaser phaser = new Phaser(parties);
        Thread[] threads = new Thread[parties];
        long begin = System.nanoTime();
        for (int i = 0; i < parties; i++) {
            threads[i] = new Thread(() -> {
                for (int round = 0; round < rounds; round++) {
                    phaser.arriveAndAwaitAdvance();
                }
            });
            threads[i].start();
        }
        for (Thread thread : threads) {
            thread.join();
        }
        double seconds = (System.nanoTime() - begin) / 1e9;
        return "phase %d, %.6f s".formatted(phaser.getPhase(), seconds);
    }
}
