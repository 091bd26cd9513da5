package kit.player;

import java.util.List;
import java.util.concurrent.BlockingQueue;

/** Where the real calls are made: in this JVM, or by a port's process. Only the player's own thread calls it. */
interface Stage {
    /** The number of the player's own thread, which makes the looks at the objects; those of a program are below it. */
    int LOOKER = 64;

    /** What the {@code onAdvance} of a phaser does when it is asked. */
    interface Advance {
        /** The answer that is known at once, or null where the thread enters a routine. */
        Boolean decide(int phase, int parties);
    }

    /** A new case begins: all objects are forgotten. */
    void begin(Patience patience);

    /** Makes the next phaser. {@code parent} is -1 for a root; {@code advance} is null where the class's own is kept. */
    void phaser(int number, int parent, int parties, int firstPhase, Advance advance);

    /** Makes the next barrier. */
    void barrier(int number, int parties, boolean withAction);

    /** The words of the port protocol that make a phaser. */
    static String phaserWords(int number, int parent, int parties, int firstPhase, boolean asked) {
        return "phaser " + number + " " + parent + " " + parties + " " + firstPhase + (asked ? " asked" : " own");
    }

    /** Those that make a barrier. */
    static String barrierWords(int number, int parties, boolean withAction) {
        return "barrier " + number + " " + parties + (withAction ? " asked" : " none");
    }

    /** The thread of this number, up to {@code LOOKER}. */
    RealThread thread(int number);

    /** Some thread didn't come out of its call: whatever is needed so that the next case meets fresh threads. */
    void abandon();

    /** What the system shows of its threads, in some lines. */
    default List<String> seen() {
        return List.of();
    }

    /** Leaves its process to a debugger, and says so; null where none is left. */
    default String leave() {
        return null;
    }

    /** Whether its threads are threads of this JVM, which run a call's watcher themselves. */
    default boolean isHere() {
        return false;
    }

    /** Whether it takes lists of calls, begins them all at once, and tells when each call began and ended. */
    default boolean takesLists() {
        return false;
    }

    /** Makes the threads for lists, these and the looker, so that none has to be made when they begin. */
    default void prepareForLists(int threads) {
        throw new IllegalStateException("it takes no lists");
    }

    /** Tells a call that an onAdvance or an action makes in a list, in the words of the port protocol. */
    default void tellInner(String line) {
        throw new IllegalStateException("it takes no lists");
    }

    /** Tells lists of calls, in the words of the port protocol; what comes of them goes to {@code told}. */
    default void tellLists(List<String> lines, BlockingQueue<PortLine> told) {
        throw new IllegalStateException("it takes no lists");
    }

    /** Puts what it can tell of lists that haven't ended into their queue. */
    default void askSoFar() {
        throw new IllegalStateException("it takes no lists");
    }

    /** All has been answered: throws where a race detector has warned meanwhile. */
    default void checkWarnings() {
    }

    /** From now on it runs with this seed of points, in a process of its own; {@code PointSeeds.OFF} is without. */
    default void startWithPoints(long seed) {
        if (seed != PointSeeds.OFF) {
            throw new IllegalStateException("only a port has points");
        }
    }

    /** How long to wait, first and then at each further try. */
    Patience[] patience();

    /** All is over. */
    void close();
}
