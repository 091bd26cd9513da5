package kit.player;

/** Where a thread stands in the middle of its call: at the beginning of a phaser's onAdvance or of a barrier's action. */
record Entered(boolean ofPhaser, int object, int phase, int parties) {
    static Entered onAdvance(int phaser, int phase, int parties) {
        return new Entered(true, phaser, phase, parties);
    }

    static Entered action(int barrier) {
        return new Entered(false, barrier, 0, 0);
    }

    /** The words of the port protocol. */
    String line() {
        return ofPhaser ? "phaser " + object + " " + phase + " " + parties : "barrier " + object;
    }
}
