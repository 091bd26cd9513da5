package kit.player;

/**
 * What a thread of the model waits for: the end of phase {@code number} of the tree of root {@code object}, or the end of its
 * generation of barrier {@code object}, where {@code number} is its arrival index.
 */
record ModelWait(Method method, int object, int number, boolean endedItself, Generation generation) {
    /** How the generation of a waiter at a barrier has ended, whatever the barrier has done since. */
    enum Generation { OPEN, TRIPPED, BROKEN }

    static ModelWait forPhase(Method method, int root, int phase, boolean endedItself) {
        return new ModelWait(method, root, phase, endedItself, null);
    }

    static ModelWait atBarrier(Method method, int barrier, int index) {
        return new ModelWait(method, barrier, index, false, Generation.OPEN);
    }

    ModelWait ended(Generation how) {
        return new ModelWait(method, object, number, endedItself, how);
    }

    boolean isAt(int barrier) {
        return method.waitsAtBarrier() && object == barrier && generation == Generation.OPEN;
    }
}
