package kit.player;

/** The real call that a thread of the program is inside of, while it waits, is held or is locked out by an action. */
final class Pending {
    final Call call;
    final Row row;
    WaitTime time = WaitTime.NONE;
    /** The view of the tree whose end it waits for: the phase that was named, or the one in which it was called. */
    int awaited;
    /** The generation of the barrier in which it waits, as the player counts them. */
    int generation;
    /** The real thread came out, or was given up. */
    boolean released;
    /** What {@code getPhase} of the root answered when it came out. */
    int viewAtRelease;
    /** It gets a real interrupt at its own choice. */
    boolean owesInterrupt;

    Pending(Call call, Row row) {
        this.call = call;
        this.row = row;
    }

    Method method() {
        return row.method();
    }

    int object() {
        return row.object();
    }

    /** The call, and whose it is. */
    String words(ProgramThread thread) {
        return call.request.words() + " of t" + thread.number;
    }

    boolean expires() {
        return time.runsOut();
    }

    /** Its time ran out, whether or not the schedule has come to that. */
    boolean expiredByItself() {
        return expires() && call.done() && call.answer().isThrown(Answer.TIMEOUT);
    }
}
