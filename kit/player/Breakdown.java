package kit.player;

/** The play can't go on, for a reason of the real side's that the message tells. */
abstract class Breakdown extends RuntimeException {
    private static final long serialVersionUID = 1;

    final boolean atStart;

    /** {@code atStart}: the real side was started for this play, and hadn't answered anything yet. */
    Breakdown(String what, boolean atStart) {
        super(what);
        this.atStart = atStart;
    }

    /** Whether another try may come to something else: a slow machine, and no more, could look like this. */
    boolean mayBeSlowness() {
        return false;
    }

    /** Whether a run of such plays has no end in sight. */
    boolean isEndless() {
        return false;
    }
}
