package kit.player;

/** The real side doesn't answer where it has to. On a busy machine it may only be slow. */
final class Hangs extends Breakdown {
    private static final long serialVersionUID = 1;

    Hangs(String what) {
        this(what, false);
    }

    Hangs(String what, boolean atStart) {
        super(what, atStart);
    }

    @Override
    boolean mayBeSlowness() {
        return !atStart;
    }

    @Override
    boolean isEndless() {
        return true;
    }
}
