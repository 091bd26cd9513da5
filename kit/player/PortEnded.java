package kit.player;

/** The port's process couldn't be started, or has ended by itself. */
final class PortEnded extends Breakdown {
    private static final long serialVersionUID = 1;

    PortEnded(String what, boolean atStart) {
        super(what, atStart);
    }

    @Override
    boolean isEndless() {
        return atStart;
    }
}
