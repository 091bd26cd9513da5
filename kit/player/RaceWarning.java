package kit.player;

/** The race detector with which the port was built has warned: the message has its lines. */
final class RaceWarning extends Breakdown {
    private static final long serialVersionUID = 1;

    RaceWarning(String lines) {
        super("the port's race detector warns:\n" + lines, false);
    }
}
