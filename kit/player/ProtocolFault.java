package kit.player;

/** The real side did what no port does: it wrote a line that isn't in the protocol, or its factory threw an exception. */
final class ProtocolFault extends Breakdown {
    private static final long serialVersionUID = 1;

    ProtocolFault(String what) {
        super(what, false);
    }

    ProtocolFault(String what, RuntimeException thrown) {
        this(what);
        initCause(thrown);
    }
}
