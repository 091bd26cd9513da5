package kit.player;

/** The real side does as the JDK does in a documented difference that leaves nothing to be compared behind it. */
final class AsTheJdk extends RuntimeException {
    private static final long serialVersionUID = 1;

    final transient KnownDifferences.Excused call;

    AsTheJdk(KnownDifferences.Excused call) {
        super(null, null, false, false);
        this.call = call;
    }
}
