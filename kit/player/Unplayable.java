package kit.player;

/** The real side can't make an object that the program declares: the case is left out. */
final class Unplayable extends RuntimeException {
    private static final long serialVersionUID = 1;

    Unplayable(String why) {
        super(why);
    }
}
