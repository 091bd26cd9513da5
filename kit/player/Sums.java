package kit.player;

/** The sums of many plays. */
final class Sums {
    private int asked;
    private int leftOut;
    private int toldAgain;
    private int toldOver;

    void add(Notes notes) {
        asked += notes.askedCalls();
        leftOut += notes.count(Notes.Kind.LEFT_OUT);
        toldAgain += notes.count(Notes.Kind.TOLD_AGAIN);
        toldOver += notes.count(Notes.Kind.TOLD_OVER);
    }

    String line() {
        return asked + " calls asked, " + leftOut + " left out, " + toldAgain + " told again, " + toldOver + " told over";
    }
}
