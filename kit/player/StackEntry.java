package kit.player;

/**
 * What stands on a thread's stack. {@code number} is the row of a call or handler, the phaser of a routine, the barrier of
 * an action. A routine or an action keeps the registers and the row, and the call in the middle of which it runs.
 */
record StackEntry(Kind kind, int number, int[] registers, int row, Pending pending) {
    enum Kind {
        CALL('C'),
        HANDLER('H'),
        ROUTINE('A'),
        ACTION('X');

        final char letter;

        Kind(char letter) {
            this.letter = letter;
        }
    }

    StackEntry(Kind kind, int number) {
        this(kind, number, null, 0, null);
    }

    boolean runs() {
        return kind == Kind.ROUTINE || kind == Kind.ACTION;
    }
}
