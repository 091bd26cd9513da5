package kit.player;

/** What a phaser's directive says of its onAdvance. {@code argument} is a phase for UNTIL, and a row for ROUTINE. */
record Policy(Kind kind, int argument) {
    enum Kind { DEFAULT, NEVER, UNTIL, ROUTINE }

    static final Policy DEFAULT = new Policy(Kind.DEFAULT, 0);

    /** The answer, or null where a routine gives it. */
    Boolean decide(int phase, int parties) {
        return switch (kind) {
            case DEFAULT -> parties == 0;
            case NEVER -> false;
            case UNTIL -> phase >= argument || parties == 0;
            case ROUTINE -> null;
        };
    }
}
