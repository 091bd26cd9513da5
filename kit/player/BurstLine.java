package kit.player;

/** What a port tells of one step of a list: {@code did} with its answer, or {@code began} where it hasn't ended. */
record BurstLine(PortLine said, long number, long begin, long end, String answer) {
    /** Of {@code T did NUMBER BEGIN END ANSWER}, where the answer may be of several words. */
    private static final int WORDS = 6;
    private static final int WORDS_OF_BEGAN = 4;

    static BurstLine of(PortLine said) {
        String[] words = said.line().split(" ", WORDS);
        boolean did = said.kind() == PortLine.Kind.DID;
        if (words.length != (did ? WORDS : WORDS_OF_BEGAN)) {
            throw said.fault(did ? "a number, two times, and an answer have to follow" : "a number and a time have to follow");
        }
        return new BurstLine(said, number(said, words[2]), number(said, words[3]),
            did ? number(said, words[4]) : Long.MAX_VALUE, did ? words[5] : null);
    }

    private static long number(PortLine said, String word) {
        if (word.matches("[0-9]{1,18}")) {
            return Long.parseLong(word);
        }
        throw said.fault("`" + Excerpt.of(word) + "` is no number");
    }

    boolean hasEnded() {
        return said.kind() == PortLine.Kind.DID;
    }

    /** What a call of this method has come to. */
    Answer answer(Method method) {
        return PortThread.answer(said.ofThisThread(answer), method, number -> number == Burst.FAILURE);
    }

    ProtocolFault fault(String why) {
        return said.fault(why);
    }
}
