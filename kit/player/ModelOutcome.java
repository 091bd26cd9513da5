package kit.player;

/** What becomes of a call when it begins, or when its routine or action ends. */
record ModelOutcome(Kind kind, Answer answer, Entered entered) {
    enum Kind {
        /** It has its answer. */
        ANSWERS,
        /** It waits. */
        WAITS,
        /** It enters a routine or an action. */
        ENTERS,
        /** It can't begin now: it is held, or an action locks it out. */
        HELD
    }

    static final ModelOutcome WAITS = new ModelOutcome(Kind.WAITS, null, null);
    static final ModelOutcome HELD = new ModelOutcome(Kind.HELD, null, null);

    static ModelOutcome answers(Answer answer) {
        return new ModelOutcome(Kind.ANSWERS, answer, null);
    }

    static ModelOutcome answers(int value) {
        return answers(Answer.value(value));
    }

    static ModelOutcome throwing(int exception) {
        return answers(Answer.thrown(exception));
    }

    static ModelOutcome enters(Entered where) {
        return new ModelOutcome(Kind.ENTERS, null, where);
    }
}
