package kit.player;

import java.util.List;

/** A call that an onAdvance or an action has made of its own object, in a burst. */
record InnerCall(int thread, Entered where, Request request, Answer answer) {
    /**
     * Whether the JDK or a port by our rules answers so. Nothing can change the object meanwhile but a forced termination, so no
     * order of the other calls matters.
     */
    boolean isRight(Burst burst) {
        return answers(burst).contains(answer);
    }

    private List<Answer> answers(Burst burst) {
        int view = where.phase() | Integer.MIN_VALUE;
        boolean forced = burst.forces();
        return switch (request.method()) {
            case GET_PHASE -> either(Answer.value(where.phase()), forced, Answer.value(view));
            case IS_TERMINATED -> either(Answer.value(0), forced, Answer.value(1));
            case GET_REGISTERED_PARTIES, GET_ARRIVED_PARTIES -> List.of(Answer.value(where.parties()));
            case GET_UNARRIVED_PARTIES, IS_BROKEN -> List.of(Answer.value(0));
            case ARRIVE, ARRIVE_AND_DEREGISTER, ARRIVE_AND_AWAIT_ADVANCE ->
                either(Answer.thrown(Answer.ILLEGAL_STATE), forced, Answer.value(view));
            case GET_NUMBER_WAITING -> List.of(Answer.value(parties(burst)), Answer.thrown(Answer.ILLEGAL_STATE));
            case GET_PARTIES -> List.of(Answer.value(parties(burst)));
            default -> throw new IllegalStateException("no rule for " + request.method().word + " inside");
        };
    }

    private static List<Answer> either(Answer answer, boolean forced, Answer ifForced) {
        return forced ? List.of(answer, ifForced) : List.of(answer);
    }

    private int parties(Burst burst) {
        return burst.barriers().get(where.object()).parties();
    }

    String words() {
        return "thread " + thread + ", inside the " + (where.ofPhaser() ? "onAdvance of phaser " + where.object() + " (phase "
            + where.phase() + ", parties " + where.parties() + ")" : "action of barrier " + where.object()) + ": "
            + request.words() + " " + answer.told();
    }
}
