package kit.player;

import java.util.concurrent.BrokenBarrierException;
import java.util.concurrent.TimeoutException;

/** What a call came to. */
record Answer(Kind kind, int number, String words) {
    enum Kind {
        /** It returned {@code number}. */
        VALUE,
        /** It returned, and has no value. */
        VOID,
        /** It threw the exception {@code number} of the table "Exceptions". */
        THROWN,
        /** Out of it came the exception {@code number} that its routine or action was told to throw. */
        THROUGH,
        /** It threw something else, which {@code words} tell. */
        FAULT
    }

    static final int ILLEGAL_STATE = 1;
    static final int ILLEGAL_ARGUMENT = 2;
    static final int INTERRUPTED = 3;
    static final int BROKEN_BARRIER = 4;
    static final int TIMEOUT = 5;

    static final Answer NOTHING = new Answer(Kind.VOID, 0, "");

    static Answer value(int number) {
        return new Answer(Kind.VALUE, number, "");
    }

    static Answer thrown(int number) {
        return new Answer(Kind.THROWN, number, "");
    }

    /** What a call, or a constructor, came to that threw this. */
    static Answer of(Throwable thrown) {
        if (thrown instanceof IllegalStateException) {
            return thrown(ILLEGAL_STATE);
        }
        if (thrown instanceof IllegalArgumentException) {
            return thrown(ILLEGAL_ARGUMENT);
        }
        if (thrown instanceof InterruptedException) {
            return thrown(INTERRUPTED);
        }
        if (thrown instanceof BrokenBarrierException) {
            return thrown(BROKEN_BARRIER);
        }
        return thrown instanceof TimeoutException ? thrown(TIMEOUT) : fault(thrown.toString());
    }

    static Answer through(int number) {
        return new Answer(Kind.THROUGH, number, "");
    }

    static Answer fault(String words) {
        return new Answer(Kind.FAULT, 0, words);
    }

    /** The words of the port protocol. */
    String line() {
        return switch (kind) {
            case VALUE -> "= " + number;
            case VOID -> "ok";
            case THROWN -> "throw " + number;
            case THROUGH -> "through " + number;
            case FAULT -> "fault " + words;
        };
    }

    /** What the call did, in words. */
    String told() {
        return switch (kind) {
            case VALUE -> "= " + number;
            case VOID -> "ok";
            case THROWN -> "throws " + exception();
            case THROUGH -> "throws what its onAdvance or action threw";
            case FAULT -> "throws something else, `" + words + "`";
        };
    }

    private String exception() {
        return switch (number) {
            case ILLEGAL_STATE -> "IllegalStateException";
            case ILLEGAL_ARGUMENT -> "IllegalArgumentException";
            case INTERRUPTED -> "InterruptedException";
            case BROKEN_BARRIER -> "BrokenBarrierException";
            case TIMEOUT -> "TimeoutException";
            default -> "exception " + number;
        };
    }

    boolean isValue(int wanted) {
        return kind == Kind.VALUE && number == wanted;
    }

    boolean isThrown(int wanted) {
        return kind == Kind.THROWN && number == wanted;
    }
}
