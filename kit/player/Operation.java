package kit.player;

import java.util.Locale;

/** The words of a program's rows, and the call that each makes, if it makes one. */
enum Operation {
    HALT, LDI, MOV, ADD, SUB, JMP, BEQ, BNE, BLT, CALL, RET, TRY, ENDTRY, THROW, OUT, LDS, STS, SELF, INTR,
    INTRD(Method.INTERRUPTED),
    PREG(Method.REGISTER),
    PBULK(Method.BULK_REGISTER),
    PARR(Method.ARRIVE),
    PDEREG(Method.ARRIVE_AND_DEREGISTER),
    PAAA(Method.ARRIVE_AND_AWAIT_ADVANCE),
    PAWAIT(Method.AWAIT_ADVANCE),
    PAWAITI(Method.AWAIT_ADVANCE_INTERRUPTIBLY),
    PFORCE(Method.FORCE_TERMINATION),
    PPHASE(Method.GET_PHASE),
    PPARTIES(Method.GET_REGISTERED_PARTIES),
    PARRIVED(Method.GET_ARRIVED_PARTIES),
    PUNARR(Method.GET_UNARRIVED_PARTIES),
    PTERM(Method.IS_TERMINATED),
    PPARENT(Method.GET_PARENT),
    PROOT(Method.GET_ROOT),
    CAWAIT(Method.AWAIT),
    CRESET(Method.RESET),
    CBROKEN(Method.IS_BROKEN),
    CWAITING(Method.GET_NUMBER_WAITING),
    CPARTIES(Method.GET_PARTIES),
    PAWAITT(Method.AWAIT_ADVANCE_FOR),
    CAWAITT(Method.AWAIT_FOR);

    /** Null for a row that calls nothing. */
    final Method method;

    Operation() {
        this(null);
    }

    Operation(Method method) {
        this.method = method;
    }

    static Operation of(String word) {
        return valueOf(word.toUpperCase(Locale.ROOT));
    }

    String word() {
        return name().toLowerCase(Locale.ROOT);
    }
}
