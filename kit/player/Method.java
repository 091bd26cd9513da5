package kit.player;

import java.util.EnumSet;
import java.util.Set;

/** The calls that a thread can be told to make, with their words in the port protocol. */
enum Method {
    REGISTER("register"),
    BULK_REGISTER("bulkRegister"),
    ARRIVE("arrive"),
    ARRIVE_AND_DEREGISTER("arriveAndDeregister"),
    ARRIVE_AND_AWAIT_ADVANCE("arriveAndAwaitAdvance"),
    AWAIT_ADVANCE("awaitAdvance"),
    AWAIT_ADVANCE_INTERRUPTIBLY("awaitAdvanceInterruptibly"),
    AWAIT_ADVANCE_FOR("awaitAdvanceInterruptibly"),
    FORCE_TERMINATION("forceTermination"),
    GET_PHASE("getPhase"),
    GET_REGISTERED_PARTIES("getRegisteredParties"),
    GET_ARRIVED_PARTIES("getArrivedParties"),
    GET_UNARRIVED_PARTIES("getUnarrivedParties"),
    IS_TERMINATED("isTerminated"),
    GET_PARENT("getParent"),
    GET_ROOT("getRoot"),
    AWAIT("await"),
    AWAIT_FOR("await"),
    RESET("reset"),
    IS_BROKEN("isBroken"),
    GET_NUMBER_WAITING("getNumberWaiting"),
    GET_PARTIES("getParties"),
    INTERRUPTED("interrupted"),
    IS_INTERRUPTED("isInterrupted");

    private static final Set<Method> PHASER = EnumSet.range(REGISTER, GET_ROOT);
    private static final Set<Method> BARRIER = EnumSet.range(AWAIT, GET_PARTIES);
    private static final Set<Method> ARRIVALS = EnumSet.range(ARRIVE, ARRIVE_AND_AWAIT_ADVANCE);
    private static final Set<Method> PHASE_WAITS = EnumSet.range(ARRIVE_AND_AWAIT_ADVANCE, AWAIT_ADVANCE_FOR);
    private static final Set<Method> NUMBERED =
        EnumSet.of(BULK_REGISTER, AWAIT_ADVANCE, AWAIT_ADVANCE_INTERRUPTIBLY, AWAIT_ADVANCE_FOR);
    private static final Set<Method> LOOKS = EnumSet.of(GET_PHASE, GET_REGISTERED_PARTIES, GET_ARRIVED_PARTIES,
        GET_UNARRIVED_PARTIES, IS_TERMINATED, GET_PARENT, GET_ROOT, IS_BROKEN, GET_NUMBER_WAITING, GET_PARTIES, IS_INTERRUPTED);

    private static final Set<Method> TRUTHS = EnumSet.of(IS_TERMINATED, IS_BROKEN, INTERRUPTED, IS_INTERRUPTED);

    final String word;

    Method(String word) {
        this.word = word;
    }

    boolean ofPhaser() {
        return PHASER.contains(this);
    }

    boolean ofBarrier() {
        return BARRIER.contains(this);
    }

    boolean registers() {
        return this == REGISTER || this == BULK_REGISTER;
    }

    boolean arrives() {
        return ARRIVALS.contains(this);
    }

    /** Whether it may wait for the end of a phase. */
    boolean waitsForPhase() {
        return PHASE_WAITS.contains(this);
    }

    /** Whether it may wait for the end of a barrier's generation. */
    boolean waitsAtBarrier() {
        return this == AWAIT || this == AWAIT_FOR;
    }

    boolean waits() {
        return waitsForPhase() || waitsAtBarrier();
    }

    /** Whether an interrupt ends its wait. */
    boolean interruptible() {
        return this == AWAIT_ADVANCE_INTERRUPTIBLY || this == AWAIT_ADVANCE_FOR || waitsAtBarrier();
    }

    boolean timed() {
        return this == AWAIT_ADVANCE_FOR || this == AWAIT_FOR;
    }

    /** Whether it looks, and changes nothing. */
    boolean looks() {
        return LOOKS.contains(this);
    }

    /** Whether it has a number beside its object: parties or a phase. */
    boolean numbered() {
        return NUMBERED.contains(this);
    }

    boolean hasValue() {
        return this != FORCE_TERMINATION && this != RESET;
    }

    /** Whether its value is true or false. */
    boolean isTruth() {
        return TRUTHS.contains(this);
    }

    /** Whether a barrier answers it only when no other thread runs the action. */
    boolean lockedOutByAction() {
        return ofBarrier() && this != GET_PARTIES;
    }
}
