package kit.player;

/**
 * A place where the JDK differs from Vuthgal, as docs/BEHAVIOUR.md says under "Where the JDK differs". Where the whole
 * condition of such a place holds, the player tells it as Vuthgal does, and counts that.
 */
enum KnownDifference {
    /** Inside onAdvance a registration, or a wait for the current phase, waits for the end of that phase: for ever. */
    CALL_BLOCKED_IN_ROUTINE(
        "inside `onAdvance`: `register`, `bulkRegister` above 0, `awaitAdvance` of the current phase",
        "register-inside", "RoutineMayRegisterNowhere") {
        @Override
        boolean isTheirs(Situation at, Call call, boolean changed) {
            return RealThread.outcome(call) == RealThread.Outcome.BLOCKED;
        }

        @Override
        boolean forbids(Situation at) {
            if (!at.insideOwnRoutine() || at.terminatedBefore()) {
                return false;
            }
            Method method = at.method();
            return method.registers() ? at.parties() > 0
                : method.waitsForPhase() && !method.arrives() && at.number() == at.viewBefore();
        }
    },

    /** Inside onAdvance the JDK answers a registration of no parties as it does anywhere. */
    NOBODY_REGISTERED_IN_ROUTINE("inside `onAdvance`: `bulkRegister(0)`",
        "bulk-of-0-inside", "RegisteringNobodyInRoutineAnswersTheNextPhase") {
        @Override
        Answer instead(Situation at, Answer given) {
            return at.insideOwnRoutine() && at.method() == Method.BULK_REGISTER && at.number() == 0
                && given.isValue(at.viewBefore()) ? Answer.thrown(Answer.ILLEGAL_STATE) : null;
        }
    },

    /** Inside onAdvance the JDK refuses a negative number of parties as it does anywhere. */
    NEGATIVE_PARTIES_IN_ROUTINE("inside `onAdvance`: `bulkRegister(-1)`",
        "bulk-below-0-inside", "NegativePartiesInRoutineAreAnswered") {
        @Override
        Answer instead(Situation at, Answer given) {
            return at.insideOwnRoutine() && at.method() == Method.BULK_REGISTER && at.number() < 0
                && given.isThrown(Answer.ILLEGAL_ARGUMENT) ? Answer.thrown(Answer.ILLEGAL_STATE) : null;
        }
    },

    /** Inside onAdvance the JDK answers who awaits another phase, or a negative number, as it does anywhere. */
    OTHER_PHASE_AWAITED_IN_ROUTINE("inside `onAdvance`: `awaitAdvance` of another number, or of a negative one",
        "await-another-inside", "AwaitInRoutineAnswersTheNextPhase") {
        @Override
        Answer instead(Situation at, Answer given) {
            if (!at.insideOwnRoutine() || !at.method().waitsForPhase() || at.method().arrives()) {
                return null;
            }
            boolean known = at.number() < 0 ? given.isValue(at.number())
                : !at.terminatedBefore() && at.number() != at.viewBefore() && given.isValue(at.viewBefore());
            return known ? Answer.thrown(Answer.ILLEGAL_STATE) : null;
        }
    },

    /** Inside onAdvance, once it has forced the termination, the JDK answers the view as it does anywhere. */
    CALL_IN_TERMINATED_ROUTINE(
        "inside `onAdvance`, after `forceTermination` there: `register`, `arrive`, `awaitAdvance`",
        "register-after-force-inside", "ForcedRoutineGetsThePlainPhase") {
        @Override
        Answer instead(Situation at, Answer given) {
            Method method = at.method();
            boolean changes = method.registers() && at.parties() > 0 || method.arrives()
                || method.waitsForPhase() && at.number() >= 0;
            return at.insideOwnRoutine() && at.terminatedBefore() && changes && given.isValue(at.viewBefore())
                ? Answer.thrown(Answer.ILLEGAL_STATE) : null;
        }
    },

    /** Inside onAdvance, after a stray at the root, an arrival at a child that still waits for somebody is counted. */
    ARRIVAL_IN_ROUTINE(
        "inside `onAdvance`: an arrival at a child that still waits for somebody (possible only after strays)",
        "arrive-at-a-child-inside", "ArrivalInRoutineIsIgnored") {
        @Override
        boolean isTheirs(Situation at, Call call, boolean changed) {
            return changed && (!call.done() || call.answer().isValue(at.viewBefore()));
        }

        @Override
        boolean forbids(Situation at) {
            return at.insideOwnRoutine() && !at.terminatedBefore() && at.method().arrives()
                && at.scene().unarrived(at.object()) > 0;
        }
    },

    /** An arrival that a parent refuses stays counted in the child. */
    REFUSED_CLIMB("an arrival that a parent refuses (possible only after strays)",
        "refused-climb", "ChildRefusesBeforeItClimbs") {
        @Override
        boolean isTheirs(Situation at, Call call, boolean changed) {
            return changed && call.done() && call.answer().isThrown(Answer.ILLEGAL_STATE);
        }

        @Override
        boolean forbids(Situation at) {
            return at.method().arrives() && !at.insideOwnRoutine() && !at.terminatedBefore()
                && isRefused(at.scene(), at.object());
        }

        /** Whether a phaser above would be arrived at, and waits for nobody. */
        private static boolean isRefused(Scene scene, int phaser) {
            int at = phaser;
            while (scene.unarrived(at) == 1) {
                at = scene.program.parent(at);
                if (at < 0) {
                    return false;
                }
                if (scene.unarrived(at) == 0) {
                    return true;
                }
            }
            return false;
        }
    },

    /** The party that ends the last phase by arriveAndAwaitAdvance gets the plain next phase number. */
    LAST_ARRIVE_AND_AWAIT("`arriveAndAwaitAdvance`, last arrival of the last phase",
        "last-arrive-and-await", "WaiterGetsThePlainNumber") {
        @Override
        Answer instead(Situation at, Answer given) {
            boolean isLast = at.method() == Method.ARRIVE_AND_AWAIT_ADVANCE && given.kind() == Answer.Kind.VALUE
                && given.number() >= 0 && !at.terminatedBefore() && at.thread().status != ProgramThread.Status.WAITS;
            if (!isLast) {
                return null;
            }
            int now = at.viewNow();
            return now < 0 && (now & Integer.MAX_VALUE) == given.number() ? Answer.value(now) : null;
        }
    },

    /** Once a phaser is terminated, registering past 65535 parties is an exception all the same. */
    TOO_MANY_ONCE_TERMINATED("registering past 65535 parties once terminated",
        "too-many-once-terminated", "RegisteringThrowsOnceTerminated") {
        private static final int MOST_PARTIES = 65535;

        @Override
        Answer instead(Situation at, Answer given) {
            boolean refused = at.method().registers() && given.isThrown(Answer.ILLEGAL_STATE) && at.terminatedBefore();
            return refused && at.scene().registered(at.object()) + (long) at.parties() > MOST_PARTIES
                ? Answer.value(at.viewBefore()) : null;
        }
    },

    /**
     * A forced termination leaves the counts as they are; a child keeps those of the last phase in which it was
     * brought up to date, also where strays have ended its tree without it.
     */
    COUNTS_AFTER_FORCE("arrived and unarrived parties after `forceTermination`",
        "counts-after-force", "CountsAreClearedByForce") {
        @Override
        Answer instead(Situation at, Answer given) {
            boolean counts = at.method() == Method.GET_ARRIVED_PARTIES || at.method() == Method.GET_UNARRIVED_PARTIES;
            if (!counts || given.kind() != Answer.Kind.VALUE || !at.terminatedBefore()) {
                return null;
            }
            int parties = at.scene().registered(at.object());
            int told = at.method() == Method.GET_ARRIVED_PARTIES ? parties : 0;
            if (given.number() == told) {
                return null;
            }
            int unarrived = at.method() == Method.GET_ARRIVED_PARTIES ? parties - given.number() : given.number();
            return isKept(at, parties, unarrived) ? Answer.value(told) : null;
        }

        private static boolean isKept(Situation at, int parties, int unarrived) {
            if (at.root() == at.object()) {
                Integer kept = at.scene().plan.unarrivedAtForce(at.object());
                return kept != null && kept == unarrived;
            }
            return 0 < unarrived && unarrived <= parties;
        }
    },

    /** The thread that runs a barrier's action awaits it: the count falls below 0 and it waits; nobody is released. */
    OWN_AWAIT_IN_ACTION("`await` by the thread that runs the action",
        "own-await", "ComingDuringTheActionBreaks") {
        @Override
        boolean isTheirs(Situation at, Call call, boolean changed) {
            return RealThread.outcome(call) == RealThread.Outcome.BLOCKED
                || call.done()
                && (call.answer().isThrown(Answer.TIMEOUT) || call.answer().isThrown(Answer.INTERRUPTED));
        }

        @Override
        boolean forbids(Situation at) {
            return at.method().waitsAtBarrier() && at.insideOwnAction();
        }
    },

    /** The thread that runs a barrier's action resets it: the waiters are broken out, and it goes on. */
    OWN_RESET_IN_ACTION("`reset` by the thread that runs the action",
        "own-reset", "ResetDuringTheActionIsForgotten") {
        @Override
        boolean isTheirs(Situation at, Call call, boolean changed) {
            return call.done() && call.answer().equals(Answer.NOTHING);
        }

        @Override
        boolean forbids(Situation at) {
            return at.method() == Method.RESET && at.insideOwnAction();
        }
    },

    /** The thread that runs a barrier's action is told that all parties wait. */
    OWN_NUMBER_WAITING_IN_ACTION("`getNumberWaiting` by the thread that runs the action",
        "own-number-waiting", "RunnerSeesNobodyWait") {
        @Override
        Answer instead(Situation at, Answer given) {
            return at.method() == Method.GET_NUMBER_WAITING && at.insideOwnAction()
                && given.isValue(at.scene().program.barriers.get(at.object()).parties())
                ? Answer.thrown(Answer.ILLEGAL_STATE) : null;
        }
    };

    /** The first cell of its row in that table. */
    final String row;
    /** The program in kit/differences that shows it. */
    final String program;
    /** The wrong adapter in kit/wrong that is nearly this, and is found all the same. */
    final String nearly;

    KnownDifference(String row, String program, String nearly) {
        this.row = row;
        this.program = program;
        this.nearly = nearly;
    }

    /**
     * Whether the JDK isn't asked at all, since the call would hang or leave an object that can't be compared any
     * more. Here it is IllegalStateException. Only the first play asks, so this may look at the objects.
     */
    boolean forbids(Situation at) {
        return false;
    }

    /**
     * Whether a call for which the JDK isn't asked came to what it comes to there; {@code changed} says of the
     * object's counts.
     */
    boolean isTheirs(Situation at, Call call, boolean changed) {
        return false;
    }

    /** What Vuthgal answers where the JDK gave this answer; null where this isn't the difference. */
    Answer instead(Situation at, Answer given) {
        return null;
    }
}
