package kit.player;

/** What a choice comes to where it makes a call, enters a routine or an action, or ends one. */
final class Caller {
    /**
     * The time of a wait that ends otherwise: an hour, and a little that is left of it in 32 bits, so that a port that cuts it
     * to so many is late at once.
     */
    static final long HOUR = 839 * (1L << 32) + 1_000;
    /** So many questions may be asked of the real side at one choice. */
    private static final int TRIPS_OF_A_CHOICE = 8;

    /** In a transcript, which knows nothing of the machine, a time is so long for each expiry and each choice until its end. */
    private static final long TRANSCRIBED_EXPIRY = 500_000_000;
    private static final long TRANSCRIBED_CHOICE = 50_000_000;

    private final Scene scene;

    Caller(Scene scene) {
        this.scene = scene;
    }

    /** The thread stands at a row that calls, and is free to. */
    String call(ProgramThread thread, Row row) {
        Method method = row.method();
        Holds.Cause cause = null;
        boolean cantBegin = false;
        if (method.ofPhaser()) {
            cause = Holds.Cause.tree(scene.root(row.object()));
            cantBegin = method.arrives() && cantEnterRoutine(thread, row);
        } else if (method.ofBarrier()) {
            cause = Holds.Cause.action(row.object());
        }
        if (isHeld(thread, row, cause)) {
            return "idle";
        }
        if (cantBegin) {
            return thread.fail(thread.inRoutineOf(scene.root(row.object())) ? Answer.ILLEGAL_STATE : ProgramThread.STACK_FULL);
        }
        KnownDifference difference = forbidding(Situation.of(scene, thread, row));
        if (difference != null) {
            return excused(thread, row, difference);
        }
        if (method.waitsAtBarrier() && thread.stackFull() && scene.program.barriers.get(row.object()).action() >= 0) {
            return thread.fail(ProgramThread.STACK_FULL);
        }
        return make(thread, row);
    }

    /** Whether the stack is too full for the routine that this arrival might enter. */
    private boolean cantEnterRoutine(ProgramThread thread, Row row) {
        Policy policy = scene.program.phasers.get(scene.root(row.object())).policy();
        return policy.kind() == Policy.Kind.ROUTINE && thread.stackFull();
    }

    private KnownDifference forbidding(Situation at) {
        if (!scene.first) {
            KnownDifference difference = scene.plan.toldOver(scene.step());
            return difference != null && scene.known.list.contains(difference) ? difference : null;
        }
        KnownDifference difference = scene.known.forbidding(at);
        if (difference != null) {
            scene.plan.tellOver(scene.step(), difference);
        }
        return difference;
    }

    /** Whether the call isn't made now: the first play asks Vuthgal's rules, the second has learned it. */
    private boolean isHeld(ProgramThread thread, Row row, Holds.Cause cause) {
        if (!scene.first) {
            boolean leftOut = scene.plan.leavesOut(scene.step());
            if (leftOut) {
                scene.note(Notes.Kind.LEFT_OUT, row.operation().word());
            }
            return leftOut;
        }
        Method method = row.method();
        boolean held = method.registers() ? scene.held(thread, row)
            : method.lockedOutByAction() && scene.lockedOut(thread, row.object());
        if (held) {
            scene.holds.held(thread, cause, Situation.of(scene, thread, row).parties(), scene.step());
            return true;
        }
        boolean wasHeld = scene.holds.goesOn(thread, scene.plan);
        if (!(wasHeld && method.registers())) {     // held registrations may go on one after the other
            scene.holds.called(scene.step());
        }
        return false;
    }

    /**
     * A call that the JDK isn't asked for. A real side that did as the JDK in such a place isn't either; any other is, and may
     * answer as here, or do as the JDK, which ends this play.
     */
    private String excused(ProgramThread thread, Row row, KnownDifference difference) {
        KnownDifferences.Excused excused = new KnownDifferences.Excused(difference, row.method());
        if (scene.first || scene.known.isAsTheJdk(excused)) {
            scene.notes.toldOver(difference, scene.step() + 1);
            return thread.fail(Answer.ILLEGAL_STATE);
        }
        Situation at = Situation.of(scene, thread, row);
        boolean counts = row.method().arrives();
        int before = counts ? scene.unarrived(row.object()) : 0;
        int given = row.method().timed() ? row.time(thread.registers) : 0;
        long time = given > 0 ? HOUR : given;
        Pending pending = new Pending(
            scene.tell(thread, new Request(row.method(), row.object(), row.number(thread.registers), time), time), row);
        scene.notes.asked();
        RealThread.Outcome outcome = scene.settle(thread, pending.call);
        boolean changed = counts && scene.unarrived(row.object()) != before;
        if (!changed && outcome == RealThread.Outcome.DONE && pending.call.answer().isThrown(Answer.ILLEGAL_STATE)) {
            scene.notes.excused(difference, scene.step() + 1, pending.words(thread) + " " + pending.call.answer().told());
            return thread.fail(Answer.ILLEGAL_STATE);
        }
        if (difference.isTheirs(at, pending.call, changed)) {
            throw new AsTheJdk(excused);
        }
        pending.awaited = row.method().ofPhaser() ? at.viewBefore() : 0;
        return switch (outcome) {
            case ENTERED -> enter(thread, pending);
            case BLOCKED -> blocked(thread, pending);
            case DONE -> answer(thread, pending, true);
        };
    }

    private String make(ProgramThread thread, Row row) {
        Method method = row.method();
        int object = row.object();
        int waitingBefore = method == Method.RESET && scene.runner(object) == null
            ? scene.look(Method.GET_NUMBER_WAITING, object) : 0;
        if (method == Method.FORCE_TERMINATION && scene.first) {
            rememberCounts(scene.root(object));
        }
        WaitTime time = method.timed() ? time(thread, row) : WaitTime.NONE;
        Request request = new Request(method, Math.max(object, 0), row.number(thread.registers), time.real());
        Pending pending = new Pending(scene.tell(thread, request, time.transcribed()), row);
        scene.notes.asked();
        pending.time = time;
        if (method.ofPhaser()) {
            boolean namesPhase = method.waitsForPhase() && !method.arrives();
            pending.awaited = namesPhase ? row.number(thread.registers) : scene.view(scene.root(object));
        }
        RealThread.Outcome outcome =
            mayBlock(thread, pending) ? scene.settle(thread, pending.call) : scene.comeBack(thread, pending.call);
        if (outcome == RealThread.Outcome.ENTERED) {
            return enter(thread, pending);
        }
        if (outcome == RealThread.Outcome.BLOCKED) {
            return blocked(thread, pending);
        }
        if (waitingBefore > 0) {
            scene.broken(object);
        }
        return answer(thread, pending, true);
    }

    /** Whether the rules let it wait, as far as the objects show. */
    private boolean mayBlock(ProgramThread thread, Pending pending) {
        Method method = pending.method();
        if (method.waitsForPhase() && !method.arrives()) {
            return pending.awaited == scene.view(scene.root(pending.object()));
        }
        return method.waits() || method.registers() || method.lockedOutByAction() && scene.lockedOut(thread, pending.object());
    }

    private void rememberCounts(int root) {
        if (scene.view(root) >= 0) {
            scene.plan.forced(root, scene.unarrived(root));
        }
    }

    /**
     * The time that a timed wait gets: none where it has none; an hour where the schedule lets it end otherwise; and where the
     * first play saw it expire, about as long as the choices and the other expiries until then take. It ends behind those that
     * run out before it.
     */
    private WaitTime time(ProgramThread thread, Row row) {
        thread.timedCalls++;
        int given = row.time(thread.registers);
        Integer until = scene.first || given <= 0 ? null : scene.plan.expiry(thread);
        if (until == null) {
            return WaitTime.endsOtherwise(given <= 0 ? given : HOUR);
        }
        long real = realTime(scene.step(), until);
        long transcribed = transcribedTime(scene.step(), until);
        for (ProgramThread each : scene.threads) {
            WaitTime other = each.pending == null ? WaitTime.NONE : each.pending.time;
            if (other.runsOut() && other.expiry() < until) {
                real = Math.max(real, other.left() + realTime(other.expiry(), until));
                transcribed = Math.max(transcribed, other.transcribed() + transcribedTime(other.expiry(), until));
            }
        }
        return WaitTime.runsOut(real, transcribed, until);
    }

    /**
     * How long the choices and the expiries after the one step take, up to the other, on a machine that is as busy as now. How long a
     * question takes there has been measured.
     */
    private long realTime(int step, int until) {
        long settle = scene.patience.settle();
        long expiries = scene.plan.expiriesBetween(step, until) * (scene.patience.expiry() + 4 * settle);
        long choices = until - step;
        return (long) (Load.factor() * (expiries + 2 * choices * settle)) + choices * TRIPS_OF_A_CHOICE * scene.roundTrip();
    }

    private long transcribedTime(int step, int until) {
        return scene.plan.expiriesBetween(step, until) * TRANSCRIBED_EXPIRY + (until - step) * TRANSCRIBED_CHOICE;
    }

    private String blocked(ProgramThread thread, Pending pending) {
        Method method = pending.method();
        thread.pending = pending;
        if (method.registers() || method.ofBarrier() && scene.lockedOut(thread, pending.object())) {
            scene.note(Notes.Kind.HELD, pending.row.operation().word());
            return "idle";
        }
        if (!method.waits()) {
            scene.stuck(scene.real(thread), method.word + " blocks");
        } else if (method.waitsForPhase() && pending.awaited != scene.view(scene.root(pending.object()))) {
            scene.odd(method.word + " waits for another phase");
        }
        return waits(thread, pending);
    }

    /** The thread waits from now on, as the trace tells it. */
    String waits(ProgramThread thread, Pending pending) {
        if (pending.method().waitsAtBarrier()) {
            pending.generation = scene.generation(pending.object());
        }
        thread.pending = pending;
        thread.status = ProgramThread.Status.WAITS;
        return "wait";
    }

    /** The real thread stands at the beginning of a routine or an action. */
    String enter(ProgramThread thread, Pending pending) {
        Entered where = pending.call.takeEntered();
        StackEntry.Kind kind = where.ofPhaser() ? StackEntry.Kind.ROUTINE : StackEntry.Kind.ACTION;
        thread.push(new StackEntry(kind, where.object(), thread.registers.clone(), thread.row, pending));
        thread.status = ProgramThread.Status.RUNS;
        thread.pending = null;
        if (where.ofPhaser()) {
            thread.registers[0] = where.phase();
            thread.registers[1] = where.parties();
            thread.row = scene.program.phasers.get(where.object()).policy().argument();
            scene.routineBegins(where.object());
        } else {
            thread.row = scene.program.barriers.get(where.object()).action();
            scene.actionBegins(where.object(), thread);
        }
        return "enter";
    }

    /** The routine or action on top of the stack returns the number, or throws it. */
    String endRoutine(ProgramThread thread, boolean throwing, int number) {
        StackEntry entry = thread.pop();
        boolean action = entry.kind() == StackEntry.Kind.ACTION;
        Pending pending = entry.pending();
        scene.holds.called(scene.step());
        scene.end(thread, throwing, throwing ? number : action || number == 0 ? 0 : 1);
        RealThread.Outcome outcome = scene.comeBack(thread, pending.call);
        if (action) {
            scene.actionEnds(entry.number());
        }
        thread.registers = entry.registers();
        thread.row = entry.row();
        if (outcome == RealThread.Outcome.ENTERED) {
            scene.odd("a call enters twice");
            return enter(thread, pending);
        }
        if (outcome == RealThread.Outcome.BLOCKED) {
            scene.odd(pending.method().word + " waits behind its routine or action");
            return waits(thread, pending);
        }
        if (throwing && pending.call.answer().equals(Answer.through(number))) {
            if (action) {
                scene.broken(entry.number());
            }
            return "unwind";
        }
        thread.status = ProgramThread.Status.RUNS;
        return answer(thread, pending, true);
    }

    /**
     * The call is done: its answer goes into its register, or its exception is thrown. {@code atOnce} is false where the
     * thread had to wait, and another choice shows the answer.
     */
    String answer(ProgramThread thread, Pending pending, boolean atOnce) {
        Answer answer = pending.call.answer();
        scene.notes.transcript.saw(thread.number, pending.call);
        Answer given = scene.known.told(Situation.of(scene, thread, pending.row), answer);
        if (!given.equals(answer)) {
            scene.notes.transcript.excuses(thread.number, answer, given);
        }
        thread.pending = null;
        switch (given.kind()) {
            case VALUE -> {
                return value(thread, pending, given.number(), atOnce);
            }
            case VOID -> {
                thread.status = ProgramThread.Status.RUNS;
                return thread.ok();
            }
            case FAULT -> {
                scene.odd(pending.words(thread) + " " + given.told());
                return thread.fail(-1);
            }
            default -> {
                return thrown(thread, pending, given.number());
            }
        }
    }

    private String thrown(ProgramThread thread, Pending pending, int exception) {
        if (exception == Answer.INTERRUPTED) {
            thread.interrupted = false;
        }
        boolean breaks = exception == Answer.INTERRUPTED || exception == Answer.TIMEOUT;
        if (pending.method().waitsAtBarrier() && breaks) {
            scene.broken(pending.object());
        }
        return thread.fail(exception);
    }

    private String value(ProgramThread thread, Pending pending, int value, boolean atOnce) {
        Method method = pending.method();
        thread.status = ProgramThread.Status.RUNS;
        int told = value;
        if (method == Method.INTERRUPTED) {
            thread.interrupted = false;
        } else if (method.waitsAtBarrier() && atOnce && value == 0) {
            scene.tripped(pending.object());
        } else if (method.waitsForPhase() && pending.released && value == pending.viewAtRelease
            && value != pending.awaited) {
            told = scene.look(Method.GET_PHASE, scene.root(pending.object()));
            if (told != value) {
                scene.note(Notes.Kind.TOLD_AGAIN, method.word + " answered " + value + " when it was released");
            }
        }
        return thread.put(pending.row.operand(0), told);
    }
}
