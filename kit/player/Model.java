package kit.player;

import java.util.ArrayList;
import java.util.List;

/**
 * A sequential model of both classes: phasers, barriers and threads as docs/BEHAVIOUR.md has them, one step at a time and
 * without real threads. A wait is two steps, its entry and its end; a time that runs out and an interrupt are steps of their
 * own. {@code kit/run} holds it against Vuthgal.
 */
final class Model {
    private final ModelPhasers phasers;
    private final ModelBarriers barriers;
    private final ModelThread[] threads;

    Model(int threads) {
        this(new ModelPhasers(), new ModelBarriers(), new ModelThread[threads]);
        for (int thread = 0; thread < threads; thread++) {
            this.threads[thread] = new ModelThread();
        }
    }

    private Model(ModelPhasers phasers, ModelBarriers barriers, ModelThread[] threads) {
        this.phasers = phasers;
        this.barriers = barriers;
        this.threads = threads;
    }

    Model copy() {
        ModelThread[] copies = new ModelThread[threads.length];
        for (int thread = 0; thread < copies.length; thread++) {
            copies[thread] = threads[thread].copy();
        }
        return new Model(phasers.copy(), barriers.copy(), copies);
    }

    void addPhaser(int parent, int parties, int firstPhase) {
        phasers.add(parent, parties, firstPhase);
    }

    void addBarrier(int parties, boolean withAction) {
        barriers.add(parties, withAction);
    }

    boolean isTerminated(int phaser) {
        return phasers.isTerminated(phaser);
    }

    /** What tells two states of the model apart. */
    List<Integer> key() {
        List<Integer> key = new ArrayList<>();
        phasers.addTo(key);
        barriers.addTo(key);
        for (ModelThread thread : threads) {
            thread.addTo(key);
        }
        return key;
    }

    // ---- a call begins

    ModelOutcome begin(int thread, Request request) {
        int object = request.object();
        return switch (request.method()) {
            case REGISTER -> phasers.register(thread, object, 1);
            case BULK_REGISTER -> phasers.register(thread, object, request.number());
            case ARRIVE, ARRIVE_AND_DEREGISTER, ARRIVE_AND_AWAIT_ADVANCE -> arrive(thread, request);
            case AWAIT_ADVANCE, AWAIT_ADVANCE_INTERRUPTIBLY, AWAIT_ADVANCE_FOR -> awaitPhase(thread, request);
            case FORCE_TERMINATION -> {
                phasers.force(object);
                yield ModelOutcome.answers(Answer.NOTHING);
            }
            case GET_PHASE -> ModelOutcome.answers(phasers.view(object));
            case GET_REGISTERED_PARTIES -> ModelOutcome.answers(phasers.registered(object));
            case GET_ARRIVED_PARTIES -> ModelOutcome.answers(phasers.registered(object) - phasers.unarrived(object));
            case GET_UNARRIVED_PARTIES -> ModelOutcome.answers(phasers.unarrived(object));
            case IS_TERMINATED -> ModelOutcome.answers(phasers.isTerminated(object) ? 1 : 0);
            case GET_PARENT -> ModelOutcome.answers(phasers.parent(object));
            case GET_ROOT -> ModelOutcome.answers(phasers.root(object));
            case GET_PARTIES -> ModelOutcome.answers(barriers.parties(object));
            case AWAIT, AWAIT_FOR, RESET, IS_BROKEN, GET_NUMBER_WAITING -> atBarrier(thread, request);
            case INTERRUPTED -> ModelOutcome.answers(threads[thread].clearInterrupted() ? 1 : 0);
            case IS_INTERRUPTED -> ModelOutcome.answers(threads[thread].isInterrupted() ? 1 : 0);
        };
    }

    private ModelOutcome arrive(int thread, Request request) {
        ModelOutcome outcome = phasers.arrive(thread, request.object(), request.method() == Method.ARRIVE_AND_DEREGISTER);
        if (outcome.kind() == ModelOutcome.Kind.ENTERS) {
            threads[thread].enter(new ModelThread.Frame(outcome.entered(), request));
            return outcome;
        }
        Answer answer = outcome.answer();
        boolean waits = request.method().waits() && answer.kind() == Answer.Kind.VALUE && answer.number() >= 0;
        return waits ? waitForPhase(thread, request, answer.number(), false) : outcome;
    }

    private ModelOutcome waitForPhase(int thread, Request request, int phase, boolean endedItself) {
        int root = phasers.root(request.object());
        threads[thread].waitFor(ModelWait.forPhase(request.method(), root, phase, endedItself));
        return ModelOutcome.WAITS;
    }

    private ModelOutcome awaitPhase(int thread, Request request) {
        int phase = request.number();
        if (phasers.isInside(thread, request.object())) {
            return ModelOutcome.throwing(Answer.ILLEGAL_STATE);
        }
        if (phase < 0) {
            return ModelOutcome.answers(phase);
        }
        int view = phasers.view(request.object());
        if (view != phase) {
            return ModelOutcome.answers(view);
        }
        if (request.method().interruptible() && threads[thread].clearInterrupted()) {
            return ModelOutcome.throwing(Answer.INTERRUPTED);
        }
        if (request.method().timed() && request.nanoseconds() <= 0) {
            return ModelOutcome.throwing(Answer.TIMEOUT);
        }
        return waitForPhase(thread, request, phase, false);
    }

    private ModelOutcome atBarrier(int thread, Request request) {
        int barrier = request.object();
        boolean runner = barriers.isRunner(thread, barrier);
        if (barriers.actionRuns(barrier) && !runner) {
            return ModelOutcome.HELD;
        }
        if (request.method() == Method.IS_BROKEN) {
            return ModelOutcome.answers(barriers.isBroken(barrier) ? 1 : 0);
        }
        if (runner) {
            return ModelOutcome.throwing(Answer.ILLEGAL_STATE);
        }
        if (request.method() == Method.GET_NUMBER_WAITING) {
            return ModelOutcome.answers(barriers.waiting(barrier));
        }
        if (request.method() == Method.RESET) {
            endGeneration(barrier, ModelWait.Generation.BROKEN, false);
            return ModelOutcome.answers(Answer.NOTHING);
        }
        return enterBarrier(thread, request);
    }

    private ModelOutcome enterBarrier(int thread, Request request) {
        int barrier = request.object();
        if (barriers.isBroken(barrier)) {
            return ModelOutcome.throwing(Answer.BROKEN_BARRIER);
        }
        if (threads[thread].clearInterrupted()) {
            endGeneration(barrier, ModelWait.Generation.BROKEN, true);
            return ModelOutcome.throwing(Answer.INTERRUPTED);
        }
        int index = barriers.nextIndex(barrier);
        if (index == 0) {
            return lastComes(thread, request);
        }
        if (request.method().timed() && request.nanoseconds() <= 0) {
            endGeneration(barrier, ModelWait.Generation.BROKEN, true);
            return ModelOutcome.throwing(Answer.TIMEOUT);
        }
        barriers.comes(barrier);
        threads[thread].waitFor(ModelWait.atBarrier(request.method(), barrier, index));
        return ModelOutcome.WAITS;
    }

    private ModelOutcome lastComes(int thread, Request request) {
        int barrier = request.object();
        if (!barriers.hasAction(barrier)) {
            endGeneration(barrier, ModelWait.Generation.TRIPPED, false);
            return ModelOutcome.answers(0);
        }
        barriers.actionBegins(barrier, thread);
        Entered where = Entered.action(barrier);
        threads[thread].enter(new ModelThread.Frame(where, request));
        return ModelOutcome.enters(where);
    }

    private void endGeneration(int barrier, ModelWait.Generation how, boolean broken) {
        barriers.renew(barrier, broken);
        for (ModelThread thread : threads) {
            ModelWait wait = thread.waitsFor();
            if (wait != null && wait.isAt(barrier)) {
                thread.waitFor(wait.ended(how));
            }
        }
    }

    // ---- the end of a routine or an action

    /** The innermost routine or action of a thread, or null. */
    Entered inside(int thread) {
        ModelThread.Frame frame = threads[thread].innermost();
        return frame == null ? null : frame.where();
    }

    /** The innermost routine or action of a thread returns {@code number}, or throws it. */
    ModelOutcome end(int thread, int number, boolean throwing) {
        ModelThread.Frame frame = threads[thread].leave();
        int object = frame.where().object();
        if (!frame.where().ofPhaser()) {
            endGeneration(object, throwing ? ModelWait.Generation.BROKEN : ModelWait.Generation.TRIPPED, throwing);
            return throwing ? ModelOutcome.answers(Answer.through(number)) : ModelOutcome.answers(0);
        }
        if (throwing) {
            phasers.fail(object);
            return ModelOutcome.answers(Answer.through(number));
        }
        phasers.end(object, number != 0);
        int phase = frame.where().phase();
        return frame.request().method().waits() ? waitForPhase(thread, frame.request(), phase, true)
            : ModelOutcome.answers(phase);
    }

    // ---- ends of waits

    /** Null where it doesn't wait. */
    ModelWait waitsFor(int thread) {
        return threads[thread].waitsFor();
    }

    /** Whether what the thread waits for has come: the phase has ended, or its generation. */
    boolean isReleased(int thread) {
        ModelWait wait = threads[thread].waitsFor();
        return wait.method().ofPhaser() ? phasers.view(wait.object()) != wait.number()
            : wait.generation() != ModelWait.Generation.OPEN;
    }

    /** The wait of a released thread ends. */
    Answer release(int thread) {
        ModelWait wait = threads[thread].waitsFor();
        threads[thread].stopWaiting();
        if (wait.method().ofPhaser()) {
            return Answer.value(phasers.view(wait.object()));
        }
        return wait.generation() == ModelWait.Generation.TRIPPED ? Answer.value(wait.number())
            : Answer.thrown(Answer.BROKEN_BARRIER);
    }

    void interrupt(int thread) {
        threads[thread].interrupt();
    }

    /** Whether an interrupt was sent that this wait hears of. */
    boolean hearsInterrupt(int thread) {
        return threads[thread].waitsFor().method().interruptible() && threads[thread].isInterrupted();
    }

    /** Whether the thread may leave its wait by an interrupt or by its time: not once released, nor while the action runs. */
    boolean mayLeave(int thread) {
        ModelWait wait = threads[thread].waitsFor();
        return !isReleased(thread) && !(wait.method().ofBarrier() && barriers.actionRuns(wait.object()));
    }

    Answer leaveInterrupted(int thread) {
        threads[thread].clearInterrupted();
        leave(thread);
        return Answer.thrown(Answer.INTERRUPTED);
    }

    Answer leaveLate(int thread) {
        leave(thread);
        return Answer.thrown(Answer.TIMEOUT);
    }

    private void leave(int thread) {
        ModelWait wait = threads[thread].waitsFor();
        threads[thread].stopWaiting();
        if (wait.method().ofBarrier()) {
            endGeneration(wait.object(), ModelWait.Generation.BROKEN, true);
        }
    }
}
