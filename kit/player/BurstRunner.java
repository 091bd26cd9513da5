package kit.player;

import java.util.ArrayList;
import java.util.Iterator;
import java.util.List;

/**
 * The steps of one thread, one after the other without a break: each is begun by whoever notes the end of the one before,
 * which in this JVM is the thread itself, and else the reader of the port's answers.
 */
abstract class BurstRunner implements CallWatcher {
    private final BurstHistory history;
    private final int thread;
    private final List<RealThread> threads;
    private final RealThread real;
    private final List<BurstStep> steps;
    private final boolean here;
    private final List<BurstEntry> interrupts = new ArrayList<>(0);
    private int next;
    private BurstEntry present;

    /** {@code threads} are those that it may interrupt, itself among them; the looker stands alone. */
    BurstRunner(BurstHistory history, int thread, List<RealThread> threads, List<BurstStep> steps, boolean here) {
        this.history = history;
        this.thread = thread;
        this.threads = threads;
        real = threads.get(Math.min(thread, threads.size() - 1));
        this.steps = steps;
        this.here = here;
    }

    /** All steps are through. */
    protected abstract void finished();

    /** The thread stands in an action that lasts. */
    protected abstract void stands(RealThread real, Burst.Barrier at);

    long firstDelay() {
        return steps.get(0).delay();
    }

    /** The thread comes to the gate by a call of no account, and goes on from there. */
    void startAt(BurstGate gate) {
        real.tell(Request.of(Method.IS_INTERRUPTED, 0), new CallWatcher() {
            @Override
            public void entered(Call call, Entered where) {
                throw new IllegalStateException("isInterrupted runs an action");
            }

            @Override
            public void done(Call call) {
                gate.pass();
                goOn();
            }
        });
    }

    /** Begins what comes next, up to a call. */
    final void goOn() {
        while (next < steps.size()) {
            BurstStep step = steps.get(next++);
            if (here && step.delay() > 0) {
                BurstGate.pauseUntil(System.nanoTime() + step.delay());
            }
            BurstEntry entry = history.begin(thread, step);
            if (!step.interrupts()) {
                present = entry;
                real.tell(step.request(), this);
                return;
            }
            threads.get(step.target()).interrupt();
            if (here) {
                history.end(entry, Answer.NOTHING);
            } else {
                interrupts.add(entry);
            }
        }
        finished();
    }

    @Override
    public final void done(Call call) {
        history.end(present, call.answer());
        goOn();
    }

    @Override
    public final void entered(Call call, Entered where) {
        if (!where.ofPhaser()) {
            present.enters(where);
        }
        Burst burst = history.burst;
        if (!burst.inner(where).isEmpty()) {
            pauseInside(burst, where);
            callInside(where, burst.inner(where).iterator());
        } else if (burst.barriers().get(where.object()).lasts() > 0) {
            stands(real, burst.barriers().get(where.object()));
        } else {
            endAction(real, burst.barriers().get(where.object()));
        }
    }

    /** In a port the way through the pipe is a pause. */
    private void pauseInside(Burst burst, Entered where) {
        if (here) {
            int object = where.object();
            long lasts = where.ofPhaser() ? burst.phasers().get(object).lasts() : burst.barriers().get(object).lasts();
            BurstGate.pauseUntil(System.nanoTime() + lasts);
        }
    }

    /** Makes what is left to be called there, and ends the onAdvance or action. */
    private void callInside(Entered where, Iterator<Request> left) {
        if (!left.hasNext()) {
            end(where);
            return;
        }
        Request request = left.next();
        real.tell(request, new CallWatcher() {
            @Override
            public void entered(Call call, Entered again) {
                end(again);
            }

            @Override
            public void done(Call call) {
                history.add(new InnerCall(thread, where, request, call.answer()));
                callInside(where, left);
            }
        });
    }

    private void end(Entered where) {
        if (where.ofPhaser()) {
            Policy policy = history.burst.phasers().get(where.object()).policy();
            real.answer(policy.decide(where.phase(), where.parties()) ? 1 : 0);
        } else {
            endAction(real, history.burst.barriers().get(where.object()));
        }
    }

    static void endAction(RealThread real, Burst.Barrier at) {
        if (at.fails()) {
            real.fail(Burst.FAILURE);
        } else {
            real.answer(0);
        }
    }

    /** A port has answered what was sent behind its interrupts, so these are through too. */
    void interruptsAreIn() {
        interrupts.forEach(entry -> history.end(entry, Answer.NOTHING));
        interrupts.clear();
    }
}
