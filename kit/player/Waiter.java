package kit.player;

/** What a choice comes to where its thread is inside a call: its end, its expiry, an interrupt, and who comes out. */
final class Waiter {
    private final Scene scene;
    private final Caller caller;
    /** Whether some thread was found stuck behind this choice. */
    private boolean stuckNow;

    Waiter(Scene scene, Caller caller) {
        this.scene = scene;
        this.caller = caller;
    }

    /** A turn of a thread that waits. */
    String turn(ProgramThread thread) {
        Pending pending = thread.pending;
        if (pending.expiredByItself()) {
            scene.note(Notes.Kind.EARLY, pending.method().word);
            return "idle";
        }
        if (!pending.call.done()) {
            if (!leavesByInterrupt(pending)) {
                return "idle";
            }
            pending.owesInterrupt = false;
            scene.interrupt(thread);
            scene.holds.called(scene.step());
            if (!scene.ends(scene.real(thread), pending.call, scene.patience.bound())) {
                scene.stuck(scene.real(thread), "an interrupt doesn't end " + pending.words(thread));
                return "idle";
            }
            comesOut(thread);
        }
        return caller.answer(thread, pending, false);
    }

    /** Whether its turn ends the wait by an interrupt. While an action runs nobody leaves the barrier. */
    private boolean leavesByInterrupt(Pending pending) {
        return pending.owesInterrupt && !actionRuns(pending);
    }

    private boolean actionRuns(Pending pending) {
        return pending.method().ofBarrier() && scene.runner(pending.object()) != null;
    }

    boolean canExpire(ProgramThread thread) {
        Pending pending = thread.pending;
        return thread.status == ProgramThread.Status.WAITS && pending.method().timed()
            && (!pending.call.done() || pending.expiredByItself()) && !pending.owesInterrupt && !actionRuns(pending);
    }

    /**
     * The time of its wait runs out. In the first play an interrupt takes the place of that: it does the same to the
     * objects, and comes when it is told.
     */
    String expire(ProgramThread thread) {
        Pending pending = thread.pending;
        if (scene.first) {
            scene.plan.expires(thread, scene.step());
            scene.interrupt(thread);
            if (!scene.ends(scene.real(thread), pending.call, scene.patience.bound())) {
                scene.stuck(scene.real(thread), "an interrupt doesn't end " + pending.words(thread));
                return "idle";
            }
            if (pending.call.answer().isThrown(Answer.INTERRUPTED)) {
                pending.call.finish(Answer.thrown(Answer.TIMEOUT));
            }
        } else if (!pending.expires()) {
            scene.odd("an expiry that the first play hasn't seen");
            return "idle";
        }
        if (!scene.ends(scene.real(thread), pending.call, pending.time.real() + scene.patience.bound())) {
            scene.stuck(scene.real(thread), pending.words(thread) + " doesn't expire");
            return "idle";
        }
        return caller.answer(thread, pending, false);
    }

    /** A turn of a thread inside a call that was held, or locked out by an action, when it began. */
    String heldTurn(ProgramThread thread) {
        Pending pending = thread.pending;
        switch (scene.settle(thread, pending.call)) {
            case ENTERED -> {
                return caller.enter(thread, pending);
            }
            case DONE -> {
                return caller.answer(thread, pending, true);
            }
            default -> {
                if (pending.method().registers() || actionRuns(pending)) {
                    return "idle";
                }
                if (!pending.method().waits()) {
                    scene.odd(pending.method().word + " blocks behind an action");
                }
                return caller.waits(thread, pending);
            }
        }
    }

    /**
     * An interrupt of a thread. Who waits interruptibly leaves at its own choice, so its real thread gets the interrupt
     * then, or once it was released; everybody else gets it now.
     */
    void interrupt(ProgramThread thread) {
        if (thread.over()) {
            return;
        }
        thread.interrupted = true;
        Pending pending = thread.pending;
        boolean waits = thread.status == ProgramThread.Status.WAITS && !pending.call.done();
        if (waits && pending.method().interruptible() && !actionRuns(pending)) {
            pending.owesInterrupt = true;
        } else {
            scene.interrupt(thread);
        }
    }

    /** After a choice: waits for all real threads that it released. Where one is stuck the others have had as much time. */
    void followReleases() {
        stuckNow = false;
        for (ProgramThread thread : scene.threads) {
            Pending pending = thread.pending;
            if (pending != null && !pending.released) {
                followRelease(thread, pending);
            }
        }
    }

    private void followRelease(ProgramThread thread, Pending pending) {
        boolean waits = thread.status == ProgramThread.Status.WAITS;
        if (!pending.call.done()) {
            if (!mustComeOut(pending, waits)) {
                return;
            }
            if (!waits && pending.method().registers()) {
                followRegistration(thread, pending);
                return;
            }
            boolean out = stuckNow ? pending.call.done()
                : scene.ends(scene.real(thread), pending.call, scene.patience.bound());
            if (!out) {
                stuckNow = true;
                scene.stuck(scene.real(thread), "t" + thread.number + " is never released from " + pending.call.request.words());
                pending.released = true;
                return;
            }
        }
        if (waits) {
            if (pending.call.answer().kind() == Answer.Kind.VALUE && !mustComeOut(pending, true)) {
                scene.odd(pending.words(thread) + " ends too early");
            }
            comesOut(thread);
        }
    }

    /** Whether what the call waits for has happened, by what the objects show. */
    private boolean mustComeOut(Pending pending, boolean waits) {
        Method method = pending.method();
        if (waits && !method.waits()) {
            return true;        // it was slow, and looked as if it waited
        }
        if (method.ofPhaser()) {
            return scene.view(scene.root(pending.object())) != pending.awaited;
        }
        if (actionRuns(pending)) {
            return false;
        }
        return waits ? scene.generation(pending.object()) != pending.generation : !method.waitsAtBarrier();
    }

    /** A held registration goes on when a phase has ended, but another phase end may hold it again. */
    private void followRegistration(ProgramThread thread, Pending pending) {
        if (scene.real(thread).done(pending.call, 2 * scene.patience.expiry())) {
            scene.notes.transcript.saw(thread.number, pending.call);
        } else {
            pending.awaited = scene.view(scene.root(pending.object()));
        }
    }

    private void comesOut(ProgramThread thread) {
        Pending pending = thread.pending;
        pending.released = true;
        if (!pending.expiredByItself()) {
            scene.notes.transcript.saw(thread.number, pending.call);
        }
        if (pending.method().waitsForPhase()) {
            pending.viewAtRelease = scene.look(Method.GET_PHASE, scene.root(pending.object()));
        }
        if (pending.owesInterrupt) {
            pending.owesInterrupt = false;
            scene.interrupt(thread);
        }
    }

    /** Whether a thread inside a call has something to do at its turn, or by an expiry. */
    boolean isReady(ProgramThread thread) {
        Pending pending = thread.pending;
        if (thread.status == ProgramThread.Status.WAITS) {
            return pending.call.done() || leavesByInterrupt(pending) || canExpire(thread);
        }
        return pending.call.done() || !pending.method().registers() && !actionRuns(pending);
    }
}
