package kit.player;

/** The state text at a play's end: what the objects answer then, and the player's own threads and cells. */
final class StateText {
    private final Scene scene;
    private final Waiter waiter;
    private final StringBuilder text = new StringBuilder();

    StateText(Scene scene, Waiter waiter) {
        this.scene = scene;
        this.waiter = waiter;
    }

    String write(int effectiveSteps) {
        if (scene.threads.stream().anyMatch(thread -> thread.pending != null)) {
            scene.notes.transcript.stands();
        }
        text.append("state ").append(scene.step()).append(' ').append(effectiveSteps).append(' ').append(word()).append('\n');
        for (ProgramThread thread : scene.threads) {
            text.append(thread.line(interruptedStatus(thread)));
        }
        for (int phaser = 0; phaser < scene.program.phasers.size(); phaser++) {
            writePhaser(phaser);
        }
        for (int barrier = 0; barrier < scene.program.barriers.size(); barrier++) {
            writeBarrier(barrier);
        }
        for (int cell = 0; cell < scene.cells.length; cell++) {
            if (scene.cells[cell] != 0) {
                text.append('c').append(cell).append(' ').append(scene.cells[cell]).append('\n');
            }
        }
        return text.toString();
    }

    private String word() {
        if (scene.threads.stream().allMatch(ProgramThread::over)) {
            return "all";
        }
        return scene.threads.stream().anyMatch(this::isReady) ? "live" : "stuck";
    }

    private boolean isReady(ProgramThread thread) {
        if (thread.over() || thread.status == ProgramThread.Status.THROWS) {
            return !thread.over();
        }
        if (thread.pending != null) {
            return waiter.isReady(thread);
        }
        Row row = scene.program.rows.get(thread.row);
        Method method = row.method();
        if (method == null) {
            return true;
        }
        if (method.registers()) {
            return !scene.held(thread, row);
        }
        return !method.lockedOutByAction() || !scene.lockedOut(thread, row.object());
    }

    /** A real thread that is free is asked; of one inside a call the player tells what the rules say. */
    private int interruptedStatus(ProgramThread thread) {
        if (thread.pending == null) {
            return asked(thread.number, Request.of(Method.IS_INTERRUPTED, 0));
        }
        return thread.interrupted ? 1 : 0;
    }

    private void writePhaser(int phaser) {
        text.append('p').append(phaser).append(' ').append(look(Method.GET_PHASE, phaser));
        text.append(' ').append(look(Method.GET_REGISTERED_PARTIES, phaser));
        text.append(' ').append(count(Method.GET_ARRIVED_PARTIES, phaser));
        text.append(' ').append(count(Method.GET_UNARRIVED_PARTIES, phaser)).append('\n');
    }

    private int look(Method method, int object) {
        return asked(Stage.LOOKER, Request.of(method, object));
    }

    /** What a free thread answers, which stands in the transcript too. */
    private int asked(int thread, Request request) {
        int value = scene.ask(thread, request);
        scene.notes.transcript.asks(thread, request, Answer.value(value), Answer.value(value));
        return value;
    }

    private int count(Method method, int phaser) {
        Situation at = new Situation(scene, null, method, phaser, 0);
        Answer given = Answer.value(scene.look(method, phaser));
        Answer told = scene.known.told(at, given);
        scene.notes.transcript.asks(Stage.LOOKER, Request.of(method, phaser), told, given);
        return told.number();
    }

    private void writeBarrier(int barrier) {
        text.append('b').append(barrier).append(' ');
        if (scene.runner(barrier) == null) {
            text.append(look(Method.GET_NUMBER_WAITING, barrier)).append(' ');
            text.append(look(Method.IS_BROKEN, barrier)).append('\n');
            return;
        }
        scene.note(Notes.Kind.UNSEEN, "b" + barrier + ", whose action runs");
        long waiting = scene.threads.stream().filter(thread -> waitsAt(thread, barrier)).count();
        text.append(waiting).append(" 0\n");
    }

    private static boolean waitsAt(ProgramThread thread, int barrier) {
        Pending pending = thread.pending;
        return thread.status == ProgramThread.Status.WAITS && !pending.call.done() && pending.method().waitsAtBarrier()
            && pending.object() == barrier;
    }
}
