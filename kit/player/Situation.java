package kit.player;

/** A call at the choice that makes it or ends it: what a documented difference looks at. */
record Situation(Scene scene, ProgramThread thread, Method method, int object, int number) {
    static Situation of(Scene scene, ProgramThread thread, Row row) {
        return new Situation(scene, thread, row.method(), row.object(), row.number(thread.registers));
    }

    int root() {
        return scene.root(object);
    }

    /** How many parties it registers. */
    int parties() {
        return method == Method.REGISTER ? 1 : number;
    }

    boolean insideOwnRoutine() {
        return thread != null && method.ofPhaser() && thread.inRoutineOf(root());
    }

    boolean insideOwnAction() {
        return thread != null && method.ofBarrier() && scene.runner(object) == thread;
    }

    /** The view of the tree after the choice before this one. */
    int viewBefore() {
        return scene.view(root());
    }

    boolean terminatedBefore() {
        return viewBefore() < 0;
    }

    /** The view of the tree now. */
    int viewNow() {
        return scene.look(Method.GET_PHASE, root());
    }
}
