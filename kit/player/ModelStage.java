package kit.player;

import java.util.ArrayList;
import java.util.List;

/** The model as a real side in lock-step, so that what Vuthgal answers can be held against it. */
final class ModelStage implements Stage {
    private static final Patience[] PATIENCE = {new Patience(0, 0, 1_000_000_000L, 1)};

    private final List<Advance> advances = new ArrayList<>();
    private final List<Actor> actors = new ArrayList<>();
    private Model model;

    /** A thread of the model. */
    private final class Actor extends RealThread {
        private final int number;
        /** The call that waits or can't begin, or null. */
        private Call open;
        private boolean begun;

        Actor(int number) {
            this.number = number;
        }

        @Override
        protected void send(Call call) {
            take(call, model.begin(number, call.request));
            followAll();
        }

        @Override
        protected void sendEnd(int end, boolean throwing) {
            take(innermost(), model.end(number, end, throwing));
            followAll();
        }

        @Override
        void interrupt() {
            model.interrupt(number);
            if (open != null && begun && model.hearsInterrupt(number) && model.mayLeave(number)) {
                complete(model.leaveInterrupted(number));
                followAll();
            }
        }

        @Override
        protected boolean mayBeBlocked() {
            return true;
        }

        private void take(Call call, ModelOutcome outcome) {
            open = null;
            switch (outcome.kind()) {
                case ANSWERS -> finish(call, outcome.answer());
                case ENTERS -> enter(call, outcome.entered());
                default -> {
                    open = call;
                    begun = outcome.kind() == ModelOutcome.Kind.WAITS;
                }
            }
        }

        private void enter(Call call, Entered where) {
            Boolean known = where.ofPhaser() ? decide(where) : null;
            if (known == null) {
                call.enter(where);
            } else {
                take(call, model.end(number, known ? 1 : 0, false));
            }
        }

        private void complete(Answer answer) {
            Call call = open;
            open = null;
            finish(call, answer);
        }

        /** Goes on where it can; answers whether it did. */
        private boolean follow() {
            if (open == null || begun && !model.isReleased(number)) {
                return false;
            }
            if (begun) {
                complete(model.release(number));
                return true;
            }
            Call call = open;
            take(call, model.begin(number, call.request));
            return open != call || begun;
        }
    }

    private Boolean decide(Entered where) {
        Advance advance = advances.get(where.object());
        return advance == null ? Boolean.valueOf(where.parties() == 0) : advance.decide(where.phase(), where.parties());
    }

    private void followAll() {
        boolean more = true;
        while (more) {
            more = false;
            for (Actor actor : actors) {
                more |= actor.follow();
            }
        }
    }

    @Override
    public void begin(Patience patience) {
        model = new Model(LOOKER + 1);
        advances.clear();
        actors.clear();
        for (int number = 0; number <= LOOKER; number++) {
            actors.add(new Actor(number));
        }
    }

    @Override
    public void phaser(int number, int parent, int parties, int firstPhase, Advance advance) {
        model.addPhaser(parent, parties, firstPhase);
        advances.add(advance);
    }

    @Override
    public void barrier(int number, int parties, boolean withAction) {
        model.addBarrier(parties, withAction);
    }

    @Override
    public RealThread thread(int number) {
        return actors.get(number);
    }

    @Override
    public void abandon() {
        begin(PATIENCE[0]);
    }

    @Override
    public Patience[] patience() {
        return PATIENCE.clone();
    }

    @Override
    public void close() {
        actors.clear();
    }
}
