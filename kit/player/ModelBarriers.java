package kit.player;

import java.util.ArrayList;
import java.util.List;

/** The barriers of the model, without their waiters: how many wait, whether it is broken, and who runs the action. */
final class ModelBarriers {
    private static final int NOBODY = -1;

    private record Barrier(int parties, boolean withAction, int waiting, boolean broken, int runner) {
        Barrier now(int nowWaiting, boolean isBroken, int nowRunner) {
            return new Barrier(parties, withAction, nowWaiting, isBroken, nowRunner);
        }
    }

    private final List<Barrier> all = new ArrayList<>();

    ModelBarriers copy() {
        ModelBarriers copy = new ModelBarriers();
        copy.all.addAll(all);
        return copy;
    }

    void add(int parties, boolean withAction) {
        all.add(new Barrier(parties, withAction, 0, false, NOBODY));
    }

    int parties(int barrier) {
        return all.get(barrier).parties();
    }

    boolean hasAction(int barrier) {
        return all.get(barrier).withAction();
    }

    int waiting(int barrier) {
        return all.get(barrier).waiting();
    }

    boolean isBroken(int barrier) {
        return all.get(barrier).broken();
    }

    boolean actionRuns(int barrier) {
        return all.get(barrier).runner() != NOBODY;
    }

    boolean isRunner(int thread, int barrier) {
        return all.get(barrier).runner() == thread;
    }

    /** The arrival index of the next to come. */
    int nextIndex(int barrier) {
        return parties(barrier) - 1 - waiting(barrier);
    }

    void comes(int barrier) {
        Barrier at = all.get(barrier);
        all.set(barrier, at.now(at.waiting + 1, at.broken, at.runner));
    }

    void actionBegins(int barrier, int thread) {
        Barrier at = all.get(barrier);
        all.set(barrier, at.now(at.waiting, at.broken, thread));
    }

    /** Its generation is over. */
    void renew(int barrier, boolean broken) {
        all.set(barrier, all.get(barrier).now(0, broken, NOBODY));
    }

    void addTo(List<Integer> key) {
        for (Barrier barrier : all) {
            key.add(barrier.waiting());
            key.add(barrier.broken() ? 1 : 0);
            key.add(barrier.runner());
        }
    }
}
