package kit.player;

import java.util.ArrayList;
import java.util.List;

/** The phasers of the model: numbers, and one call at a time, as docs/PHASER.md and docs/BEHAVIOUR.md have it. */
final class ModelPhasers {
    private static final int MOST_PARTIES = 65535;
    private static final int NOBODY = -1;

    /** A phaser's own counts; of a root also what its tree has in common. */
    private static final class Phaser {
        private final int parent;
        private final int root;
        private int parties;
        private int unarrived;
        private int phase;
        private boolean terminated;
        private boolean turned;
        private int runner = NOBODY;

        Phaser(int parent, int root) {
            this.parent = parent;
            this.root = root;
        }

        Phaser(Phaser other) {
            this(other.parent, other.root);
            parties = other.parties;
            unarrived = other.unarrived;
            phase = other.phase;
            terminated = other.terminated;
            turned = other.turned;
            runner = other.runner;
        }
    }

    private final List<Phaser> all = new ArrayList<>();

    ModelPhasers copy() {
        ModelPhasers copy = new ModelPhasers();
        all.forEach(phaser -> copy.all.add(new Phaser(phaser)));
        return copy;
    }

    void add(int parent, int parties, int firstPhase) {
        int number = all.size();
        Phaser phaser = new Phaser(parent, parent < 0 ? number : all.get(parent).root);
        phaser.phase = firstPhase;
        all.add(phaser);
        register(NOBODY - 1, number, parties);
    }

    int root(int phaser) {
        return all.get(phaser).root;
    }

    int parent(int phaser) {
        return all.get(phaser).parent;
    }

    private Phaser rootOf(int phaser) {
        return all.get(root(phaser));
    }

    int view(int phaser) {
        Phaser root = rootOf(phaser);
        return root.terminated ? root.phase | Integer.MIN_VALUE : root.phase;
    }

    boolean isTerminated(int phaser) {
        return rootOf(phaser).terminated;
    }

    /** Whether this thread runs the routine of the tree. */
    boolean isInside(int thread, int phaser) {
        return rootOf(phaser).runner == thread;
    }

    int registered(int phaser) {
        return all.get(phaser).parties;
    }

    int unarrived(int phaser) {
        return isTerminated(phaser) ? 0 : all.get(phaser).unarrived;
    }

    // ---- registering

    ModelOutcome register(int thread, int phaser, int count) {
        if (isInside(thread, phaser)) {
            return ModelOutcome.throwing(Answer.ILLEGAL_STATE);
        }
        if (count < 0) {
            return ModelOutcome.throwing(Answer.ILLEGAL_ARGUMENT);
        }
        if (count == 0 || isTerminated(phaser)) {
            return ModelOutcome.answers(view(phaser));
        }
        List<Phaser> joining = joining(phaser);
        for (Phaser each : joining) {
            if ((long) each.parties + more(each, joining, count) > MOST_PARTIES) {
                return ModelOutcome.throwing(Answer.ILLEGAL_STATE);
            }
        }
        if (joining.stream().anyMatch(ModelPhasers::isTurned)) {
            return ModelOutcome.HELD;
        }
        for (Phaser each : joining) {
            int more = more(each, joining, count);
            each.parties += more;
            each.unarrived += more;
        }
        return ModelOutcome.answers(view(phaser));
    }

    /** The phasers that a registration changes: an empty one joins its parent. */
    private List<Phaser> joining(int phaser) {
        List<Phaser> joining = new ArrayList<>();
        Phaser at = all.get(phaser);
        joining.add(at);
        while (at.parties == 0 && at.parent >= 0) {
            at = all.get(at.parent);
            joining.add(at);
        }
        return joining;
    }

    private static int more(Phaser phaser, List<Phaser> joining, int count) {
        return phaser == joining.get(0) ? count : 1;
    }

    private static boolean isTurned(Phaser phaser) {
        return phaser.parent < 0 ? phaser.turned : phaser.parties > 0 && phaser.unarrived == 0;
    }

    // ---- arriving

    /** The answer, or the routine that the last arrival enters; {@code end} ends that. */
    ModelOutcome arrive(int thread, int phaser, boolean leaves) {
        if (isInside(thread, phaser)) {
            return ModelOutcome.throwing(Answer.ILLEGAL_STATE);
        }
        if (isTerminated(phaser)) {
            return ModelOutcome.answers(view(phaser));
        }
        List<Phaser> arriving = arriving(phaser);
        if (arriving.isEmpty()) {
            return ModelOutcome.throwing(Answer.ILLEGAL_STATE);
        }
        boolean departs = leaves;
        for (Phaser each : arriving) {
            each.unarrived--;
            each.parties -= departs ? 1 : 0;
            departs &= each.parties == 0;
        }
        Phaser root = rootOf(phaser);
        if (root.unarrived > 0 || arriving.get(arriving.size() - 1) != root) {
            return ModelOutcome.answers(root.phase);
        }
        root.turned = true;
        root.runner = thread;
        return ModelOutcome.enters(Entered.onAdvance(root.root, root.phase, root.parties));
    }

    /** The phasers that an arrival changes, up to one that waits for more; none where one of them waits for nobody. */
    private List<Phaser> arriving(int phaser) {
        List<Phaser> arriving = new ArrayList<>();
        for (int at = phaser; at >= 0; at = all.get(at).parent) {
            Phaser each = all.get(at);
            if (each.unarrived == 0) {
                return List.of();
            }
            arriving.add(each);
            if (each.unarrived > 1) {
                break;
            }
        }
        return arriving;
    }

    /** The routine of a root has thrown: its phase doesn't end. */
    void fail(int number) {
        all.get(number).runner = NOBODY;
    }

    /** The routine of a root has returned; where a forced termination came first there is nothing to end. */
    void end(int number, boolean terminates) {
        Phaser root = all.get(number);
        root.runner = NOBODY;
        if (root.terminated) {
            return;
        }
        root.phase = root.phase + 1 & Integer.MAX_VALUE;
        root.terminated = terminates;
        root.turned = false;
        for (Phaser phaser : all) {
            if (phaser.root == number) {
                phaser.unarrived = phaser.parties;
            }
        }
    }

    void force(int phaser) {
        rootOf(phaser).terminated = true;
    }

    void addTo(List<Integer> key) {
        for (Phaser phaser : all) {
            key.add(phaser.parties);
            key.add(phaser.unarrived);
            if (phaser.parent < 0) {
                key.add(phaser.phase);
                key.add((phaser.terminated ? 2 : 0) + (phaser.turned ? 1 : 0));
            }
        }
    }
}
