package kit.player;

import java.util.ArrayList;
import java.util.List;

/**
 * Bursts over trees of phasers. Counts are judged only in the end: an arrival goes up step by step. Who looks at them before may
 * see any, and may do harm: a child's counts may be renewed by that.
 */
final class TreeBursts {
    static final List<BurstKind> KINDS = List.of(
        new BurstKind("tree-meetings", TreeBursts::meetings,
            "All parties of the children meet some times."),
        new BurstKind("tree-departures", TreeBursts::departures,
            "The parties of the children meet, and leave one after the other."),
        new BurstKind("tree-registration", TreeBursts::registration,
            "Others come and go at children that keep a party; that one meets once."),
        new BurstKind("tree-force", TreeBursts::force,
            "A child is forced to terminate while the parties of all meet."),
        new BurstKind("registration-at-an-empty-child", TreeBursts::registrationAtAnEmptyChild,
            "The root's own party ends phases, while others come to a child without parties, look, and leave it empty."),
        new BurstKind("looks-at-a-tree", TreeBursts::looks,
            "Looks at the counts of children while their parties meet: whoever looks first in a phase may renew them."),
        new BurstKind("a-tree-of-three-levels", TreeBursts::threeLevels,
            "Phases end by arrivals at the lowest of three levels, and nobody looks at the middle."),
        new BurstKind("phase-of-a-child", TreeBursts::phaseOfAChild,
            "All meet at children, and each looks at its child's phase behind each meeting."),
        new BurstKind("tree-departures-and-force", TreeBursts::departuresAndForce,
            "The last departure from a child ends a phase while a forced termination comes, which is never undone."));

    private static final int MANY_LOOKS = 20;

    private TreeBursts() {
    }

    private static BurstStep meet(int phaser) {
        return BurstMaker.call(Method.ARRIVE_AND_AWAIT_ADVANCE, phaser);
    }

    /** A root with some children, or a chain; answers the phasers to arrive at. */
    private static List<Integer> tree(BurstMaker make, int children, int partiesOfEach) {
        int parent = make.root(0, make.policy());
        List<Integer> leaves = new ArrayList<>();
        for (int child = 0; child < children; child++) {
            int above = child > 0 && make.of(30) ? leaves.get(child - 1) : parent;
            leaves.add(make.phaser(above, partiesOfEach, Policy.DEFAULT));
        }
        return leaves;
    }

    private static void meetings(BurstMaker make) {
        int each = make.between(1, 2);
        List<Integer> leaves = tree(make, make.between(2, 4), each);
        int often = make.between(1, 3);
        for (int leaf : leaves) {
            make.threads(each, () -> BurstMaker.times(often, meet(leaf)));
        }
        make.claims(BurstClaim.MEETS);
    }

    private static void departures(BurstMaker make) {
        int each = make.between(1, 2);
        List<Integer> leaves = tree(make, make.between(2, 3), each);
        for (int leaf : leaves) {
            for (int party = 0; party < each; party++) {
                List<BurstStep> steps = new ArrayList<>(BurstMaker.times(make.between(0, 2), meet(leaf)));
                steps.add(BurstMaker.call(Method.ARRIVE_AND_DEREGISTER, leaf));
                make.thread(steps);
            }
        }
        if (make.of(50)) {
            make.thread(BurstMaker.call(Method.AWAIT_ADVANCE, 0, 0));
        }
    }

    private static void registration(BurstMaker make) {
        List<Integer> leaves = tree(make, 2, 1);
        leaves.forEach(leaf -> make.thread(meet(leaf)));
        for (int other = make.between(1, 4); other > 0; other--) {
            int leaf = make.any(leaves);
            make.thread(BurstMaker.call(Method.REGISTER, leaf), BurstMaker.call(Method.ARRIVE_AND_DEREGISTER, leaf));
        }
    }

    private static void registrationAtAnEmptyChild(BurstMaker make) {
        int root = make.root(1, BurstMaker.NEVER);
        int child = make.phaser(root, 0, Policy.DEFAULT);
        make.thread(BurstMaker.times(make.between(2, 6), meet(root)));
        BurstStep[] visit = {BurstMaker.call(Method.REGISTER, child), BurstMaker.call(Method.GET_PHASE, root),
            BurstMaker.call(Method.ARRIVE_AND_DEREGISTER, child)};
        make.threads(make.between(2, 3), () -> BurstMaker.times(make.between(1, 2), visit));
    }

    private static void looks(BurstMaker make) {
        int root = make.root(0, make.policy());
        int child = make.phaser(root, 2, Policy.DEFAULT);
        int other = make.of(50) ? make.phaser(make.of(50) ? root : child, 1, Policy.DEFAULT) : child;
        int often = make.between(2, 6);
        for (int leaf : other == child ? List.of(child, child) : List.of(child, child, other)) {
            make.thread(BurstMaker.times(often, meet(leaf)));
        }
        List<Method> getters = List.of(Method.GET_REGISTERED_PARTIES, Method.GET_ARRIVED_PARTIES, Method.GET_UNARRIVED_PARTIES);
        for (int looker = make.between(1, 3); looker > 0; looker--) {
            Method getter = make.any(getters);
            make.thread(BurstMaker.times(make.between(3, MANY_LOOKS), BurstMaker.call(getter, make.of(80) ? child : other)));
        }
    }

    private static void threeLevels(BurstMaker make) {
        int middle = make.phaser(make.root(0, make.policy()), 0, Policy.DEFAULT);
        int leaves = make.between(1, 3);
        int often = make.between(2, 5);
        boolean meets = make.of(60);
        for (int leaf = 0; leaf < leaves; leaf++) {
            int lowest = make.phaser(middle, make.between(1, 2), Policy.DEFAULT);
            make.threads(make.partiesOf(lowest),
                () -> meets ? BurstMaker.times(often, meet(lowest)) : arrivals(lowest, often));
        }
        if (meets) {
            make.claims(BurstClaim.MEETS);
        }
    }

    /**
     * Arrives in each phase once, and awaits its end. Who arrived again before that could see an arrival of others on its way up,
     * step by step, which no order explains.
     */
    private static List<BurstStep> arrivals(int phaser, int phases) {
        List<BurstStep> steps = new ArrayList<>();
        for (int phase = 0; phase < phases; phase++) {
            steps.add(BurstMaker.call(Method.ARRIVE, phaser));
            steps.add(BurstMaker.call(Method.AWAIT_ADVANCE, phaser, phase));
        }
        return steps;
    }

    private static void phaseOfAChild(BurstMaker make) {
        int often = make.between(2, 4);
        for (int leaf : tree(make, make.between(2, 3), 1)) {
            make.thread(BurstMaker.times(often, meet(leaf), BurstMaker.call(Method.GET_PHASE, leaf)));
        }
        make.claims(BurstClaim.MEETS);
    }

    private static void departuresAndForce(BurstMaker make) {
        int root = make.root(1, make.policy());
        int child = make.phaser(root, 1, Policy.DEFAULT);
        make.thread(BurstMaker.call(Method.ARRIVE, root));
        make.thread(BurstMaker.call(Method.ARRIVE_AND_DEREGISTER, child));
        make.thread(BurstMaker.call(Method.FORCE_TERMINATION, child).after(make.time(0, 20)),
            BurstMaker.call(make.of(50) ? Method.GET_PHASE : Method.IS_TERMINATED, child));
    }

    private static void force(BurstMaker make) {
        List<Integer> leaves = tree(make, make.between(2, 3), 1);
        leaves.forEach(leaf -> make.thread(BurstMaker.times(2, meet(leaf))));
        make.thread(BurstMaker.call(Method.AWAIT_ADVANCE, make.any(leaves), 0));
        make.thread(BurstMaker.call(Method.FORCE_TERMINATION, make.any(leaves)).after(make.time(0, 100)));
    }
}
