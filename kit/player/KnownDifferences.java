package kit.player;

import java.util.HashSet;
import java.util.List;
import java.util.Set;

/** The documented differences that a play tells over. */
final class KnownDifferences {
    /** All of them, for random programs. */
    static final KnownDifferences ALL = new KnownDifferences(List.of(KnownDifference.values()));

    /** For the cases of the set, which may end on a phaser that was forced. */
    static final KnownDifferences COUNTS = new KnownDifferences(List.of(KnownDifference.COUNTS_AFTER_FORCE));

    static final KnownDifferences NONE = new KnownDifferences(List.of());

    final List<KnownDifference> list;
    /** The calls with which the real side did as the JDK. It isn't asked for them any more. */
    private final Set<Excused> asTheJdk = new HashSet<>();

    /** A call in a documented difference. */
    record Excused(KnownDifference difference, Method method) {
    }

    private KnownDifferences(List<KnownDifference> list) {
        this.list = list;
    }

    /** The same for a real side of which nothing is known yet. */
    KnownDifferences forAnother() {
        return new KnownDifferences(list);
    }

    void doesAsTheJdk(Excused call) {
        asTheJdk.add(call);
    }

    boolean isAsTheJdk(Excused call) {
        return asTheJdk.contains(call);
    }

    /** The one for which the call isn't made, or null. */
    KnownDifference forbidding(Situation at) {
        return list.stream().filter(difference -> difference.forbids(at)).findFirst().orElse(null);
    }

    /** The answer as it is told: the one that was given, or Vuthgal's. */
    Answer told(Situation at, Answer given) {
        for (KnownDifference difference : list) {
            Answer instead = difference.instead(at, given);
            if (instead != null) {
                at.scene().notes.toldOver(difference, at.scene().step() + 1);
                return instead;
            }
        }
        return given;
    }
}
