package kit.player;

import java.util.ArrayList;
import java.util.List;

/** The phasers of a scenario: their declarations, their routines, and the calls on them. */
final class PhaserCalls {
    private static final int MOST_PARTIES = 65535;
    private static final int LAST_PHASE = Integer.MAX_VALUE;

    private static final List<ScenarioRoutine.Kind> KINDS = List.of(
        ScenarioRoutine.Kind.DEFAULT,
        ScenarioRoutine.Kind.UNTIL,
        ScenarioRoutine.Kind.UNTIL,
        ScenarioRoutine.Kind.THROWS,
        ScenarioRoutine.Kind.FORCES);

    private final ScenarioMaker maker;
    private final Chances chances;
    /** What ends the phases of each phaser; null for the default. */
    private final List<ScenarioRoutine> routines = new ArrayList<>();

    PhaserCalls(ScenarioMaker maker, Chances chances) {
        this.maker = maker;
        this.chances = chances;
    }

    void declare() {
        int count = chances.of(12) ? chances.between(5, 8) : chances.between(1, 4);
        boolean chain = count > 4 && chances.of(70);
        for (int number = 0; number < count; number++) {
            Sketch.Tier parent = parent(number, chain);
            int parties = chances.of(35) ? 0 : chances.of(2) ? MOST_PARTIES - chances.between(0, 2) : chances.between(1, 3);
            int first = parent == null && chances.of(12) ? LAST_PHASE - chances.between(0, 2) : 0;
            maker.sketch.tiers.add(new Sketch.Tier(number, parent, parties, first));
            StringBuilder line = new StringBuilder(".phaser p" + number + " " + parties);
            if (parent != null) {
                line.append(" parent #").append(parent.number);
            }
            if (first != 0) {
                line.append(" phase ").append(first);
            }
            routines.add(null);
            maker.declarations.add(line + policy(number, first));
        }
    }

    /** The parent of the next phaser; null for a root. */
    private Sketch.Tier parent(int number, boolean chain) {
        List<Sketch.Tier> before = maker.sketch.tiers;
        if (number == 0 || !chain && chances.of(35)) {
            return null;
        }
        Sketch.Tier parent = chain ? before.get(number - 1) : chances.any(before);
        return isNearlyFull(parent) ? null : parent;
    }

    private static boolean isNearlyFull(Sketch.Tier tier) {
        return tier != null && (tier.parties() > MOST_PARTIES / 2 || isNearlyFull(tier.parent));
    }

    /** 30 default, 25 never, 15 until, 30 routine of a hundred. */
    private String policy(int number, int first) {
        int drawn = chances.random.nextInt(100);
        if (drawn < 30) {
            return "";
        }
        if (drawn < 55) {
            routines.set(number, new ScenarioRoutine(-1, ScenarioRoutine.Kind.RETURNS, 0, 0));
            return " never";
        }
        int from = first + chances.between(0, 3) & LAST_PHASE;
        if (drawn < 70) {
            routines.set(number, new ScenarioRoutine(-1, ScenarioRoutine.Kind.UNTIL, from, 0));
            return " until " + from;
        }
        ScenarioRoutine routine = writeRoutine(number, from);
        routines.set(number, routine);
        return " onadvance @" + routine.script();
    }

    private ScenarioRoutine writeRoutine(int phaser, int from) {
        Script script = new Script();
        int extra = chances.of(40) ? writeExtra(script, phaser) : 0;
        ScenarioRoutine.Kind kind = chances.any(KINDS);
        switch (kind) {
            case DEFAULT -> script.row("ldi r2 0").rowTo("beq r1 r2", 3).row("ldi r0 0").row("ret").row("ldi r0 1").row("ret");
            case UNTIL -> script.row("ldi r2 " + from).rowTo("blt r0 r2", 3).row("ldi r0 1").row("ret")
                .row("ldi r0 0").row("ret");
            case THROWS -> script.row("ldi r2 " + from).rowTo("blt r0 r2", 3).row("ldi r3 9").row("throw r3")
                .row("ldi r0 0").row("ret");
            default -> script.row("ldi r2 " + from).rowTo("blt r0 r2", 4).row("pforce #" + phaser)
                .row("ldi r0 " + chances.between(0, 1)).row("ret").row("ldi r0 0").row("ret");
        }
        maker.inner.add(script);
        return new ScenarioRoutine(maker.inner.size() - 1, kind, from, extra);
    }

    /** A look, or a call on the own tree, at a routine's beginning; answers its turns. */
    private int writeExtra(Script script, int phaser) {
        if (chances.of(60)) {
            script.row(chances.any(List.of("pphase", "pparties", "parrived", "punarr", "pterm")) + " r4 #" + phaser);
            return 1;
        }
        script.guarded(chances.any(List.of("parr", "pdereg", "paaa", "preg")) + " r4 #" + phaser);
        return 3;
    }

    void call(ScenarioThread part) {
        int drawn = chances.random.nextInt(100);
        if (drawn < 58) {
            arrive(part);
        } else if (drawn < 82 && !maker.isDriver(part)) {
            await(part, chances.any(maker.sketch.tiers));
        } else if (drawn < 98) {
            register(part, chances.any(maker.sketch.tiers));
        } else {
            force(part, chances.any(maker.sketch.tiers));
        }
    }

    private void arrive(ScenarioThread part) {
        List<Sketch.Tier> open = maker.sketch.tiers.stream()
            .filter(tier -> maker.strays && chances.of(40) || tier.ownUnarrived() > 0).toList();
        if (open.isEmpty()) {
            register(part, chances.any(maker.sketch.tiers));
            return;
        }
        Sketch.Tier tier = chances.any(open);
        for (int round = 0; round < 2; round++) {
            Sketch.Tier other = chances.any(open);
            if (other.unarrived() < tier.unarrived()) {
                tier = other;
            }
        }
        Sketch.Tier chosen = tier;
        boolean leaves = chances.of(25);
        boolean waits = !leaves && !maker.isDriver(part) && chances.of(60);
        String word = leaves ? "pdereg" : waits ? "paaa" : "parr";
        maker.perform(part, 0, 0, word + " r0 #" + chosen.number, () -> arrived(part, chosen, leaves, waits));
    }

    private ScenarioThread.Outcome arrived(ScenarioThread part, Sketch.Tier tier, boolean leaves, boolean waits) {
        Sketch.Tier root = tier.root();
        if (root.terminated || root.turned || tier.ownUnarrived() <= 0) {
            return ScenarioThread.Outcome.DONE;
        }
        if (!tier.arrive(leaves)) {
            if (waits) {
                part.waitFor(root, null, false, false);
            }
            return waits ? ScenarioThread.Outcome.WAITS : ScenarioThread.Outcome.DONE;
        }
        return endPhase(part, root);
    }

    private ScenarioThread.Outcome endPhase(ScenarioThread part, Sketch.Tier root) {
        ScenarioRoutine policy = routines.get(root.number);
        int phase = root.phase;
        int parties = root.parties();
        if (policy == null || policy.isBuiltIn()) {
            boolean ends = policy == null ? parties == 0
                : policy.kind() == ScenarioRoutine.Kind.UNTIL && (policy.changes(phase) || parties == 0);
            maker.turns(part, 1);
            advance(root, ends);
            return ScenarioThread.Outcome.WAITS;
        }
        root.turned = true;
        boolean changes = policy.changes(phase);
        part.turnsInside = policy.extraTurns() + (policy.kind() == ScenarioRoutine.Kind.FORCES && changes ? 5 : 4);
        part.end = () -> {
            switch (policy.kind()) {
                case DEFAULT -> advance(root, parties == 0);
                case UNTIL -> advance(root, changes);
                case THROWS -> endThrowing(part, root, changes);
                default -> endForcing(root, changes);
            }
        };
        return ScenarioThread.Outcome.ENTERS;
    }

    private void endThrowing(ScenarioThread part, Sketch.Tier root, boolean changes) {
        if (changes) {
            maker.turns(part, 1);
        } else {
            advance(root, false);
        }
    }

    private void endForcing(Sketch.Tier root, boolean changes) {
        if (changes) {
            root.terminated = true;
            root.turned = false;
            maker.release(root);
        } else {
            advance(root, false);
        }
    }

    private void advance(Sketch.Tier root, boolean terminates) {
        root.advance(terminates);
        maker.release(root);
    }

    /** 62 of a hundred await the current phase, the others one before, one behind, or a negative number. */
    private void await(ScenarioThread part, Sketch.Tier tier) {
        int now = tier.root().phase;
        int phase = chances.of(62) ? tier.view() : chances.any(List.of(now - 1, now + 1 & LAST_PHASE, -7, tier.view()));
        boolean timed = chances.of(30);
        boolean interruptible = timed || chances.of(45);
        int time = chances.of(80) ? 5 : -chances.between(0, 1);
        String word = timed ? "pawaitt r0 #%d r1 r2" : interruptible ? "pawaiti r0 #%d r1" : "pawait r0 #%d r1";
        maker.perform(part, phase, time, String.format(word, tier.number), () -> {
            Sketch.Tier root = tier.root();
            if (root.terminated || phase != root.phase) {
                return ScenarioThread.Outcome.DONE;
            }
            if (interruptible && part.interrupted) {
                part.interrupted = false;
                return ScenarioThread.Outcome.DONE;
            }
            if (timed && time <= 0) {
                return ScenarioThread.Outcome.DONE;
            }
            part.waitFor(root, null, interruptible, timed);
            return ScenarioThread.Outcome.WAITS;
        });
    }

    private void register(ScenarioThread part, Sketch.Tier tier) {
        if (chances.of(55)) {
            maker.perform(part, 0, 0, "preg r0 #" + tier.number, () -> registered(part, tier, 1));
            return;
        }
        int room = Math.max(MOST_PARTIES - tier.parties(), 0);
        int parties = chances.of(60) ? chances.between(1, 2)
            : chances.any(List.of(0, 0, -1, Integer.MAX_VALUE, room, room + 1));
        maker.perform(part, parties, 0, "pbulk r0 #" + tier.number + " r1", () -> registered(part, tier, parties));
    }

    private ScenarioThread.Outcome registered(ScenarioThread part, Sketch.Tier tier, int parties) {
        if (parties <= 0 || tier.root().terminated || (long) tier.parties() + parties > MOST_PARTIES) {
            return ScenarioThread.Outcome.DONE;
        }
        if (tier.holds()) {
            part.heldBy = tier.root();
            return ScenarioThread.Outcome.HELD;
        }
        tier.own += parties;
        return ScenarioThread.Outcome.DONE;
    }

    private void force(ScenarioThread part, Sketch.Tier tier) {
        maker.perform(part, 0, 0, "pforce #" + tier.number, () -> {
            maker.turns(part, 1);
            tier.root().terminated = true;
            tier.root().turned = false;
            maker.release(tier.root());
            return ScenarioThread.Outcome.WAITS;
        });
    }
}
