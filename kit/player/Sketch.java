package kit.player;

import java.util.ArrayList;
import java.util.List;

/**
 * What a scenario's maker reckons with while it writes: roughly how the phasers and barriers stand. It steers the choice of
 * calls, so that phases end and waits begin; no verdict rests on it, since the trace that counts is Vuthgal's.
 */
final class Sketch {
    /** A phaser: its own parties, those of its children not among them. */
    static final class Tier {
        final int number;
        final Tier parent;
        final List<Tier> children = new ArrayList<>();
        int own;
        int ownArrived;
        // Of a root only:
        int phase;
        boolean terminated;
        boolean turned;

        Tier(int number, Tier parent, int own, int phase) {
            this.number = number;
            this.parent = parent;
            this.own = own;
            this.phase = phase;
            if (parent != null) {
                parent.children.add(this);
            }
        }

        Tier root() {
            return parent == null ? this : parent.root();
        }

        int parties() {
            return own + (int) children.stream().filter(child -> child.parties() > 0).count();
        }

        int unarrived() {
            long children = this.children.stream().filter(child -> child.parties() > 0 && child.unarrived() > 0).count();
            return own - ownArrived + (int) children;
        }

        int ownUnarrived() {
            return own - ownArrived;
        }

        /** Whether a registration here has to wait for the end of the phase. */
        boolean holds() {
            for (Tier at = this; at != null; at = at.parent) {
                if (at.turned || at.parties() > 0 && at.unarrived() == 0) {
                    return true;
                }
                if (at.parties() > 0) {
                    return false;
                }
            }
            return false;
        }

        /** Counts an arrival of one of its own parties; answers whether the tree waits for nobody any more. */
        boolean arrive(boolean leaves) {
            if (leaves) {
                own--;
            } else {
                ownArrived++;
            }
            return root().unarrived() == 0;
        }

        /** The phase of the tree of this root ends. */
        void advance(boolean terminates) {
            turned = false;
            terminated = terminates;
            phase = phase + 1 & Integer.MAX_VALUE;
            restart();
        }

        private void restart() {
            ownArrived = 0;
            children.forEach(Tier::restart);
        }

        /** What getPhase answers. */
        int view() {
            return root().terminated ? root().phase | Integer.MIN_VALUE : root().phase;
        }
    }

    /** A barrier. */
    static final class Gate {
        final int number;
        final int parties;
        int waiting;
        boolean broken;
        boolean actionRuns;

        Gate(int number, int parties) {
            this.number = number;
            this.parties = parties;
        }
    }

    final List<Tier> tiers = new ArrayList<>();
    final List<Gate> gates = new ArrayList<>();
}
