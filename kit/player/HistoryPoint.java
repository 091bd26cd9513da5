package kit.player;

import java.util.Arrays;
import java.util.List;

/** A point in the search for a legal history: the state of the model, and how far each line of calls has come. */
final class HistoryPoint {
    final Model model;
    private final int[] passed;
    private final boolean[] begun;

    HistoryPoint(Model model, int lines) {
        this(model, new int[lines], new boolean[lines]);
    }

    private HistoryPoint(Model model, int[] passed, boolean[] begun) {
        this.model = model;
        this.passed = passed;
        this.begun = begun;
    }

    HistoryPoint copy() {
        return new HistoryPoint(model.copy(), passed.clone(), begun.clone());
    }

    /** What comes next in a line, or has begun; null at its end. */
    BurstEntry present(List<List<BurstEntry>> lines, int line) {
        return passed[line] < lines.get(line).size() ? lines.get(line).get(passed[line]) : null;
    }

    /** The lines that aren't at their end, the one first whose present call ended first. */
    int[] byEnd(List<List<BurstEntry>> lines) {
        int[] order = new int[passed.length];
        int count = 0;
        for (int line = 0; line < passed.length; line++) {
            BurstEntry entry = present(lines, line);
            if (entry != null) {
                int at = count++;
                for (; at > 0 && present(lines, order[at - 1]).end() > entry.end(); at--) {
                    order[at] = order[at - 1];
                }
                order[at] = line;
            }
        }
        return Arrays.copyOf(order, count);
    }

    boolean hasBegun(int line) {
        return begun[line];
    }

    void begins(int line) {
        begun[line] = true;
    }

    void passes(int line) {
        begun[line] = false;
        passed[line]++;
    }

    /** Whether all that ended before this entry began is passed. */
    boolean mayBegin(List<List<BurstEntry>> lines, BurstEntry entry) {
        for (int line = 0; line < passed.length; line++) {
            BurstEntry other = present(lines, line);
            if (other != null && other.end() < entry.begin) {
                return false;
            }
        }
        return true;
    }

    /** Whether all that ended before the time of this entry was over is passed. */
    boolean mayBeLate(List<List<BurstEntry>> lines, BurstEntry entry) {
        for (int line = 0; line < passed.length; line++) {
            BurstEntry other = present(lines, line);
            if (other != null && other != entry && other.endedAt() < entry.isLateAt()) {
                return false;
            }
        }
        return true;
    }

    List<Integer> key() {
        List<Integer> key = model.key();
        for (int line = 0; line < passed.length; line++) {
            key.add(2 * passed[line] + (begun[line] ? 1 : 0));
        }
        return key;
    }
}
