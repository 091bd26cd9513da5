package kit.player;

import java.util.HashMap;
import java.util.HashSet;
import java.util.List;
import java.util.Map;

/** What is wrong with the history of a burst, in words; nothing where it is right. */
final class BurstJudge {
    /** What came of a burst. {@code overtaken}: right but for an interrupt that won over the end of a phase. */
    record Finding(String words, boolean overtaken) {
        boolean isRight() {
            return words == null && !overtaken;
        }
    }

    private static final Finding RIGHT = new Finding(null, false);
    private static final Finding OVERTAKEN =
        new Finding("an interrupt that came when the phase had ended wins over the phase", true);

    private final BurstHistory history;
    private final List<BurstEntry> entries;

    private BurstJudge(BurstHistory history) {
        this.history = history;
        entries = history.entries();
    }

    static Finding judge(BurstHistory history) {
        return new BurstJudge(history).judge();
    }

    private Finding judge() {
        String wrong = property();
        if (wrong != null) {
            return new Finding(wrong, false);
        }
        if (LegalHistory.explains(history, false)) {
            return RIGHT;
        }
        return LegalHistory.explains(history, true) ? OVERTAKEN : new Finding("no order explains the answers", false);
    }

    /** The first property that doesn't hold, in words, or null. */
    private String property() {
        for (BurstEntry entry : entries) {
            if (entry.isOpen()) {
                return "waits for ever: " + entry.words();
            }
            if (entry.answer().kind() == Answer.Kind.FAULT) {
                long same = entries.stream().filter(other -> entry.answer().equals(other.answer())).count();
                return entry.words() + (same > 1 ? ", and so do " + (same - 1) + " more calls" : "");
            }
            if (entry.answer().isThrown(Answer.TIMEOUT) && entry.lasted() < entry.request().nanoseconds()) {
                return "its time is over after " + entry.lasted() + " ns: " + entry.words();
            }
        }
        if (new HashSet<>(history.asked()).size() < history.asked().size()) {
            return "onAdvance is asked twice for one phase";
        }
        for (InnerCall call : history.inner()) {
            if (!call.isRight(history.burst)) {
                return call.words();
            }
        }
        return switch (history.burst.claim()) {
            case NONE -> null;
            case MEETS -> meets();
            case TRIPS -> trips();
        };
    }

    private String meets() {
        int[] met = new int[history.burst.looker()];
        for (BurstEntry entry : entries) {
            boolean meets = !entry.step.interrupts() && entry.request().method() == Method.ARRIVE_AND_AWAIT_ADVANCE;
            if (meets && !entry.answer().isValue(++met[entry.thread])) {
                int phase = met[entry.thread] - 1;
                return "not all who arrived for phase " + phase + " get the number after it: " + entry.words();
            }
        }
        return null;
    }

    private String trips() {
        int parties = history.burst.barriers().get(0).parties();
        int[] came = new int[history.burst.looker()];
        Map<List<Integer>, BurstEntry> indexes = new HashMap<>();
        for (BurstEntry entry : entries) {
            if (!entry.step.interrupts() && entry.request().method() == Method.AWAIT) {
                int trip = came[entry.thread]++;
                int index = entry.answer().number();
                boolean is = entry.answer().kind() == Answer.Kind.VALUE && index >= 0 && index < parties;
                BurstEntry same = is ? indexes.put(List.of(trip, index), entry) : null;
                if (!is || same != null) {
                    return "the indexes of trip " + (trip + 1) + " aren't each number once: "
                        + (same == null ? "" : same.words() + ", and ") + entry.words();
                }
            }
        }
        return null;
    }
}
