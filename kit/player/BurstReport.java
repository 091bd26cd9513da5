package kit.player;

import java.util.ArrayList;
import java.util.Collections;
import java.util.Comparator;
import java.util.List;
import java.util.Locale;
import java.util.stream.Collectors;

/** A burst that fails, in words: what is wrong, its objects and calls, and the answer that no order explains. */
final class BurstReport {
    /** How the first line of a kept burst begins; the seed and the round follow. */
    static final String HEAD = "burst";

    /** From so many on, repeated calls are one line. */
    private static final int MANY = 3;

    private final BurstHistory history;
    private final BurstJudge.Finding finding;
    private final StringBuilder text = new StringBuilder();

    BurstReport(BurstHistory history, BurstJudge.Finding finding) {
        this.history = history;
        this.finding = finding;
    }

    /** The first line of a kept burst, without its end. */
    static String head(Burst burst) {
        return HEAD + " " + burst.seed() + " " + burst.round() + " " + burst.kind();
    }

    String text() {
        Burst burst = history.burst;
        BurstCore core = finding.overtaken() ? null : BurstCore.of(history);
        List<BurstRemedy> remedies = core == null ? null : core.remedies();
        line(head(burst));
        line("  " + words(core, remedies));
        waits();
        objects(burst);
        line("  in the order in which they began, each with its begin and its end"
            + (history.isTimed() ? ", in nanoseconds:" : ":"));
        entries();
        List<Entered> left = new ArrayList<>(history.asked());
        history.entries().forEach(entry -> entry.asked.forEach(left::remove));
        left.forEach(where -> line("    " + asked(where)));
        if (!history.hasOpen() && !finding.overtaken()) {
            unexplained();
        }
        if (core != null) {
            core(core, remedies);
        }
        return text.toString();
    }

    /** What is wrong, and with whom: of all who wait for ever who mustn't, and the one whose answer would have to be another. */
    private String words(BurstCore core, List<BurstRemedy> remedies) {
        List<BurstEntry> open = history.entries().stream().filter(BurstEntry::isOpen).toList();
        if (!open.isEmpty()) {
            BurstEntry first = core == null ? open.get(0)
                : core.judged().stream().filter(BurstEntry::isOpen).findFirst().orElse(open.get(0));
            int more = open.size() - 1;
            return "waits for ever: " + first.words() + (more == 0 ? "" : ", and so do " + more + " more");
        }
        boolean one = remedies != null && remedies.size() == 1 && !finding.words().contains(": ");
        return finding.words() + (one ? ": " + remedies.get(0).entry().words() : "");
    }

    /** Who has no answer, for how long, and what it did before. */
    private void waits() {
        List<BurstEntry> open = history.entries().stream()
            .filter(entry -> entry.isOpen() && (history.isTimed() || !entry.step.interrupts()))
            .sorted(Comparator.comparingInt(entry -> entry.thread)).toList();
        for (BurstEntry entry : open) {
            String before = history.entries().stream().filter(other -> !other.isOpen() && other.thread == entry.thread)
                .reduce((first, second) -> second).map(last -> ", after " + withoutThread(last.words())).orElse("");
            line(String.format(Locale.ROOT, "    thread %-3d%6.1f s  %s%s", entry.thread, history.waited(entry) / 1e9,
                withoutThread(call(entry)), before));
        }
        history.seen().forEach(words -> line("  " + words));
    }

    private void core(BurstCore core, List<BurstRemedy> remedies) {
        if (core.early() != null) {
            line("  too early: whatever it answers, this mustn't have returned yet: " + call(core.early()));
        } else {
            String alone = core.isWhole() ? "alone" : "alone, or fewer of them";
            line("  no order explains these " + alone
                + (core.others() == 0 ? ":" : ", whatever the other " + core.others() + " did:"));
            core.judged().forEach(entry -> line("    " + entry.words()));
        }
        if (!core.needed().isEmpty()) {
            line("  with these made, whatever they answer:");
            core.needed().forEach(entry -> line("    " + call(entry)));
        }
        if (remedies != null && remedies.isEmpty() && core.early() == null) {
            line("  one other answer isn't enough");
        }
        for (BurstRemedy remedy : remedies == null ? List.<BurstRemedy>of() : remedies) {
            line("  with one other answer there is an order: " + call(remedy.entry()) + " " + remedy.answer().told());
        }
    }

    private static String call(BurstEntry entry) {
        return entry.step.interrupts() ? entry.words() : "thread " + entry.thread + ": " + entry.request().words();
    }

    private static String withoutThread(String words) {
        return words.replaceFirst("^thread \\d+: ", "");
    }

    private void objects(Burst burst) {
        for (int number = 0; number < burst.phasers().size(); number++) {
            Burst.Phaser phaser = burst.phasers().get(number);
            line("  phaser " + number + ": " + phaser.parties() + " parties"
                + (phaser.parent() < 0 ? "" : ", child of " + phaser.parent())
                + (phaser.asks() ? ", onAdvance overridden: " + phaser.policy().kind().name().toLowerCase(Locale.ROOT)
                    + (phaser.policy().kind() == Policy.Kind.UNTIL ? " " + phaser.policy().argument() : "") : "")
                + inside(phaser.inner()));
        }
        for (int number = 0; number < burst.barriers().size(); number++) {
            Burst.Barrier barrier = burst.barriers().get(number);
            line("  barrier " + number + ": " + barrier.parties() + " parties"
                + (!barrier.withAction() ? "" : barrier.fails() ? ", with an action that throws" : ", with an action")
                + (barrier.lasts() > 0 ? " that takes " + barrier.lasts() / 1_000 + " us" : "") + inside(barrier.inner()));
        }
    }

    private static String inside(List<Request> inner) {
        return inner.isEmpty() ? "" : ", which calls " + inner.stream().map(request -> request.method().word).distinct()
            .collect(Collectors.joining(", "));
    }

    private static String asked(Entered where) {
        return "onAdvance of phaser " + where.object() + " was asked: phase " + where.phase() + ", parties " + where.parties();
    }

    /** Each, or, of one that a thread repeats, the first begin and the last end. */
    private void entries() {
        List<BurstEntry> entries = history.entries();
        int next;
        for (int from = 0; from < entries.size(); from = next) {
            BurstEntry entry = entries.get(from);
            next = from + 1;
            while (next < entries.size() && isRepeated(entry, entries.get(next))) {
                next++;
            }
            if (next - from < MANY) {
                entries.subList(from, next).forEach(each -> entry(each, each, ""));
            } else {
                entry(entry, entries.get(next - 1), times(next - from));
            }
        }
    }

    /** Whether nothing but the time is another. */
    private static boolean isRepeated(BurstEntry entry, BurstEntry next) {
        return entry.thread == next.thread && entry.words().equals(next.words()) && !entry.isOpen() && !next.isOpen()
            && entry.entered.equals(next.entered) && entry.asked.equals(next.asked);
    }

    private static String times(int count) {
        return ", " + count + " times";
    }

    private void entry(BurstEntry entry, BurstEntry last, String times) {
        line("    " + at(entry.begin) + ".." + (last.isOpen() ? "" : at(last.end())) + " " + entry.words()
            + (entry.entered.isEmpty() ? "" : ", ran the action") + times);
        entry.asked.forEach(where -> line("      in it " + asked(where)));
    }

    /** A moment of the history's clock, as it is told. */
    private long at(long time) {
        return history.isTimed() ? time - history.entries().get(0).begin : time;
    }

    private void unexplained() {
        BurstEntry first = LegalHistory.firstUnexplained(history);
        if (first == null) {
            return;
        }
        List<BurstEntry> order = new ArrayList<>(LegalHistory.orderBefore(history, first));
        Collections.reverse(order);
        List<BurstEntry> told = new ArrayList<>();
        List<String> lines = new ArrayList<>();
        for (int at = 0; at < order.size(); at++) {
            BurstEntry entry = order.get(at);
            boolean toldBefore = told.contains(entry);
            if (!toldBefore || order.lastIndexOf(entry) == at) {
                lines.add("    " + entry.words() + part(entry, first, Collections.frequency(order, entry) > 1, toldBefore));
            }
            told.add(entry);
        }
        if (lines.isEmpty()) {
            line("  no order explains " + first.words());
            return;
        }
        line("  what ended before " + at(first.end()) + " is explained by this order:");
        folded(lines);
        line("  no order explains, with these, " + first.words());
    }

    private void folded(List<String> lines) {
        int next;
        for (int from = 0; from < lines.size(); from = next) {
            next = from + 1;
            while (next < lines.size() && lines.get(next).equals(lines.get(from))) {
                next++;
            }
            if (next - from < MANY) {
                lines.subList(from, next).forEach(this::line);
            } else {
                line(lines.get(from) + times(next - from));
            }
        }
    }

    /** A wait is two parts of an order; of one that hasn't ended before {@code first} did only its beginning may be there. */
    private static String part(BurstEntry entry, BurstEntry first, boolean twice, boolean toldBefore) {
        return toldBefore ? ", its end" : twice ? ", its beginning" : entry.end() < first.end() ? "" : " (not yet answered)";
    }

    private void line(String words) {
        text.append(words).append('\n');
    }
}
