package kit.player;

import java.util.ArrayList;
import java.util.Comparator;
import java.util.List;
import java.util.Queue;
import java.util.concurrent.ConcurrentLinkedQueue;
import java.util.concurrent.atomic.AtomicLong;

/** All calls and interrupts of one burst, and how {@code onAdvance} was asked. */
final class BurstHistory {
    final Burst burst;
    private final boolean timed;
    private final AtomicLong clock = new AtomicLong();
    private final Queue<BurstEntry> entries = new ConcurrentLinkedQueue<>();
    private final Queue<Entered> asked = new ConcurrentLinkedQueue<>();
    private final Queue<InnerCall> inner = new ConcurrentLinkedQueue<>();
    /** What this thread has begun, where it makes the calls itself. */
    private final ThreadLocal<BurstEntry> begun = new ThreadLocal<>();
    private long givenUpAt;
    private List<String> seen = List.of();

    /** {@code timed}: its clock is that of the real side, in nanoseconds, and it is told what began and ended when. */
    BurstHistory(Burst burst, boolean timed) {
        this.burst = burst;
        this.timed = timed;
    }

    boolean isTimed() {
        return timed;
    }

    /** Some wait for ever. {@code now} is of the clock of {@code beganAt}, and {@code lines} tell what the real side is like. */
    void giveUp(long now, List<String> lines) {
        givenUpAt = now;
        seen = List.copyOf(lines);
    }

    /** How long a call without an answer had gone on when it was given up, in nanoseconds. */
    long waited(BurstEntry entry) {
        return givenUpAt - entry.beganAt;
    }

    /** What the real side was like when it was given up, in some lines. */
    List<String> seen() {
        return seen;
    }

    BurstEntry begin(int thread, BurstStep step) {
        long now = System.nanoTime();
        BurstEntry entry = new BurstEntry(thread, step, clock.incrementAndGet(), now);
        entries.add(entry);
        begun.set(entry);
        return entry;
    }

    void end(BurstEntry entry, Answer answer) {
        long now = System.nanoTime();
        entry.finish(answer, clock.incrementAndGet(), now);
    }

    void add(BurstEntry entry) {
        entries.add(entry);
    }

    /** The {@code onAdvance} of a phaser was asked, by a call of the present thread, if that makes calls. */
    void asks(Entered where) {
        asks(where, begun.get());
    }

    /** {@code by} is null where it isn't known. */
    void asks(Entered where, BurstEntry by) {
        asked.add(where);
        if (by != null && !by.step.interrupts()) {
            by.asks(where);
        }
    }

    void add(InnerCall call) {
        inner.add(call);
    }

    /** What was called from inside an onAdvance or an action. */
    List<InnerCall> inner() {
        return new ArrayList<>(inner);
    }

    boolean wasAsked(Entered where) {
        return asked.contains(where);
    }

    /** How {@code onAdvance} was asked, one after the other. */
    List<Entered> asked() {
        return new ArrayList<>(asked);
    }

    /** In the order in which they began. */
    List<BurstEntry> entries() {
        return entries.stream().sorted(Comparator.comparingLong(entry -> entry.begin)).toList();
    }

    boolean hasOpen() {
        return entries.stream().anyMatch(BurstEntry::isOpen);
    }

    /**
     * What goes on one after the other: a line for each thread, one for each interrupt. An interrupt of a port's thread may
     * take effect after the next call of its sender has begun.
     */
    List<List<BurstEntry>> lines() {
        List<List<BurstEntry>> lines = new ArrayList<>();
        for (int thread = 0; thread <= burst.looker(); thread++) {
            lines.add(new ArrayList<>());
        }
        for (BurstEntry entry : entries()) {
            if (entry.step.interrupts()) {
                lines.add(List.of(entry));
            } else {
                lines.get(entry.thread).add(entry);
            }
        }
        lines.removeIf(List::isEmpty);
        return lines;
    }
}
