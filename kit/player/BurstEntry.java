package kit.player;

import java.util.ArrayList;
import java.util.List;

/**
 * A call or an interrupt as it was seen in a burst. {@code begin} and {@code end} are numbers of one clock that all threads
 * advance: what ended before something else began has the lower number.
 */
final class BurstEntry {
    final int thread;
    final BurstStep step;
    final long begin;
    /** When it began, in nanoseconds. */
    final long beganAt;
    /** The actions that it ran. */
    final List<Entered> entered = new ArrayList<>(1);
    /** What its onAdvance was asked; empty if it ran none, or that isn't known. */
    final List<Entered> asked = new ArrayList<>(1);
    private volatile Answer answer;
    private volatile long end = Long.MAX_VALUE;
    private volatile long endedAt = Long.MAX_VALUE;

    /** {@code beganAt} is in nanoseconds. */
    BurstEntry(int thread, BurstStep step, long begin, long beganAt) {
        this.thread = thread;
        this.step = step;
        this.begin = begin;
        this.beganAt = beganAt;
    }

    Request request() {
        return step.request();
    }

    /** The largest number where it has no answer. */
    long end() {
        return end;
    }

    /** When it ended, in nanoseconds. */
    long endedAt() {
        return endedAt;
    }

    long lasted() {
        return endedAt - beganAt;
    }

    /** When its time is over, in nanoseconds; its time is taken to begin when the call does. */
    long isLateAt() {
        long time = Math.max(request().nanoseconds(), 0);
        return time > Long.MAX_VALUE - beganAt ? Long.MAX_VALUE : beganAt + time;
    }

    /** Its thread stands in an action. */
    void enters(Entered where) {
        entered.add(where);
    }

    /** Its thread runs an onAdvance. */
    void asks(Entered where) {
        asked.add(where);
    }

    void finish(Answer answer, long end, long endedAt) {
        this.endedAt = endedAt;
        this.answer = answer;
        this.end = end;
    }

    /** Null where it has none. */
    Answer answer() {
        return answer;
    }

    boolean isOpen() {
        return end == Long.MAX_VALUE;
    }

    String words() {
        if (step.interrupts()) {
            return "interrupt of thread " + step.target();
        }
        return "thread " + thread + ": " + step.request().words() + (answer == null ? " has no answer" : " " + answer.told());
    }
}
