package kit.player;

import java.util.concurrent.locks.LockSupport;

/** A call that a real thread was told to make. The real side writes into it, the player reads. */
final class Call {
    final Request request;
    private final CallWatcher watcher;
    private volatile Answer answer;
    private volatile Entered entered;
    private volatile boolean inside;
    /** What its routine or action was told to throw; null where it was told nothing, or to return. */
    private volatile Integer thrown;
    /** Who sleeps until it comes to something; null where nobody does. */
    private volatile Thread sleeper;

    Call(Request request, CallWatcher watcher) {
        this.request = request;
        this.watcher = watcher;
    }

    boolean done() {
        return answer != null;
    }

    /** What it came to; null until it is done. */
    Answer answer() {
        return answer;
    }

    void finish(Answer answer) {
        this.answer = answer;
        watcher.done(this);
        LockSupport.unpark(sleeper);
    }

    /** The real thread stands at the beginning of a routine or an action. */
    void enter(Entered where) {
        inside = true;
        entered = where;
        watcher.entered(this, where);
        LockSupport.unpark(sleeper);
    }

    /** Sleeps for so long, or until it is done, or, where {@code orEnters}, enters something. */
    void sleep(long nanoseconds, boolean orEnters) {
        sleeper = Thread.currentThread();
        if (!done() && !(orEnters && hasEntered())) {
            LockSupport.parkNanos(this, nanoseconds);
        }
        sleeper = null;
    }

    boolean hasEntered() {
        return entered != null;
    }

    /** Where it entered; null where the player has taken that. */
    Entered entered() {
        return entered;
    }

    /** Where it entered; the player takes this once for each time. */
    Entered takeEntered() {
        Entered where = entered;
        entered = null;
        return where;
    }

    /** Whether the real thread stands in a routine or an action of this call, and waits there to be told something. */
    boolean inside() {
        return inside;
    }

    /** The routine or action is told to end: to throw this number, or, where that is null, to return. */
    void leave(Integer throwing) {
        thrown = throwing;
        entered = null;
        inside = false;
    }

    boolean wasToldToThrow(int number) {
        return thrown != null && thrown == number;
    }
}
