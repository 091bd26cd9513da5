package kit.player;

/**
 * Whether a call is done, enters a routine or an action, or is blocked. Of a blocked thread there is nothing to be seen but
 * that it stands still, and on a busy machine so does one that waits for a processor. So the time for which it has to stand
 * still counts from when a round trip of the looker, begun after the call, has come back; it is longer where that trip was
 * long; the real side has to be at rest behind it; and one more trip, which mustn't be longer than that time, comes last. A real
 * side that is never at rest is taken to spin while it waits, once whoever isn't asleep has had a processor; who starves is
 * waited for.
 */
final class Settling {
    private static final int TRIPS = 3;
    /** A real side that isn't at rest after so many times, though it has run, is one that spins while it waits. */
    private static final int MOST_ROUNDS = 10;
    /**
     * So much of a processor, while somebody waits, or, where the machine is busy, so much of what is left for one thread: a round
     * trip takes less, and a thread that spins before it sleeps.
     */
    private static final double MUCH = 0.2;
    private static final double LEAST = 0.05;

    private final Stage stage;
    private final Patience patience;
    private long trip;
    private boolean unsure;
    private boolean spins;

    Settling(Stage stage, Patience patience) {
        this.stage = stage;
        this.patience = patience;
    }

    /** What has become of a call that may wait. */
    RealThread.Outcome settle(RealThread thread, Call call) {
        long limit = System.nanoTime() + patience.bound();
        thread.standStill(call, patience.settle() / 4, limit);      // most calls are done by then
        if (RealThread.outcome(call) != RealThread.Outcome.BLOCKED) {
            return RealThread.outcome(call);
        }
        long last = roundTrip();
        for (int round = 1;; round++) {
            long still = Math.max(patience.settle(), TRIPS * last);
            thread.standStill(call, still, limit);
            RealThread.Rest rest = thread.rest();
            if (round == 1 && rest != RealThread.Rest.ASLEEP) {
                thread.markRest();      // who has had a processor is asked only after many rounds
            }
            last = roundTrip();
            boolean waits = rest == RealThread.Rest.ASLEEP && last <= still;
            boolean runs = rest == RealThread.Rest.RUNNING && last <= still && round >= MOST_ROUNDS;
            RealThread.Outcome outcome = RealThread.outcome(call);
            if (waits || runs || outcome != RealThread.Outcome.BLOCKED || System.nanoTime() > limit) {
                unsure |= outcome == RealThread.Outcome.BLOCKED && !waits;
                spins |= outcome == RealThread.Outcome.BLOCKED && runs
                    && thread.share() > Math.max(LEAST, MUCH / Load.factor());
                return outcome;
            }
        }
    }

    /** What has become of a call that never waits. */
    RealThread.Outcome comeBack(RealThread thread, Call call) {
        thread.standStill(call, patience.bound(), System.nanoTime() + patience.bound());
        return RealThread.outcome(call);
    }

    /** How long the looker takes to answer now. */
    long roundTrip() {
        RealThread looker = stage.thread(Stage.LOOKER);
        long begun = System.nanoTime();
        Call call = looker.tell(Request.of(Method.IS_INTERRUPTED, 0));
        if (!looker.done(call, patience.bound())) {
            throw new Hangs("isInterrupted of the looker doesn't answer" + looker.state());
        }
        long took = System.nanoTime() - begun;
        trip = Math.max(took, trip / 2);
        return took;
    }

    /** Whether a call was taken to wait though the real side wasn't at rest: it may not have begun. */
    boolean isUnsure() {
        return unsure;
    }

    /** Whether the real side has spun while a call waited. */
    boolean spins() {
        return spins;
    }

    /** How long a round trip has taken of late. */
    long lately() {
        return trip;
    }
}
