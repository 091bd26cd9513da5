package kit.player;

import java.io.IOException;
import java.io.PrintStream;
import java.nio.file.Files;
import java.nio.file.Path;
import java.util.List;

/** Plays many bursts, by so many real sides at once, tells those that fail, and keeps them where a folder is named. */
final class Bursts {
    /** A generous bound for what waits for ever, in nanoseconds. */
    static final long PATIENT = 10_000_000_000L;

    private static final long UNIT_HERE = 10_000;
    private static final long UNIT_OF_PORT = 100_000;
    private static final int MOST_FINDINGS = 5;
    private static final int MILLISECONDS_OF_PROGRESS = 1_000;
    /** With points, the time of a kind that has little to do with them counts so many times. */
    private static final int LESS_WITHOUT_POINTS = 4;
    /** For a burst that hasn't ended, in nanoseconds. */
    private static final long SOME_TIME = 50_000;

    /** One real side. */
    private record Place(Stage stage, BurstPlayer player) {
        Burst burst(long seed, long round) {
            return BurstKind.burst(seed, round, stage.isHere() || stage.takesLists() ? UNIT_HERE : UNIT_OF_PORT);
        }
    }

    /** A round to be played, and the seed of the port's points. */
    private record Turn(long round, long points) {
    }

    private final List<Place> places;
    private final Path keep;
    private final PrintStream to;
    final BurstCount count = new BurstCount();
    private BurstOrder order = new BurstOrder(1, BurstOrder.EACH, 0, 0);
    private long given;
    /** How many rounds of each kind, where time decides. */
    private final long[] givenOf = new long[BurstKind.ALL.size()];
    private long until;
    private RuntimeException failed;
    private LastWords last;

    /** {@code keep} is null where nothing is kept. */
    Bursts(List<Stage> stages, long bound, Path keep, PrintStream to) {
        places = stages.stream().map(stage -> new Place(stage, new BurstPlayer(stage, bound, keep != null))).toList();
        this.keep = keep;
        this.to = to;
    }

    /**
     * Plays until as many are played, or as much time has gone by, as the order says, or until no more findings are wanted:
     * some, or one where a round is played again and again, since its threads are free to run otherwise each time.
     */
    void play(BurstOrder asked) {
        order = asked;
        until = order.seconds() > 0 ? System.nanoTime() + order.seconds() * 1_000_000_000L : Long.MAX_VALUE;
        last = new LastWords(to, this::tell);
        List<Thread> workers = places.stream().map(place -> new Thread(() -> work(place), "bursts")).toList();
        for (Thread worker : workers) {
            worker.setDaemon(true);
            worker.start();
        }
        try {
            for (Thread worker : workers) {
                for (worker.join(MILLISECONDS_OF_PROGRESS); worker.isAlive(); worker.join(MILLISECONDS_OF_PROGRESS)) {
                    Progress.show(count.progress());
                }
            }
        } catch (InterruptedException never) {
            throw new IllegalStateException(never);
        }
        Progress.clear();
        if (failed != null) {
            last.drop();
            throw failed;
        }
    }

    private void work(Place place) {
        try {
            for (Turn turn = next(place); turn != null; turn = next(place)) {
                playOne(place, turn);
            }
        } catch (IOException | RuntimeException | Error thrown) {
            fail(thrown);
        }
    }

    private synchronized void fail(Throwable thrown) {
        failed = thrown instanceof RuntimeException unchecked ? unchecked : new IllegalStateException(thrown);
    }

    /** What is to be played next; null for nothing. Behind those with points, bursts need the processors: one plays alone. */
    private synchronized Turn next(Place place) {
        boolean again = order.playsOneRound();
        boolean enough = count.findings() >= (again ? 1 : MOST_FINDINGS);
        if (enough || failed != null || count.asked() >= order.count() || System.nanoTime() > until) {
            return null;
        }
        long points = order.points().at(part());
        if (points == PointSeeds.OFF && !order.points().areNone() && place != places.get(0)) {
            return null;
        }
        long round = again ? order.round() : points == PointSeeds.OFF ? nextRound() : nextByTime();
        if (round < 0 || count.isLeftOut(BurstKind.of(round).name())) {
            return null;
        }
        Turn turn = new Turn(round, points);
        count.asks();
        return turn;
    }

    /** That of the next kind that is wanted, and that the real side can play; negative where there is none. */
    private long nextRound() {
        for (int skipped = 0; skipped < BurstKind.ALL.size(); skipped++) {
            long round = given++;
            String kind = BurstKind.of(round).name();
            if (order.wants(kind) && !count.isLeftOut(kind)) {
                return round;
            }
        }
        return -1;
    }

    /** Of the kind that has had the least time so far: first one in which points matter. */
    private long nextByTime() {
        int least = -1;
        long time = Long.MAX_VALUE;
        for (int at = 0; at < BurstKind.ALL.size(); at++) {
            BurstKind kind = BurstKind.ALL.get(at);
            long had = (count.nanoseconds(kind.name()) + givenOf[at] * SOME_TIME) * (kind.needsPoints() ? 1 : LESS_WITHOUT_POINTS)
                + (kind.needsPoints() ? 0 : 1);
            if (order.wants(kind.name()) && !count.isLeftOut(kind.name()) && had < time) {
                least = at;
                time = had;
            }
        }
        return least < 0 ? -1 : least + BurstKind.ALL.size() * givenOf[least]++;
    }

    /** How much has been given, of the rounds or of the time, from 0 to 1. */
    private double part() {
        double ofTime = order.seconds() > 0 ? 1 - (until - System.nanoTime()) / (order.seconds() * 1e9) : 0;
        return Math.max(ofTime, (double) count.asked() / order.count());
    }

    /**
     * Plays until something is found; answers that in words, or null. Of the rounds it plays those of one kind alone, where
     * {@code kind} isn't null; {@code points} is the seed of the points, or {@code PointSeeds.OFF}.
     */
    String find(long seed, long rounds, String kind, long points) {
        Place place = places.get(0);
        place.stage().startWithPoints(points);
        for (long round = 0; round < rounds; round++) {
            if (kind != null && !BurstKind.of(round).name().equals(kind)) {
                continue;
            }
            if (count.isLeftOut(BurstKind.of(round).name())) {
                continue;
            }
            Burst burst = place.burst(seed, round);
            String finding = finding(place, burst, points);
            if (finding != null) {
                return burst.kind() + ", round " + round + ": " + finding;
            }
        }
        return null;
    }

    /** In words; null where it is right, and where the real side breaks down as a slow one might. */
    private String finding(Place place, Burst burst, long points) {
        try {
            BurstHistory history = history(place, burst, points);
            BurstJudge.Finding finding = history == null ? null : judge(history, points);
            return finding == null ? null : finding.words();
        } catch (Breakdown broken) {
            place.stage().abandon();
            return broken.mayBeSlowness() || broken.atStart ? null : broken.getMessage();
        }
    }

    private void playOne(Place place, Turn turn) throws IOException {
        place.stage().startWithPoints(turn.points());
        Burst burst = place.burst(order.seed(), turn.round());
        String text = whatFails(place, burst, turn.points());
        if (text != null) {
            String with = turn.points() == PointSeeds.OFF ? "" : "  with " + PointSeeds.VARIABLE + "=" + turn.points() + "\n";
            tellFailure(burst, text + with, PointSeeds.option(turn.points()));
        }
    }

    /** {@code more} is how the same points are asked for. */
    private synchronized void tellFailure(Burst burst, String text, String more) throws IOException {
        count.fails(burst, text);
        Progress.clear();
        to.print(Excerpt.lines(text, keep == null ? "; --keep FOLDER writes them" : ""));
        if (keep == null) {
            to.println("again: --burst " + BurstOrder.TRIES_OF_ONE + " --seed " + burst.seed() + " --round " + burst.round() + more);
        } else {
            Files.createDirectories(keep);
            Path file = keep.resolve(burst.kind() + "-" + burst.seed() + "-" + burst.round() + ".burst");
            Files.writeString(file, text);
            to.println("kept; again: --burst " + file + more);
        }
    }

    /** In words; null where it is right, and where the real side can't make the objects. */
    private String whatFails(Place place, Burst burst, long points) {
        try {
            BurstHistory history = history(place, burst, points);
            BurstJudge.Finding finding = history == null ? null : judge(history, points);
            return finding == null ? null : new BurstReport(history, finding).text();
        } catch (Breakdown broken) {
            count.played(burst, points, 0, 0);
            place.stage().abandon();
            return BurstReport.head(burst) + "\n  " + broken.getMessage() + "\n";
        }
    }

    /** Null where the real side can't make the objects. */
    private BurstHistory history(Place place, Burst burst, long points) {
        long begun = System.nanoTime();
        try {
            BurstHistory history = place.player().play(burst);
            count.played(burst, points, history.entries().size(), System.nanoTime() - begun);
            if (!history.hasOpen()) {
                count.overlaps(BurstOverlap.One.of(history));
            }
            return history;
        } catch (Unplayable why) {
            count.leavesOut(burst.kind(), why.getMessage());
            return null;
        }
    }

    /** Null where the history is right, of a real side with these points. */
    private BurstJudge.Finding judge(BurstHistory history, long points) {
        BurstJudge.Finding finding = BurstJudge.judge(history);
        return finding.isRight() || finding.overtaken() && !count.countsOvertaking(points != PointSeeds.OFF) ? null : finding;
    }

    /** The counts, in some lines. */
    void tell() {
        last.tell();
    }

    private synchronized void tell(boolean stopped) {
        Stage stage = places.get(0).stage();
        if (!stopped && !stage.isHere() && !stage.takesLists()) {
            to.println("the port takes no lists, so its calls came one by one through the pipe, and hardly overlapped");
        }
        count.tell(order, to);
    }
}
