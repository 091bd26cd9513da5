package kit.player;

import java.util.ArrayList;
import java.util.Comparator;
import java.util.List;
import java.util.concurrent.BlockingQueue;
import java.util.concurrent.LinkedBlockingQueue;
import java.util.concurrent.TimeUnit;

/** Plays bursts on a real side: tells all threads to begin, lets them run freely, and looks when all are through. */
final class BurstPlayer {
    private static final long MILLISECOND = 1_000_000;
    /** So often it looks whether the real side has broken down. */
    private static final long LOOK = 20 * MILLISECOND;
    /** Closing lets a thread go on by one call, so it mustn't become rare where many are left. */
    private static final long LONGEST_PAUSE = 8 * MILLISECOND;

    /** A real side that isn't at rest gets so many times the bound more. */
    private static final int TIMES_FOR_THE_BUSY = 3;

    /** What the player is told by the threads. */
    private record Event(BurstRunner finished, RealThread standing, Burst.Barrier at) {
    }

    private final Stage stage;
    private final long bound;
    private final boolean leaves;
    /** The wait that is a poke; null where there is none. */
    private Call poke;
    /** The call that closes, and hasn't ended, since an action runs; null where there is none. */
    private Call closing;
    private BurstEntry closingEntry;

    /** What takes longer than {@code bound}, in nanoseconds, is taken to wait for ever; {@code leaves}: a port that hangs is left. */
    BurstPlayer(Stage stage, long bound, boolean leaves) {
        this.stage = stage;
        this.bound = bound;
        this.leaves = leaves;
    }

    /** Its history; calls that wait for ever have no answer in it. Unplayable where the real side can't make the objects. */
    BurstHistory play(Burst burst) {
        poke = null;
        closing = null;
        BurstHistory history = stage.takesLists() ? playByLists(burst) : playByCalls(burst);
        stage.checkWarnings();
        return history;
    }

    private BurstHistory playByLists(Burst burst) {
        BurstByLists lists = new BurstByLists(burst, stage);
        build(burst, lists.history);
        lists.start();
        boolean through = follow(burst, lists, true);
        if (through) {
            lists.look();
            through = follow(burst, lists, false);
        }
        if (!through) {
            stage.askSoFar();
            lists.takeSoFar();
            giveUp(lists.history, lists.now());
        }
        return lists.history;
    }

    /**
     * Until all threads are through their lists, or, where it answers false, as long as that may take; {@code stirring}: it
     * closes and pokes where the burst wants it.
     */
    private boolean follow(Burst burst, BurstByLists lists, boolean stirring) {
        long limit = System.nanoTime() + bound;
        int more = TIMES_FOR_THE_BUSY;
        long nextClosing = System.nanoTime() + MILLISECOND;
        long pause = MILLISECOND;
        while (lists.running() > 0) {
            boolean pokes = stirring && !burst.pokes().isEmpty();
            boolean closes = stirring && burst.closer() != null && !lists.isRunning(burst.looker());
            long until = pokes ? System.nanoTime() + MILLISECOND / 4 : closes ? Math.min(nextClosing, limit) : limit;
            PortLine said = next(lists.told, until - System.nanoTime());
            if (said != null) {
                lists.take(said);
            } else if (System.nanoTime() > limit) {
                if (more-- == 0 || stage.thread(Stage.LOOKER).isAtRest()) {
                    return false;
                }
                limit = System.nanoTime() + bound;
            } else if (pokes) {
                poke(burst);
            } else if (closes && System.nanoTime() > nextClosing) {
                lists.close();
                pause = Math.min(2 * pause, LONGEST_PAUSE);
                nextClosing = System.nanoTime() + pause;
            }
        }
        endPoke(burst);
        return true;
    }

    private BurstHistory playByCalls(Burst burst) {
        BurstHistory history = new BurstHistory(burst, false);
        build(burst, history);
        BlockingQueue<Event> events = new LinkedBlockingQueue<>();
        List<RealThread> threads = new ArrayList<>();
        for (int thread = 0; thread < burst.threads().size(); thread++) {
            threads.add(stage.thread(thread));
        }
        List<BurstRunner> runners = new ArrayList<>();
        for (int thread = 0; thread < threads.size(); thread++) {
            runners.add(new BurstRunner(history, thread, threads, burst.threads().get(thread), stage.isHere()) {
                @Override
                protected void finished() {
                    events.add(new Event(this, null, null));
                }

                @Override
                protected void stands(RealThread real, Burst.Barrier at) {
                    events.add(new Event(null, real, at));
                }
            });
        }
        start(runners);
        if (!follow(burst, history, events, threads) || !look(burst, history, runners)) {
            giveUp(history, System.nanoTime());
        }
        return history;
    }

    private void giveUp(BurstHistory history, long now) {
        List<String> seen = new ArrayList<>(stage.seen());
        String left = leaves ? stage.leave() : null;
        if (left != null) {
            seen.add(left);
        }
        stage.abandon();
        history.giveUp(now, seen);
    }

    private void build(Burst burst, BurstHistory history) {
        stage.begin(stage.patience()[0]);
        for (int number = 0; number < burst.phasers().size(); number++) {
            Burst.Phaser phaser = burst.phasers().get(number);
            int at = number;
            Stage.Advance advance = !phaser.asks() ? null : (phase, parties) -> {
                history.asks(Entered.onAdvance(at, phase, parties));
                if (!phaser.inner().isEmpty()) {
                    return null;
                }
                BurstGate.pauseUntil(System.nanoTime() + phaser.lasts());
                return phaser.policy().decide(phase, parties);
            };
            stage.phaser(number, phaser.parent(), phaser.parties(), 0, advance);
        }
        for (int number = 0; number < burst.barriers().size(); number++) {
            stage.barrier(number, burst.barriers().get(number).parties(), burst.barriers().get(number).withAction());
        }
    }

    /** Threads of this JVM meet at a gate first; those of a port are told in the order of their delays. */
    private void start(List<BurstRunner> runners) {
        if (stage.isHere()) {
            BurstGate gate = new BurstGate(runners.size());
            runners.forEach(runner -> runner.startAt(gate));
            return;
        }
        long from = System.nanoTime();
        List<BurstRunner> inOrder = new ArrayList<>(runners);
        inOrder.sort(Comparator.comparingLong(BurstRunner::firstDelay));
        for (BurstRunner runner : inOrder) {
            BurstGate.pauseUntil(from + runner.firstDelay());
            runner.goOn();
        }
    }

    /** Until all threads are through: ends actions, and closes and pokes where the burst wants it. */
    private boolean follow(Burst burst, BurstHistory history, BlockingQueue<Event> events, List<RealThread> threads) {
        int running = threads.size();
        long limit = System.nanoTime() + bound;
        int more = TIMES_FOR_THE_BUSY;
        long nextClosing = System.nanoTime() + MILLISECOND;
        long pause = MILLISECOND;
        while (running > 0) {
            boolean pokes = !burst.pokes().isEmpty();
            long until = burst.closer() != null ? Math.min(nextClosing, limit) : limit;
            Event event = next(events, pokes ? MILLISECOND / 4 : until - System.nanoTime());
            if (event != null && event.finished() != null) {
                running--;
            } else if (event != null) {
                BurstGate.pauseUntil(System.nanoTime() + event.at().lasts());
                BurstRunner.endAction(event.standing(), event.at());
            } else if (System.nanoTime() > limit) {
                if (more-- == 0 || threads.stream().allMatch(RealThread::mayBeBlocked)) {
                    return false;
                }
                limit = System.nanoTime() + bound;
            } else if (pokes) {
                poke(burst);
            } else if (burst.closer() != null && System.nanoTime() > nextClosing) {
                close(burst, history);
                pause = Math.min(2 * pause, LONGEST_PAUSE);
                nextClosing = System.nanoTime() + pause;
            }
        }
        endPoke(burst);
        return endClosing(history, bound);
    }

    /** What comes next; null where nothing comes for so long. */
    private <T> T next(BlockingQueue<T> events, long nanoseconds) {
        long limit = System.nanoTime() + nanoseconds;
        try {
            while (true) {
                stage.thread(Stage.LOOKER).check();
                long left = limit - System.nanoTime();
                T event = events.poll(Math.min(left, LOOK), TimeUnit.NANOSECONDS);
                if (event != null || left <= LOOK) {
                    return event;
                }
            }
        } catch (InterruptedException never) {
            throw new IllegalStateException(never);
        }
    }

    /** It may have to wait until an action has ended, which is ended here. */
    private void close(Burst burst, BurstHistory history) {
        if (endClosing(history, 0)) {
            closingEntry = history.begin(burst.looker(), BurstStep.call(burst.closer()));
            closing = stage.thread(Stage.LOOKER).tell(burst.closer());
            endClosing(history, MILLISECOND);
        }
    }

    /** Whether nothing closes any more, when so much time is over. */
    private boolean endClosing(BurstHistory history, long nanoseconds) {
        if (closing != null && stage.thread(Stage.LOOKER).done(closing, nanoseconds)) {
            history.end(closingEntry, closing.answer());
            closing = null;
        }
        return closing == null;
    }

    private void poke(Burst burst) {
        endPoke(burst);
        for (BurstStep each : burst.pokes()) {
            if (each.request().method().interruptible()) {
                poke = stage.thread(burst.looker()).tell(each.request());
            } else {
                RealThread looker = stage.thread(Stage.LOOKER);
                looker.done(looker.tell(each.request()), bound);
            }
        }
    }

    private void endPoke(Burst burst) {
        if (poke == null) {
            return;
        }
        Call wait = poke;
        poke = null;
        RealThread poker = stage.thread(burst.looker());
        poker.interrupt();
        if (!poker.done(wait, bound)) {
            throw new Hangs("an interrupt doesn't end " + wait.request.words());
        }
    }

    /** The looks of a player when all is quiet, and each thread's interrupted status; false where one hangs. */
    private boolean look(Burst burst, BurstHistory history, List<BurstRunner> runners) {
        BlockingQueue<Boolean> looked = new LinkedBlockingQueue<>();
        List<BurstStep> looks = burst.looks().stream().map(BurstStep::call).toList();
        List<RealThread> looker = List.of(stage.thread(Stage.LOOKER));
        new BurstRunner(history, burst.looker(), looker, looks, stage.isHere()) {
            @Override
            protected void finished() {
                looked.add(true);
            }

            @Override
            protected void stands(RealThread real, Burst.Barrier at) {
                throw new IllegalStateException("a getter runs an action");
            }
        }.goOn();
        if (next(looked, bound) == null) {
            return false;
        }
        runners.forEach(BurstRunner::interruptsAreIn);
        return !burst.hasInterrupts() || askStatuses(history, runners);
    }

    private boolean askStatuses(BurstHistory history, List<BurstRunner> runners) {
        List<Call> calls = new ArrayList<>();
        List<BurstEntry> entries = new ArrayList<>();
        Request status = Request.of(Method.INTERRUPTED, 0);
        for (int thread = 0; thread < runners.size(); thread++) {
            entries.add(history.begin(thread, BurstStep.call(status)));
            calls.add(stage.thread(thread).tell(status));
        }
        for (int thread = 0; thread < calls.size(); thread++) {
            if (!stage.thread(thread).done(calls.get(thread), bound)) {
                return false;
            }
            history.end(entries.get(thread), calls.get(thread).answer());
        }
        return true;
    }
}
