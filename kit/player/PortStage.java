package kit.player;

import java.util.ArrayList;
import java.util.List;
import java.util.concurrent.BlockingQueue;

/** Calls made by the process of a port in any language. A process that hangs is killed, and started again. */
final class PortStage implements Stage {
    private final String command;
    private PortProcess process;
    private long points = PointSeeds.OFF;
    /** Null until it was asked. */
    private Boolean takesLists;

    PortStage(String command) {
        this.command = command;
    }

    @Override
    public void begin(Patience patience) {
        if (process == null) {
            process = new PortProcess(command, points);
        }
        process.begin(patience);
    }

    @Override
    public void phaser(int number, int parent, int parties, int firstPhase, Advance advance) {
        if (advance != null) {
            process.overrides(number, advance);
        }
        process.order(Stage.phaserWords(number, parent, parties, firstPhase, advance != null));
    }

    @Override
    public void barrier(int number, int parties, boolean withAction) {
        if (withAction) {
            process.asksAction(number);
        }
        process.order(Stage.barrierWords(number, parties, withAction));
    }

    @Override
    public RealThread thread(int number) {
        if (process == null) {
            throw new PortEnded("there is no port", true);
        }
        return process.thread(number);
    }

    /** A port that doesn't know the command is asked once, and started anew where that was too much for it. */
    @Override
    public boolean takesLists() {
        if (takesLists == null) {
            takesLists = isReadyForLists();
        }
        return takesLists;
    }

    private boolean isReadyForLists() {
        try {
            begin(patience()[0]);
            process.order("lists");
            return true;
        } catch (Unplayable goesWithoutThem) {
            return false;
        } catch (Breakdown unknown) {
            abandon();
            return false;
        }
    }

    @Override
    public void prepareForLists(int threads) {
        if (process.countThreads() > threads) {
            return;
        }
        List<RealThread> all = new ArrayList<>(List.of(thread(LOOKER)));
        for (int number = 0; number < threads; number++) {
            all.add(thread(number));
        }
        for (RealThread each : all) {
            if (!answers(each)) {
                throw new Hangs("isInterrupted doesn't answer");
            }
        }
        process.spreadThreads();
    }

    /** Many threads have just been made: on a busy machine that takes its time. */
    private boolean answers(RealThread thread) {
        Call call = thread.tell(Request.of(Method.IS_INTERRUPTED, 0));
        boolean done = thread.done(call, patience()[0].bound());
        for (int time = 1; !done && time < RealThread.TIMES_FOR_THE_BUSY && !process.staysAtRest(); time++) {
            done = thread.done(call, patience()[0].bound());
        }
        return done || call.done();
    }

    /** One that can't leaves out the bursts that need it. */
    @Override
    public void tellInner(String line) {
        process.order(line);
    }

    @Override
    public void tellLists(List<String> lines, BlockingQueue<PortLine> told) {
        process.writeLists(lines, told);
    }

    @Override
    public void askSoFar() {
        process.order("so-far");
    }

    @Override
    public void checkWarnings() {
        if (process != null) {
            process.checkWarnings();
        }
    }

    @Override
    public void startWithPoints(long seed) {
        if (seed != points) {
            points = seed;
            abandon();
        }
    }

    @Override
    public void abandon() {
        close();
        process = null;
    }

    @Override
    public List<String> seen() {
        return process.states();
    }

    @Override
    public String leave() {
        String left = process.leave();
        process = left == null ? process : null;
        return left;
    }

    @Override
    public Patience[] patience() {
        return Patience.OF_PORT;
    }

    @Override
    public void close() {
        if (process != null) {
            process.kill();
        }
    }
}
