package kit.player;

import java.io.BufferedWriter;
import java.io.IOException;
import java.io.OutputStreamWriter;
import java.nio.charset.StandardCharsets;
import java.util.List;
import java.util.Map;
import java.util.Set;
import java.util.concurrent.BlockingQueue;
import java.util.concurrent.ConcurrentHashMap;
import java.util.concurrent.LinkedBlockingQueue;
import java.util.concurrent.TimeUnit;
import java.util.concurrent.locks.LockSupport;

/** A port's process, and the lines that it is told and tells (kit/PROTOCOL.md, "Port protocol"). */
final class PortProcess {
    private static final long SECOND = 1_000_000_000L;
    /** How long the first answer may take, since a start takes its time. */
    private static final long LONGEST_START = 4 * SECOND;
    /** So many times as long unless it rests all the while: a script that starts the port runs, too, and a busy machine is slow. */
    private static final int TIMES_AT_START = 15;
    /** How long its output may be read once it has ended. */
    private static final long LONGEST_END = 30 * SECOND;
    private static final long LOOK = SECOND / 1_000;
    /** A signal that has ended the port may be meant for the player too, which hears it a little later. */
    private static final long MILLISECONDS_OF_A_SIGNAL = 1_000;
    private final Process process;
    private final Thread reader = new Thread(this::read, "port reader");
    private final PortErrors errors;
    private final BurstSpread spread;
    private final BufferedWriter into;
    private final BoundedLines from;
    /** The answers to commands for objects; null where the port has broken down. */
    private final BlockingQueue<Reply> replies = new LinkedBlockingQueue<>();
    private final Map<Integer, PortThread> threads = new ConcurrentHashMap<>();
    /** What the overridden onAdvance of each phaser does. */
    private final Map<Integer, Stage.Advance> advances = new ConcurrentHashMap<>();
    /** The barriers whose action asks the player. */
    private final Set<Integer> actions = ConcurrentHashMap.newKeySet();
    /** What it tells of lists of calls; null where it was given none. */
    private volatile BlockingQueue<PortLine> ofLists;
    private volatile boolean asked;
    private volatile boolean answered;
    private volatile boolean answeredByThreads;
    /** The last line that tells of a call of the case's own. */
    private volatile String lastLine;
    private volatile Breakdown breakdown;
    private long longestAnswer;
    private Tasks tasks;

    /** The answer to a command for objects; {@code said} is null where no more answers come. */
    private record Reply(PortLine said) {
    }

    /** {@code points} is the seed of its points. */
    PortProcess(String command, long points) {
        try {
            process = LivingPorts.start(command, points);
        } catch (IOException failed) {
            throw new PortEnded("the port can't be started: " + failed.getMessage(), true);
        }
        errors = new PortErrors(process);
        spread = new BurstSpread(process);
        into = new BufferedWriter(new OutputStreamWriter(process.getOutputStream(), StandardCharsets.US_ASCII));
        from = new BoundedLines(process.getInputStream());
        reader.setDaemon(true);
        reader.start();
    }

    PortThread thread(int number) {
        return threads.computeIfAbsent(number, fresh -> new PortThread(fresh, this));
    }

    /** What the onAdvance of this phaser does; null where it isn't overridden. */
    Stage.Advance advance(int phaser) {
        return advances.get(phaser);
    }

    /** A new case begins. */
    void begin(Patience patience) {
        longestAnswer = answered ? patience.bound() : Math.max(patience.bound(), LONGEST_START);
        tasks = null;
        advances.clear();
        actions.clear();
        ofLists = null;
        order("case");
    }

    /** Its threads, as the system shows them in this case. */
    Tasks tasks() {
        if (tasks == null) {
            tasks = new Tasks(process);
        }
        return tasks;
    }

    /** Whether none does for a while. */
    boolean staysAtRest() {
        return new Tasks(process).stayAtRest();
    }

    void overrides(int phaser, Stage.Advance advance) {
        advances.put(phaser, advance);
    }

    void asksAction(int barrier) {
        actions.add(barrier);
    }

    boolean hasAction(int barrier) {
        return actions.contains(barrier);
    }

    /** A command for objects, which is answered at once. */
    void order(String command) {
        asked = true;
        write(command);
        Reply reply = awaitReply();
        check();
        if (reply == null) {
            throw new Hangs("the port doesn't answer: " + command + state(), !answered);
        }
        if (reply.said().kind() == PortLine.Kind.NO) {
            throw new Unplayable(Excerpt.of(reply.said().reason()));
        }
        if (reply.said().kind() == PortLine.Kind.REFUSED) {
            throw new ProtocolFault("`" + command + "` " + Answer.thrown(reply.said().number(0)).told());
        }
    }

    /** Null where none comes. */
    private Reply awaitReply() {
        Reply reply = answered ? reply() : firstReply();
        for (int time = 1; answered && reply == null && time < RealThread.TIMES_FOR_THE_BUSY && !staysAtRest(); time++) {
            reply = reply();
        }
        return reply == null ? replies.poll() : reply;     // the look at its threads took its time
    }

    /**
     * A script that starts the port sleeps mostly, and what it waits for are processes that come and go. So it isn't enough that
     * all sleep at some looks: they are the same all the while, and none is given a processor.
     */
    private Reply firstReply() {
        Reply reply = null;
        boolean rested = false;
        for (int time = 0; reply == null && !rested && time < TIMES_AT_START; time++) {
            Tasks before = new Tasks(process);
            before.mark();
            reply = reply();
            rested = reply == null && new Tasks(process).haveSleptSince(before);
        }
        return reply;
    }

    /** The next answer; null where none comes for as long as one may take. */
    private Reply reply() {
        try {
            return replies.poll(longestAnswer, TimeUnit.NANOSECONDS);
        } catch (InterruptedException never) {
            throw new IllegalStateException(never);
        }
    }

    synchronized void write(String line) {
        check();
        try {
            into.write(line);
            into.write('\n');
            into.flush();
        } catch (IOException closed) {
            if (Thread.currentThread() == reader) {
                return;     // it reads on, and comes to the reason
            }
            awaitBreakdown();
            check();
            throw new PortEnded("the port has closed its input", !answered);
        }
    }

    /** Gives the threads that it has by now processors of their own. */
    void spreadThreads() {
        spread.spread();
    }

    /** How many threads were named. */
    int countThreads() {
        return threads.size();
    }

    /** Tells lists of calls, or begins them; what the port tells of them goes to {@code told}. */
    synchronized void writeLists(List<String> lines, BlockingQueue<PortLine> told) {
        ofLists = told;
        write(String.join("\n", lines));
    }

    /** Who can't write to it any more waits until the reader says why, which takes longer where the machine is busy. */
    private void awaitBreakdown() {
        long begun = System.nanoTime();
        while (breakdown == null && System.nanoTime() - begun < (process.isAlive() ? LONGEST_START : LONGEST_END)) {
            LockSupport.parkNanos(LOOK);
        }
    }

    /** Throws where the port has ended, has written what no port writes, or was warned of by a race detector. */
    void check() {
        if (breakdown == null && errors.warning() != null) {
            breakdown = new RaceWarning(errors.warning());
        }
        if (breakdown != null) {
            LivingPorts.check();
            throw breakdown;
        }
    }

    /** Throws where a race detector has warned until now: whatever it wrote before the last answer is read. */
    void checkWarnings() {
        errors.read();
        check();
    }

    /** What can be seen of a port that owes an answer: what it wrote last, and whether it runs. */
    String state() {
        String wrote = lastLine == null ? "it has written nothing" : "its last line is `" + Excerpt.of(lastLine) + "`";
        String flushed = from.unfinished().isEmpty() && !allAnswered() ? "; is each line flushed?" : "";
        return from.unfinished() + " (" + wrote + ", and it " + (tasks().areAtRest() ? "stands still" : "runs") + flushed + ")";
    }

    /** Whether both of its sides have answered once: who makes objects, and the threads. */
    private boolean allAnswered() {
        return answered && answeredByThreads;
    }

    void kill() {
        LivingPorts.kill(process);
    }

    /** The states of its threads, a line for each of its processes. */
    List<String> states() {
        return new Tasks(process).states();
    }

    /** It isn't killed, unless one was left before; says so, or answers null. */
    String leave() {
        return LivingPorts.leave(process) ? "this port is left for an hour, to a debugger: process "
            + new Tasks(process).largest() + "; kill it when you have looked" : null;
    }

    private void read() {
        breakdown = readToTheEnd();
        replies.add(new Reply(null));
    }

    /** Takes lines as long as they come; answers why no more do. */
    private Breakdown readToTheEnd() {
        try {
            for (String line = from.next(); line != null; line = from.next()) {
                lastLine = line.startsWith(Stage.LOOKER + " ") ? lastLine : line;
                take(PortLine.of(line));
            }
            return end(howItEnded() + from.unfinished());
        } catch (IOException closed) {
            return end(howItEnded());
        } catch (Breakdown down) {
            return down;
        }
    }

    /** Many a race detector ends the port behind its warning. */
    private Breakdown end(String how) {
        String warning = errors.lastWarning();
        return warning != null ? new RaceWarning(warning) : new PortEnded(how, !answered);
    }

    private void take(PortLine said) {
        if (said.ofObjects()) {
            if (!asked) {
                throw said.fault("no command for objects wants an answer now");
            }
            asked = false;
            answered = true;
            replies.add(new Reply(said));
            return;
        }
        BlockingQueue<PortLine> lists = ofLists;
        if (lists != null && said.ofList()) {
            lists.add(said);
            return;
        }
        PortThread thread = threads.get(said.thread());
        if (thread == null) {
            throw said.fault("thread " + said.thread() + " was never named");
        }
        answeredByThreads = true;
        thread.take(said);
    }

    private String howItEnded() {
        try {
            if (!process.waitFor(1, TimeUnit.SECONDS)) {
                return "the port has closed its output";
            }
            if (ExitStatus.isForAll(process.exitValue())) {
                Thread.sleep(MILLISECONDS_OF_A_SIGNAL);
            }
        } catch (InterruptedException never) {
            throw new IllegalStateException(never);
        }
        return "the port has ended" + (answered ? ", " : " before its first answer, ") + ExitStatus.words(process.exitValue());
    }
}
