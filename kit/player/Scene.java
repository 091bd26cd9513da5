package kit.player;

import java.util.ArrayList;
import java.util.List;

/** What the parts of one play share: the program's threads, and its objects as far as the player has to follow them. */
final class Scene {
    private static final int MOST_PARTIES = 65535;

    final Program program;
    final Stage stage;
    final Plan plan;
    final Patience patience;
    final KnownDifferences known;
    /** Whether this is the first play of the two, the one that looks and learns. */
    final boolean first;
    final Notes notes = new Notes();
    final Holds holds = new Holds();
    final List<ProgramThread> threads = new ArrayList<>();
    final int[] cells = new int[32];

    private final Settling settling;
    private final int[] root;
    /** The view of each root as it was after the last choice. */
    private final int[] view;
    private final boolean[] routineRuns;
    /** How often each barrier's generation has ended. */
    private final int[] generation;
    /** Who runs each barrier's action, or null. */
    private final ProgramThread[] runner;
    private int step;
    private String mark;
    private boolean reached;
    private boolean early;
    /** Whose choice is played. */
    private volatile ProgramThread chooser;

    Scene(Program program, Stage stage, Plan plan, Patience patience, KnownDifferences known, boolean first) {
        this.program = program;
        this.stage = stage;
        this.plan = plan;
        this.patience = patience;
        this.known = known;
        this.first = first;
        settling = new Settling(stage, patience);
        int phasers = program.phasers.size();
        root = new int[phasers];
        view = new int[phasers];
        routineRuns = new boolean[phasers];
        generation = new int[program.barriers.size()];
        runner = new ProgramThread[program.barriers.size()];
        for (int thread = 0; thread < program.threads.size(); thread++) {
            threads.add(new ProgramThread(thread, program.threads.get(thread)));
        }
    }

    /** Makes the real objects. */
    void build() {
        stage.begin(patience);
        notes.transcript.makes("case");
        for (int phaser = 0; phaser < root.length; phaser++) {
            Program.PhaserDeclaration declared = program.phasers.get(phaser);
            root[phaser] = program.root(phaser);
            Stage.Advance advance = advance(phaser, declared.policy());
            stage.phaser(phaser, declared.parent(), declared.parties(), declared.firstPhase(), advance);
            notes.transcript.makes(Stage.phaserWords(
                phaser, declared.parent(), declared.parties(), declared.firstPhase(), advance != null));
        }
        for (int barrier = 0; barrier < runner.length; barrier++) {
            Program.BarrierDeclaration declared = program.barriers.get(barrier);
            stage.barrier(barrier, declared.parties(), declared.action() >= 0);
            notes.transcript.makes(Stage.barrierWords(barrier, declared.parties(), declared.action() >= 0));
        }
        for (int phaser = 0; phaser < root.length; phaser++) {
            view[phaser] = look(Method.GET_PHASE, root[phaser]);
        }
        settling.roundTrip();
    }

    private Stage.Advance advance(int phaser, Policy policy) {
        if (policy.kind() == Policy.Kind.DEFAULT) {
            return null;
        }
        return (phase, parties) -> {
            if (root[phaser] != phaser) {
                odd("onAdvance of p" + phaser + " is asked, and it is a child");
            }
            Boolean decided = policy.decide(phase, parties);
            if (decided != null) {
                notes.transcript.hears(chooser.number + " enter " + Entered.onAdvance(phaser, phase, parties).line());
                notes.transcript.says("answer " + chooser.number + (decided ? " 1" : " 0"));
            }
            return decided;
        };
    }

    int root(int phaser) {
        return root[phaser];
    }

    RealThread real(ProgramThread thread) {
        return stage.thread(thread.number);
    }

    /** Tells the thread to make a call; in the transcript a timed one has the given time. */
    Call tell(ProgramThread thread, Request request, long transcribedTime) {
        Request transcribed = new Request(request.method(), request.object(), request.number(), transcribedTime);
        notes.transcript.says("call " + thread.number + " " + transcribed.words());
        return real(thread).tell(request);
    }

    /** Ends the routine or action in which the thread stands. */
    void end(ProgramThread thread, boolean throwing, int number) {
        notes.transcript.says((throwing ? "throw " : "answer ") + thread.number + " " + number);
        if (throwing) {
            real(thread).fail(number);
        } else {
            real(thread).answer(number);
        }
    }

    void interrupt(ProgramThread thread) {
        notes.transcript.says("interrupt " + thread.number);
        real(thread).interrupt();
    }

    /** What this call of the thread has come to, once it is done, enters, or is blocked. */
    RealThread.Outcome settle(ProgramThread thread, Call call) {
        RealThread.Outcome outcome = settling.settle(real(thread), call);
        notes.spins |= settling.spins();
        return seen(thread, call, outcome);
    }

    /** The same of a call that never waits. */
    RealThread.Outcome comeBack(ProgramThread thread, Call call) {
        return seen(thread, call, settling.comeBack(real(thread), call));
    }

    private RealThread.Outcome seen(ProgramThread thread, Call call, RealThread.Outcome outcome) {
        if (outcome == RealThread.Outcome.BLOCKED) {
            notes.transcript.stands();
        } else {
            notes.transcript.saw(thread.number, call);
        }
        return outcome;
    }

    /** Whether a call that has to end does, in so much time; a real side that isn't at rest gets some times as long. */
    boolean ends(RealThread thread, Call call, long nanoseconds) {
        boolean done = thread.done(call, nanoseconds);
        for (int time = 1; !done && time < RealThread.TIMES_FOR_THE_BUSY && !thread.staysAtRest(); time++) {
            done = thread.done(call, nanoseconds);
        }
        return done || call.done();
    }

    /** How long the real side has taken of late to answer a question. */
    long roundTrip() {
        return settling.lately();
    }

    /** The choice that is played, from 0. */
    int step() {
        return step;
    }

    void nextStep() {
        step++;
    }

    /** The mark of this choice, or null. */
    String mark() {
        return mark;
    }

    /** A choice begins. Until it is told that the choice has nothing to do with the real side, something may change there. */
    void beginChoice(ProgramThread thread) {
        chooser = thread;
        mark = null;
        reached = true;
    }

    void reachesNothing() {
        reached = false;
    }

    boolean reached() {
        return reached;
    }

    /** The view of a root as it was after the last choice. */
    int view(int root) {
        return view[root];
    }

    /** How often the generation of a barrier has ended. */
    int generation(int barrier) {
        return generation[barrier];
    }

    /** Who runs the action of a barrier, or null. */
    ProgramThread runner(int barrier) {
        return runner[barrier];
    }

    void actionBegins(int barrier, ProgramThread thread) {
        runner[barrier] = thread;
    }

    void actionEnds(int barrier) {
        runner[barrier] = null;
        holds.freed(Holds.Cause.action(barrier), step);
    }

    void note(Notes.Kind kind, String what) {
        notes.add(kind, step + 1, what);
    }

    void odd(String what) {
        note(Notes.Kind.ODD, what);
    }

    /**
     * A call that has to end doesn't, after all this time. It is stuck if nothing of the real side runs any more, and no slow
     * machine explains it: a call that was taken to wait before it had begun may have begun too late to be released.
     */
    void stuck(RealThread thread, String what) {
        boolean stuck = notes.count(Notes.Kind.STUCK) > 0 || !mayBeSlow() && thread.staysAtRest();
        note(stuck ? Notes.Kind.STUCK : Notes.Kind.ODD, what + thread.state());
    }

    /** Whether a slow machine may explain what came: a time was over too soon, or a wait isn't surely one. */
    boolean mayBeSlow() {
        return early || settling.isUnsure();
    }

    /** After a choice: whether the time of a wait is over that the schedule lets run out later. */
    void followTimes() {
        early |= threads.stream().anyMatch(each -> each.pending != null && each.pending.expiredByItself());
    }

    /** Asks an object, by the player's own thread. */
    int look(Method method, int object) {
        return ask(Stage.LOOKER, Request.of(method, object));
    }

    /** Asks a real thread, which is free, for something that has a value and never waits. */
    int ask(int number, Request request) {
        RealThread thread = stage.thread(number);
        Call call = thread.tell(request);
        if (!ends(thread, call, patience.bound())) {
            String what = "the call " + request.words() + " doesn't answer";
            stuck(thread, what);
            throw new Hangs(what + thread.state());
        }
        if (call.answer().kind() != Answer.Kind.VALUE) {
            throw new ProtocolFault("the call " + request.words() + " has a value, and " + call.answer().told());
        }
        return call.answer().number();
    }

    int registered(int phaser) {
        return look(Method.GET_REGISTERED_PARTIES, phaser);
    }

    int unarrived(int phaser) {
        return look(Method.GET_UNARRIVED_PARTIES, phaser);
    }

    /** Whether another thread runs this barrier's action. */
    boolean lockedOut(ProgramThread thread, int barrier) {
        return runner[barrier] != null && runner[barrier] != thread;
    }

    void routineBegins(int phaser) {
        routineRuns[phaser] = true;
    }

    /** A barrier's generation has ended: it tripped. */
    void tripped(int barrier) {
        mark = "+b" + barrier;
        generation[barrier]++;
    }

    /** A barrier's generation has ended as broken. */
    void broken(int barrier) {
        mark = "-b" + barrier;
        generation[barrier]++;
    }

    /** After a choice that reached the real side: looks at all roots. */
    void followViews() {
        for (int phaser = 0; phaser < root.length; phaser++) {
            if (root[phaser] == phaser) {
                followView(phaser);
            }
        }
    }

    private void followView(int phaser) {
        int now = look(Method.GET_PHASE, phaser);
        if (now == view[phaser]) {
            return;
        }
        if (mark != null) {
            odd("two marks at once: " + mark);
        }
        mark = "+p" + phaser + " " + now;
        view[phaser] = now;
        routineRuns[phaser] = false;
        holds.freed(Holds.Cause.tree(phaser), step);
    }

    // What Vuthgal's rules ask before a registration or an arrival. Only the first play asks: a look brings a child that
    // lags behind its root up to date, and the second play is to show whether somebody notices.

    /** Whether the registration would be held: a phaser that it would change is about to end its phase. */
    boolean held(ProgramThread thread, Row row) {
        int phaser = row.object();
        int parties = row.method() == Method.REGISTER ? 1 : row.number(thread.registers);
        if (parties <= 0 || view[root[phaser]] < 0 || thread.inRoutineOf(root[phaser]) || tooMany(phaser, parties)) {
            return false;
        }
        for (int at = phaser; at >= 0; at = program.parent(at)) {
            int registered = registered(at);
            if (routineRuns[at] || registered > 0 && unarrived(at) == 0) {
                return true;
            }
            if (registered > 0) {
                return false;
            }
        }
        return false;
    }

    private boolean tooMany(int phaser, int parties) {
        long more = parties;
        for (int at = phaser; at >= 0; at = program.parent(at)) {
            int registered = registered(at);
            if (registered + more > MOST_PARTIES) {
                return true;
            }
            if (registered > 0) {
                return false;
            }
            more = 1;
        }
        return false;
    }
}
