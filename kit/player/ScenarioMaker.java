package kit.player;

import java.util.ArrayList;
import java.util.Collections;
import java.util.List;
import java.util.function.Supplier;

/**
 * Writes a random scenario, call by call: the rows of each thread, and with them the schedule. Some threads wait, one drives
 * and never waits, one looks at getters. Each call is guarded, so that a thread outlives what it meets.
 */
final class ScenarioMaker {
    final Sketch sketch = new Sketch();
    /** The scripts of routines and actions. */
    final List<Script> inner = new ArrayList<>();
    /** The lines of phasers and barriers; {@code @N} stands for the row at which script N of these begins. */
    final List<String> declarations = new ArrayList<>();
    /** Whether threads may arrive in the place of others. */
    final boolean strays;

    private final long seed;
    private final Chances chances;
    private final PhaserCalls phaserCalls;
    private final BarrierCalls barrierCalls;
    private final List<ScenarioThread> workers = new ArrayList<>();
    private final StringBuilder schedule = new StringBuilder();
    private final boolean watchedClosely;
    private final boolean interrupts;
    private final boolean barriersAlone;
    private ScenarioThread driver;
    private ScenarioThread watcher;

    ScenarioMaker(long seed) {
        this.seed = seed;
        chances = new Chances(seed);
        phaserCalls = new PhaserCalls(this, chances);
        barrierCalls = new BarrierCalls(this, chances);
        strays = chances.of(12);
        watchedClosely = chances.of(50);
        interrupts = chances.of(60);
        barriersAlone = chances.of(10);
    }

    /** Whether this is the thread that never waits. */
    boolean isDriver(ScenarioThread part) {
        return part == driver;
    }

    Scenario make() {
        if (!barriersAlone) {
            phaserCalls.declare();
        }
        barrierCalls.declare(barriersAlone || chances.of(55) ? chances.between(1, 2) : 0);
        int threads = chances.between(2, 5);
        for (int number = 0; number < threads; number++) {
            workers.add(new ScenarioThread(number));
        }
        driver = new ScenarioThread(threads);
        watcher = new ScenarioThread(threads + 1);
        int calls = chances.between(15, 60);
        for (int call = 0; call < calls; call++) {
            makeCall();
            look();
            if (allTerminated() && chances.of(20)) {
                break;
            }
        }
        for (ScenarioThread part : parts()) {
            finishInside(part);
        }
        workers.stream().filter(part -> part.late).forEach(this::goOn);
        String text = new ScenarioText(threadScripts(), inner, declarations).write();
        return new Scenario("random-" + seed, text, schedule.toString().strip() + "\n");
    }

    private boolean allTerminated() {
        return sketch.tiers.stream().allMatch(tier -> tier.root().terminated) && sketch.gates.isEmpty();
    }

    private List<ScenarioThread> parts() {
        List<ScenarioThread> all = new ArrayList<>(workers);
        all.add(driver);
        return all;
    }

    /** Writes so many turns of a thread. */
    void turns(ScenarioThread part, int count) {
        if (count > 0) {
            schedule.append('t').append(part.number).append(count > 1 ? "*" + count : "").append(' ');
        }
    }

    /** Writes a guarded call and plays it. */
    void perform(ScenarioThread part, int number, int time, String call, Supplier<ScenarioThread.Outcome> effect) {
        int before = part.script.size();
        if (call.contains("r1")) {
            part.script.row("ldi r1 " + number);
        }
        if (call.contains("r2")) {
            part.script.row("ldi r2 " + time);
        }
        part.script.guarded(call);
        turns(part, part.script.size() - before - 1);
        follow(part, effect);
    }

    private void follow(ScenarioThread part, Supplier<ScenarioThread.Outcome> effect) {
        switch (effect.get()) {
            case DONE -> turns(part, 1);
            case HELD -> part.held = effect;
            case ENTERS -> {
                if (chances.of(55)) {
                    finishInside(part);
                } else {
                    int now = chances.random.nextInt(part.turnsInside);
                    turns(part, now);
                    part.turnsInside -= now;
                }
            }
            case WAITS -> {
            }
        }
    }

    private void finishInside(ScenarioThread part) {
        if (part.end == null) {
            return;
        }
        turns(part, part.turnsInside);
        Runnable end = part.end;
        part.end = null;
        end.run();
        turns(part, 1);
    }

    /** All who are released come out, most of them at once; those that were held go on first. */
    void release(Object cause) {
        List<ScenarioThread> out = new ArrayList<>(parts());
        out.removeIf(part -> part.tree != cause && part.gate != cause);
        out.forEach(ScenarioThread::stopWaiting);
        for (ScenarioThread part : parts()) {
            if (part.held != null && part.heldBy == cause) {
                Supplier<ScenarioThread.Outcome> again = part.held;
                part.held = null;
                turns(part, 1);
                follow(part, again);
            }
        }
        Collections.shuffle(out, chances.random);
        for (ScenarioThread part : out) {
            part.late = chances.of(12);
            if (!part.late) {
                turns(part, 2);
            }
        }
    }

    private void goOn(ScenarioThread part) {
        part.late = false;
        turns(part, 2);
    }

    private void makeCall() {
        List<ScenarioThread> inside = parts().stream().filter(part -> part.end != null).toList();
        if (!inside.isEmpty() && chances.of(40)) {
            finishInside(chances.any(inside));
            return;
        }
        List<ScenarioThread> late = workers.stream().filter(part -> part.late).toList();
        if (!late.isEmpty() && chances.of(50)) {
            goOn(chances.any(late));
            return;
        }
        List<ScenarioThread> waiting = parts().stream().filter(ScenarioThread::waits).toList();
        if (!waiting.isEmpty() && chances.of(8)) {
            expire(waiting);
            return;
        }
        if (interrupts && chances.of(9) && driver.isFree()) {
            interrupt(waiting);
            return;
        }
        List<ScenarioThread> free = workers.stream().filter(ScenarioThread::isFree).toList();
        ScenarioThread part = free.isEmpty() || chances.of(25) ? driver : chances.any(free);
        if (!part.isFree()) {
            return;
        }
        if (turnsToBarriers()) {
            barrierCalls.call(part, chances.any(sketch.gates));
        } else {
            phaserCalls.call(part);
        }
    }

    private boolean turnsToBarriers() {
        return barriersAlone || !sketch.gates.isEmpty() && chances.of(35);
    }

    private void expire(List<ScenarioThread> waiting) {
        for (ScenarioThread part : waiting) {
            if (part.timed) {
                schedule.append('x').append(part.number).append(' ');
                leaveEarly(part);
                return;
            }
        }
    }

    /** It comes out by an exception, which breaks a barrier. */
    private void leaveEarly(ScenarioThread part) {
        Sketch.Gate gate = part.gate;
        part.stopWaiting();
        turns(part, 1);
        if (gate != null) {
            barrierCalls.breakGate(gate);
        }
    }

    private void interrupt(List<ScenarioThread> waiting) {
        if (chances.of(15)) {
            driver.script.row("intrd r4");
            turns(driver, 1);
            driver.interrupted = false;
            return;
        }
        ScenarioThread aim = !waiting.isEmpty() && chances.of(80) ? chances.any(waiting) : chances.any(workers);
        driver.script.row("intr #" + aim.number);
        turns(driver, 1);
        if (aim.waits() && aim.interruptible && (aim.gate == null || !aim.gate.actionRuns)) {
            turns(aim, 1);
            leaveEarly(aim);
        } else {
            aim.interrupted = true;
        }
    }

    /** The watcher reads getters: after each call in half of the scenarios, now and then in the others. */
    private void look() {
        int looks = watchedClosely ? chances.between(1, 3) : chances.of(8) ? 1 : 0;
        for (int look = 0; look < looks; look++) {
            if (turnsToBarriers()) {
                Sketch.Gate at = chances.any(sketch.gates);
                if (at.actionRuns) {
                    continue;
                }
                watcher.script.row(chances.any(List.of("cbroken", "cwaiting", "cparties")) + " r0 #" + at.number);
            } else {
                watcher.script.row(chances.any(List.of("pphase", "pparties", "parrived", "punarr", "pterm", "pparent", "proot")) + " r0 #"
                    + chances.any(sketch.tiers).number);
            }
            turns(watcher, 1);
        }
    }

    private List<Script> threadScripts() {
        List<Script> scripts = new ArrayList<>();
        parts().forEach(part -> scripts.add(part.script));
        scripts.add(watcher.script);
        return scripts;
    }
}
