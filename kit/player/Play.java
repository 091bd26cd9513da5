package kit.player;

import java.util.List;

/** One play of a program under a schedule, choice by choice. */
final class Play {
    private static final long LONGEST_CLEARING = 1_000_000_000L;
    private static final int ROUNDS_BEFORE_INTERRUPTS = 2;

    final Scene scene;
    private final List<Choice> schedule;
    private final Caller caller;
    private final Waiter waiter;
    private final StringBuilder trace = new StringBuilder();
    private int effectiveSteps;
    private Breakdown breakdown;
    private boolean stopsAtOdd;
    private KnownDifferences.Excused asTheJdk;

    Play(Scene scene, List<Choice> schedule) {
        this.scene = scene;
        this.schedule = schedule;
        caller = new Caller(scene);
        waiter = new Waiter(scene, caller);
    }

    /** It goes no further where something odd happens. */
    Play stopAtOdd() {
        stopsAtOdd = true;
        return this;
    }

    /** The trace; where the real side hangs it stops there. */
    String play() {
        try {
            scene.build();
            for (Choice choice : schedule) {
                if (choice.thread() >= scene.threads.size()) {
                    trace.append(head(choice)).append("- none\n");
                    break;
                }
                playChoice(choice);
                if (stopsAtOdd && scene.notes.firstOdd() > 0) {
                    return trace.toString();
                }
            }
            if (scene.first) {
                scene.holds.finish(scene.plan);
            } else {
                trace.append(new StateText(scene, waiter).write(effectiveSteps));
            }
        } catch (Breakdown down) {
            breakDown(down);
        } catch (AsTheJdk same) {
            asTheJdk = same.call;
        }
        return trace.toString();
    }

    /** The call with which the real side did as the JDK, so that the play ended there; else null. */
    KnownDifferences.Excused asTheJdk() {
        return asTheJdk;
    }

    private void breakDown(Breakdown down) {
        breakdown = down;
        scene.odd(down.getMessage());
    }

    /** Why the real side couldn't go on; null where it could. */
    Breakdown breakdown() {
        return breakdown;
    }

    private String head(Choice choice) {
        return (scene.step() + 1) + (choice.expiry() ? " x" : " t") + choice.thread() + " ";
    }

    private void playChoice(Choice choice) {
        ProgramThread thread = scene.threads.get(choice.thread());
        int row = thread.row;
        scene.beginChoice(thread);
        String what = choose(thread, choice.expiry());
        if (!what.equals("idle")) {
            effectiveSteps++;
            scene.followTimes();
            if (scene.reached()) {
                scene.followViews();
                waiter.followReleases();
            }
        }
        trace.append(head(choice)).append(row).append(' ').append(what);
        if (scene.mark() != null) {
            trace.append(' ').append(scene.mark());
        }
        trace.append('\n');
        scene.nextStep();
    }

    private String choose(ProgramThread thread, boolean expiry) {
        if (expiry) {
            return waiter.canExpire(thread) ? waiter.expire(thread) : "idle";
        }
        return switch (thread.status) {
            case ENDED, DIED -> "idle";
            case THROWS -> popThrowing(thread);
            case WAITS -> waiter.turn(thread);
            case RUNS -> thread.pending != null ? waiter.heldTurn(thread) : playRow(thread);
        };
    }

    private String playRow(ProgramThread thread) {
        Row row = scene.program.rows.get(thread.row);
        String plain = thread.playPlain(row, scene.cells);
        if (plain != null) {
            scene.reachesNothing();
            return plain;
        }
        return switch (row.operation()) {
            case RET -> caller.endRoutine(thread, false, thread.registers[0]);
            case INTR -> {
                waiter.interrupt(scene.threads.get(row.operand(0)));
                yield thread.ok();
            }
            default -> caller.call(thread, row);
        };
    }

    private String popThrowing(ProgramThread thread) {
        String popped = thread.popThrowing();
        if (popped != null) {
            scene.reachesNothing();
            return popped;
        }
        return caller.endRoutine(thread, true, thread.code);
    }

    /**
     * Lets all real threads out of their calls, and clears their interrupted statuses. Where the real side breaks down, has warned
     * of a race, or somebody stays inside it is abandoned; that somebody stays tells nothing of the case.
     */
    void clear() {
        if (breakdown != null) {
            scene.stage.abandon();
            return;
        }
        try {
            leaveAll();
            clearStatuses();
            scene.stage.checkWarnings();
        } catch (Hangs stays) {
            scene.stage.abandon();
        } catch (Breakdown down) {
            breakDown(down);
            scene.stage.abandon();
        }
    }

    private void leaveAll() {
        long limit = System.nanoTime() + LONGEST_CLEARING;
        for (int round = 0; !allOut(round > ROUNDS_BEFORE_INTERRUPTS); round++) {
            forceAll();
            if (System.nanoTime() > limit) {
                throw new Hangs("somebody stays inside");
            }
            Thread.yield();
        }
    }

    private boolean allOut(boolean interrupting) {
        boolean all = true;
        for (ProgramThread thread : scene.threads) {
            RealThread real = scene.real(thread);
            if (!real.isOut()) {
                all = false;
                if (interrupting) {
                    real.interrupt();
                }
            }
        }
        return all;
    }

    private void forceAll() {
        for (int phaser = 0; phaser < scene.program.phasers.size(); phaser++) {
            if (scene.root(phaser) == phaser) {
                await(scene.stage.thread(Stage.LOOKER), Request.of(Method.FORCE_TERMINATION, phaser));
            }
        }
    }

    private void clearStatuses() {
        for (ProgramThread thread : scene.threads) {
            await(scene.real(thread), Request.of(Method.INTERRUPTED, 0));
        }
    }

    private static void await(RealThread thread, Request request) {
        if (!thread.done(thread.tell(request), LONGEST_CLEARING)) {
            throw new Hangs(request.words());
        }
    }
}
