package kit.player;

import java.util.function.Consumer;

/**
 * Loads the classes that a first blocking call loads: that time looks like a wait. What hangs here would hang wherever a case
 * needs it, so that is told at once.
 */
record WarmUp(String program, String schedule) {
    private static final WarmUp[] PARTS = {
        new WarmUp("""
            .phaser p0 2
            .phaser p1 1 onadvance #9
            .thread t0 #0
            .thread t1 #4
            paaa r0 #0
            pawaiti r0 #0 r0
            ldi r1 5
            pawaitt r0 #0 r0 r1
            paaa r0 #0
            parr r0 #0
            parr r0 #0
            parr r0 #1
            halt
            ldi r0 0
            ret
            """, "t0 t1 t0*2 t1*2 t0*3 x0 t0 t1*4"),
        new WarmUp("""
            .barrier b0 2
            .barrier b1 1 action #5
            .thread t0 #0
            .thread t1 #0
            cawait r0 #0
            cawait r0 #1
            ldi r1 5
            cawaitt r0 #0 r1
            halt
            ret
            """, "t0 t1 t0*5 x0 t0 t1*5"),
    };

    private static final int ROUNDS = 3;

    /** What hung before the first case; {@code counts} where that came and went, as no right real side's does. */
    record Word(String text, boolean counts) {
    }

    /** Plays what the real side can play, and tells what hangs. */
    static void play(Stage stage, Consumer<Word> tell, Patience... tries) {
        for (WarmUp part : PARTS) {
            if (!part.playAgainAndAgain(stage, tell, tries)) {
                return;
            }
        }
    }

    /** Whether the real side goes on, or can't make these objects. */
    private boolean playAgainAndAgain(Stage stage, Consumer<Word> tell, Patience... tries) {
        Patience patient = tries[Math.min(1, tries.length - 1)].withBound(tries[0].bound());
        try {
            for (int round = 0; round < ROUNDS; round++) {
                Play odd = playOnce(stage, round == 0 ? patient : tries[0]);
                if (odd != null) {
                    tell(odd, stage, tell, patient);
                    return false;
                }
            }
            return true;
        } catch (Unplayable goesWithoutThem) {
            return true;
        }
    }

    /** Tells what hung; what hung in a call of its own is tried again. */
    private void tell(Play odd, Stage stage, Consumer<Word> tell, Patience patient) {
        if (odd.breakdown() != null && !(odd.breakdown() instanceof Hangs)) {
            return;     // the first case tells it
        }
        tell.accept(new Word("before the first case: " + odd.scene.notes.firstOddWords(), false));
        boolean stuck = odd.breakdown() == null && odd.scene.notes.count(Notes.Kind.STUCK) > 0;
        if (stuck && playOnce(stage, patient) == null) {
            tell.accept(new Word("before the first case: not so when it was tried again", true));
        }
    }

    /** The play in which something odd happened, or null. */
    private Play playOnce(Stage stage, Patience patient) {
        Plan plan = new Plan();
        for (boolean first : new boolean[] {true, false}) {
            Scene scene = new Scene(new Program(program), stage, plan, patient, KnownDifferences.NONE, first);
            Play play = new Play(scene, Choice.schedule(schedule)).stopAtOdd();
            try {
                play.play();
            } finally {
                play.clear();
            }
            if (scene.notes.firstOdd() != 0) {
                return play;
            }
        }
        return null;
    }
}
