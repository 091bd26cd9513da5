package kit.player;

/** Holds the model against Vuthgal: plays a case on it in lock-step, and compares the lines of the choices. */
final class ModelCheck {
    private final Stage stage = new ModelStage();

    /** Null where they are the same, else what differs. */
    String differs(Case each) {
        Scene scene = new Scene(each.program(), stage, new Plan(), stage.patience()[0], KnownDifferences.NONE, true);
        String trace = new Play(scene, each.schedule()).play();
        if (each.wanted().startsWith(trace) && scene.notes.firstOdd() == 0) {
            return null;
        }
        int line = each.firstDifference(trace);
        String there = trace.lines().skip(line - 1L).findFirst().orElse("nothing");
        return "the model plays " + there + " in line " + line + "; " + scene.notes.firstOddWords();
    }
}
