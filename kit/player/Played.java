package kit.player;

/** A case with its verdict, and how long that took. */
record Played(Case each, Verdict verdict, long nanoseconds) {
    static Played of(Judge judge, Case each) {
        return of(judge, each, null);
    }

    /** By the plan of a verdict that was the same; where that is null it is learned. */
    static Played of(Judge judge, Case each, Plan taught) {
        long begun = System.nanoTime();
        Verdict verdict = judge.judge(each, taught);
        return new Played(each, verdict, System.nanoTime() - begun);
    }

    /** The verdict as a line tells it: with what was odd, and how often it was played. */
    String line() {
        return each.name() + " " + verdict.wordsWithOdd() + verdict.triesInWords();
    }
}
