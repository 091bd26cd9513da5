package kit.player;

/** What came of playing a case. {@code before} is what the tries before came to. */
record Verdict(Kind kind, int line, String trace, Notes notes, Plan plan, Breakdown breakdown, int tries, String before,
        String why, Flaw flaw) {
    enum Kind {
        /** Byte for byte Vuthgal's trace, and nothing odd happened. */
        SAME,
        /** It differs in a line, or something odd happened at that choice. */
        DIFFERS,
        /** The same at last, and in a try before it a call that has to end didn't. */
        STUCK,
        /** The same at last, and a try before it had a wrong value. */
        UNSTEADY,
        /** The real side can't make the objects. */
        LEFT_OUT
    }

    /** What a try shows that no slow machine explains, and in which line. */
    record Flaw(Kind kind, int line) {
        /** The graver of two, each of which may be null. */
        static Flaw graver(Flaw earlier, Flaw later) {
            return earlier == null || later != null && later.kind == Kind.STUCK && earlier.kind != Kind.STUCK ? later : earlier;
        }
    }

    static Verdict leftOut(String why) {
        return new Verdict(Kind.LEFT_OUT, 0, "", new Notes(), new Plan(), null, 1, "", why, null);
    }

    boolean isSame() {
        return kind == Kind.SAME;
    }

    boolean differs() {
        return kind == Kind.DIFFERS;
    }

    /** Whether it tells a fault of the real side. */
    boolean fails() {
        return differs() || kind == Kind.STUCK || kind == Kind.UNSTEADY;
    }

    /** Whether a try with more patience may come to something else. */
    boolean mayBeSlowness() {
        return differs() && (breakdown == null || breakdown.mayBeSlowness() && tries == 1);
    }

    /** Whether a run of such verdicts has no end in sight. */
    boolean isEndless() {
        return breakdown != null && breakdown.isEndless();
    }

    /** The verdict as it is told: {@code same}, {@code differs LINE}, or that the case was left out. */
    String words() {
        return switch (kind) {
            case SAME -> "same";
            case DIFFERS -> "differs " + line;
            case STUCK -> "stuck " + line;
            case UNSTEADY -> "unsteady " + line;
            case LEFT_OUT -> "left out: " + why;
        };
    }

    /** With what was odd. */
    String wordsWithOdd() {
        String odd = notes.firstOddWords();
        return words() + (odd.isEmpty() ? "" : ", " + odd);
    }

    /** How often it was played, and what came of that, where that was more than once; else empty. */
    String triesInWords() {
        return tries > 1 ? " (played " + tries + " times, each with more patience; before: " + before + ")" : "";
    }

    /** This one, with the try before it. What slowness doesn't explain there counts, whatever comes of the case now. */
    Verdict behind(Verdict earlier) {
        String odd = earlier.wordsWithOdd();
        String told = earlier.before.isEmpty() ? odd : earlier.before.equals(odd) ? odd + " (2 times)" : earlier.before + "; " + odd;
        Flaw graver = Flaw.graver(earlier.flaw, flaw);
        boolean counts = isSame() && graver != null;
        return new Verdict(counts ? graver.kind() : kind, counts ? graver.line() : line, trace, notes, plan, breakdown,
            earlier.tries + 1, told, why, graver);
    }
}
