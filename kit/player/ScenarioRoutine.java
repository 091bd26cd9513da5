package kit.player;

/**
 * What ends a phase or runs at a trip in a scenario. {@code script} is its number among the scripts of routines and actions, -1
 * for a policy that is built in; {@code from} is the phase from which on it does what its kind says; {@code extraTurns} are
 * those of the rows before that.
 */
record ScenarioRoutine(int script, Kind kind, int from, int extraTurns) {
    enum Kind { DEFAULT, UNTIL, THROWS, FORCES, RETURNS }

    boolean changes(int phase) {
        return phase >= from;
    }

    boolean isBuiltIn() {
        return script < 0;
    }
}
