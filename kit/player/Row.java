package kit.player;

/** A row of a program: its word, and its operands as numbers. */
record Row(Operation operation, int... operands) {
    Method method() {
        return operation.method;
    }

    int operand(int place) {
        return operands[place];
    }

    /** The phaser or barrier that it names; -1 where it names none. */
    int object() {
        return switch (operation) {
            case PFORCE, CRESET -> operands[0];
            case INTRD -> -1;
            default -> operands[1];
        };
    }

    /** Its number, with these registers: how many parties, or which phase. */
    int number(int[] registers) {
        return method().numbered() ? registers[operands[2]] : 0;
    }

    /** Its time, with these registers. */
    int time(int[] registers) {
        return registers[operands[method() == Method.AWAIT_FOR ? 2 : 3]];
    }
}
