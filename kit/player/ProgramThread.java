package kit.player;

import java.util.ArrayList;
import java.util.List;

/** A thread of the program: registers, stack, row and output. It knows nothing of synchronizers. */
final class ProgramThread {
    enum Status { RUNS, THROWS, WAITS, ENDED, DIED }

    static final int STACK_FULL = 6;
    static final int BAD_RETURN = 7;
    static final int OUTPUT_FULL = 8;

    private static final int MOST_ENTRIES = 64;
    private static final int MOST_OUTPUT = 4096;
    private static final int CAUGHT = 7;

    final int number;
    int[] registers = new int[8];
    int row;
    Status status = Status.RUNS;
    /** The exception that it throws, or died of. */
    int code;
    /** Its interrupted status, as the rules have it. */
    boolean interrupted;
    /** The call that it is inside of; null where its real thread is free. */
    Pending pending;
    /** How many timed calls it has made. */
    int timedCalls;

    private final List<StackEntry> stack = new ArrayList<>();
    private final List<Integer> output = new ArrayList<>();

    ProgramThread(int number, int row) {
        this.number = number;
        this.row = row;
    }

    boolean over() {
        return status == Status.ENDED || status == Status.DIED;
    }

    boolean stackFull() {
        return stack.size() == MOST_ENTRIES;
    }

    /** The entry on top, or null. */
    StackEntry top() {
        return stack.isEmpty() ? null : stack.get(stack.size() - 1);
    }

    StackEntry pop() {
        return stack.remove(stack.size() - 1);
    }

    void push(StackEntry entry) {
        stack.add(entry);
    }

    boolean inRoutineOf(int root) {
        return stack.stream().anyMatch(entry -> entry.kind() == StackEntry.Kind.ROUTINE && entry.number() == root);
    }

    private boolean inRoutineOrAction() {
        return stack.stream().anyMatch(StackEntry::runs);
    }

    // What a row comes to, as the trace tells it.

    String fail(int exception) {
        status = Status.THROWS;
        code = exception;
        return "throw " + exception;
    }

    String put(int register, int value) {
        registers[register] = value;
        row++;
        return "= " + value;
    }

    String ok() {
        row++;
        return "ok";
    }

    /** Plays a row that names no synchronizer and no other thread; null where it isn't one of these. */
    String playPlain(Row at, int[] cells) {
        int[] operand = at.operands();
        return switch (at.operation()) {
            case HALT -> halt();
            case LDI -> put(operand[0], operand[1]);
            case MOV -> put(operand[0], registers[operand[1]]);
            case ADD -> put(operand[0], registers[operand[1]] + registers[operand[2]]);
            case SUB -> put(operand[0], registers[operand[1]] - registers[operand[2]]);
            case JMP -> jump(true, operand[0]);
            case BEQ -> jump(registers[operand[0]] == registers[operand[1]], operand[2]);
            case BNE -> jump(registers[operand[0]] != registers[operand[1]], operand[2]);
            case BLT -> jump(registers[operand[0]] < registers[operand[1]], operand[2]);
            case CALL -> call(operand[0]);
            case RET -> returnFromCall();
            case TRY -> pushHandler(operand[0]);
            case ENDTRY -> popHandler();
            case THROW -> fail(registers[operand[0]]);
            case OUT -> putOut(registers[operand[0]]);
            case LDS -> put(operand[0], cells[operand[1]]);
            case STS -> {
                cells[operand[1]] = registers[operand[0]];
                yield ok();
            }
            case SELF -> put(operand[0], number);
            default -> null;
        };
    }

    private String halt() {
        if (inRoutineOrAction()) {
            return fail(BAD_RETURN);
        }
        status = Status.ENDED;
        return "end";
    }

    private String jump(boolean taken, int target) {
        row = taken ? target : row + 1;
        return "ok";
    }

    private String call(int target) {
        if (stackFull()) {
            return fail(STACK_FULL);
        }
        push(new StackEntry(StackEntry.Kind.CALL, row + 1));
        row = target;
        return "ok";
    }

    /** Null where the row ends a routine or an action. */
    private String returnFromCall() {
        StackEntry top = top();
        if (top == null || top.kind() == StackEntry.Kind.HANDLER) {
            return fail(BAD_RETURN);
        }
        if (top.runs()) {
            return null;
        }
        row = pop().number();
        return "ok";
    }

    private String pushHandler(int target) {
        if (stackFull()) {
            return fail(STACK_FULL);
        }
        push(new StackEntry(StackEntry.Kind.HANDLER, target));
        return ok();
    }

    private String popHandler() {
        if (top() == null || top().kind() != StackEntry.Kind.HANDLER) {
            return fail(BAD_RETURN);
        }
        pop();
        return ok();
    }

    private String putOut(int value) {
        if (output.size() == MOST_OUTPUT) {
            return fail(OUTPUT_FULL);
        }
        output.add(value);
        row++;
        return "out " + value;
    }

    /** Pops one entry on the way to a handler; null where a routine or an action is on top. */
    String popThrowing() {
        StackEntry top = top();
        if (top == null) {
            status = Status.DIED;
            return "die " + code;
        }
        if (top.runs()) {
            return null;
        }
        pop();
        if (top.kind() == StackEntry.Kind.CALL) {
            return "unwind";
        }
        row = top.number();
        registers[CAUGHT] = code;
        status = Status.RUNS;
        return "catch " + code;
    }

    /** Its line of the state text, with the interrupted status that was seen. */
    String line(int interruptedStatus) {
        StringBuilder line = new StringBuilder();
        line.append('t').append(number).append(' ').append(row).append(' ');
        line.append(switch (status) {
            case RUNS -> "runs";
            case THROWS -> "throws:" + code;
            case WAITS -> "waits";
            case ENDED -> "ended";
            case DIED -> "died:" + code;
        });
        line.append(' ').append(interruptedStatus).append(" regs");
        for (int value : registers) {
            line.append(' ').append(value);
        }
        line.append(" stack");
        for (StackEntry entry : stack) {
            line.append(' ').append(entry.kind().letter).append(entry.number());
        }
        line.append(" out");
        for (int value : output) {
            line.append(' ').append(value);
        }
        return line.append('\n').toString();
    }
}
