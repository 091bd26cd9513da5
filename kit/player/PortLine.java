package kit.player;

import java.util.regex.Pattern;

/** A line that a port wrote, taken apart (kit/PROTOCOL.md, "Port protocol"). */
record PortLine(Kind kind, int thread, int[] numbers, String line) {
    enum Kind {
        /** A command for objects was carried out, or can't be, or its constructor threw. */
        OK, NO, REFUSED,
        /** A call has come to this. */
        VALUE, VOID, THROWN, THROUGH, FAULT,
        /** A call stands at the beginning of an onAdvance or an action. */
        ENTERS_ROUTINE, ENTERS_ACTION,
        /** Of a list of calls: one is made, has begun, or was the last. */
        DID, BEGAN, END
    }

    private static final int[] NONE = {};
    private static final Pattern NUMBER = Pattern.compile("-?[0-9]{1,10}");

    static PortLine of(String line) {
        String[] words = line.split(" ", -1);
        if (line.equals("ok")) {
            return new PortLine(Kind.OK, 0, NONE, line);
        }
        if (words[0].equals("no")) {
            return new PortLine(Kind.NO, 0, NONE, line);
        }
        if (words[0].equals("throw")) {
            return of(Kind.REFUSED, 0, line, words, 1, 1);
        }
        if (words.length < 2) {
            throw fault(line, "it is no answer");
        }
        int thread = number(line, words[0]);
        if (thread < 0 || thread > Stage.LOOKER) {
            throw fault(line, "threads have the numbers 0 to " + Stage.LOOKER);
        }
        return ofThread(line, thread, words);
    }

    /** The words as an answer of the same thread, which stand in this line. */
    PortLine ofThisThread(String words) {
        return ofThread(line, thread, (thread + " " + words).split(" ", -1));
    }

    private static PortLine ofThread(String line, int thread, String[] words) {
        return switch (words[1]) {
            case "=" -> of(Kind.VALUE, thread, line, words, 2, 1);
            case "ok" -> of(Kind.VOID, thread, line, words, 2, 0);
            case "throw" -> of(Kind.THROWN, thread, line, words, 2, 1);
            case "through" -> of(Kind.THROUGH, thread, line, words, 2, 1);
            case "fault" -> new PortLine(Kind.FAULT, thread, NONE, line);
            case "did" -> new PortLine(Kind.DID, thread, NONE, line);
            case "began" -> new PortLine(Kind.BEGAN, thread, NONE, line);
            case "end" -> of(Kind.END, thread, line, words, 2, 0);
            case "enter" -> switch (words.length > 2 ? words[2] : "") {
                case "phaser" -> of(Kind.ENTERS_ROUTINE, thread, line, words, 3, 3);
                case "barrier" -> of(Kind.ENTERS_ACTION, thread, line, words, 3, 1);
                default -> throw fault(line, "a thread enters a phaser's onAdvance or a barrier's action");
            };
            default -> throw fault(line, "no answer has the word `" + Excerpt.of(words[1]) + "` there");
        };
    }

    /** The numbers begin at word {@code first}, and are so many. */
    private static PortLine of(Kind kind, int thread, String line, String[] words, int first, int count) {
        if (words.length != first + count) {
            throw fault(line, countWords(count) + " to follow, behind one space each");
        }
        int[] numbers = new int[count];
        for (int at = 0; at < count; at++) {
            numbers[at] = number(line, words[first + at]);
        }
        return new PortLine(kind, thread, numbers, line);
    }

    private static String countWords(int count) {
        return count == 0 ? "no number has" : count == 1 ? "one number has" : count + " numbers have";
    }

    private static int number(String line, String word) {
        if (NUMBER.matcher(word).matches()) {
            long number = Long.parseLong(word);
            if (number == (int) number) {
                return (int) number;
            }
        }
        throw fault(line, "`" + Excerpt.of(word) + "` is no int");
    }

    private static ProtocolFault fault(String line, String why) {
        return new ProtocolFault("the port wrote `" + Excerpt.of(line) + "`: " + why);
    }

    /** This line has no place where it came, for this reason. */
    ProtocolFault fault(String why) {
        return fault(line, why);
    }

    /** Whether it answers a command for objects. */
    boolean ofObjects() {
        return kind == Kind.OK || kind == Kind.NO || kind == Kind.REFUSED;
    }

    /** Whether it tells of a list of calls, where the port plays lists. */
    boolean ofList() {
        return switch (kind) {
            case ENTERS_ROUTINE, ENTERS_ACTION, DID, BEGAN, END -> true;
            default -> false;
        };
    }

    /** Why the port can't do it. */
    String reason() {
        return line.length() > 3 ? line.substring(3) : "it gives no reason";
    }

    int number(int at) {
        return numbers[at];
    }
}
