package kit.player;

import java.io.BufferedReader;
import java.io.IOException;
import java.io.InputStreamReader;
import java.nio.charset.StandardCharsets;
import java.util.Arrays;

/**
 * The JDK's classes as a port, which speaks the port protocol (kit/PROTOCOL.md): so {@code kit/run} plays on them the
 * transcripts that no program makes, of children made in the middle of a phase.
 */
public final class JdkPort {
    private static final int FIRST_OPERAND = 3;

    private final Stage stage = new JvmStage(new JdkFactory());

    /** Writes what becomes of a thread's calls. */
    private record Teller(int thread) implements CallWatcher {
        @Override
        public void entered(Call call, Entered where) {
            say(thread + " enter " + where.line());
        }

        @Override
        public void done(Call call) {
            say(thread + " " + call.answer().line());
        }
    }

    private static synchronized void say(String line) {
        System.out.println(line);
    }

    public static void main(String[] words) throws IOException {
        JdkPort port = new JdkPort();
        BufferedReader from = new BufferedReader(new InputStreamReader(System.in, StandardCharsets.US_ASCII));
        for (String line = from.readLine(); line != null; line = from.readLine()) {
            port.obey(line.split(" "));
        }
        System.exit(0);
    }

    private void obey(String[] words) {
        int number = words.length > 1 ? Integer.parseInt(words[1]) : 0;
        switch (words[0]) {
            case "call" -> stage.thread(number).tell(request(words), new Teller(number));
            case "answer" -> stage.thread(number).answer(Integer.parseInt(words[2]));
            case "throw" -> stage.thread(number).fail(Integer.parseInt(words[2]));
            case "interrupt" -> stage.thread(number).interrupt();
            default -> say(made(number, words));
        }
    }

    private String made(int number, String[] words) {
        try {
            make(number, words);
            return Answer.NOTHING.line();
        } catch (ProtocolFault refused) {
            return Answer.of(refused.getCause()).line();
        }
    }

    private void make(int number, String[] words) {
        switch (words[0]) {
            case "case" -> stage.begin(Patience.OF_JVM[0]);
            case "phaser" -> {
                Stage.Advance advance = words[5].equals("asked") ? (phase, parties) -> null : null;
                stage.phaser(number, Integer.parseInt(words[2]), Integer.parseInt(words[3]), Integer.parseInt(words[4]), advance);
            }
            case "barrier" -> stage.barrier(number, Integer.parseInt(words[2]), words[3].equals("asked"));
            default -> throw new IllegalArgumentException(words[0]);
        }
    }

    /** Behind the method stand its object, its number, and its time, as far as it has these. */
    private static Request request(String[] words) {
        long[] operands = new long[3];
        for (int at = FIRST_OPERAND; at < words.length; at++) {
            operands[at - FIRST_OPERAND] = Long.parseLong(words[at]);
        }
        Method method = Arrays.stream(Method.values())
            .filter(each -> each.word.equals(words[2]) && operandsOf(each) == words.length - FIRST_OPERAND).findFirst().orElseThrow();
        long time = method.timed() ? operands[words.length - FIRST_OPERAND - 1] : 0;
        return new Request(method, (int) operands[0], method.numbered() ? (int) operands[1] : 0, time);
    }

    private static int operandsOf(Method method) {
        boolean ofObject = method.ofPhaser() || method.ofBarrier();
        return (ofObject ? 1 : 0) + (method.numbered() ? 1 : 0) + (method.timed() ? 1 : 0);
    }
}
