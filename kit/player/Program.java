package kit.player;

import java.util.ArrayList;
import java.util.List;

/** A program, read from its canonical text, which {@code vuthgal list} writes: so nothing is checked here. */
final class Program {
    /** {@code parent} is -1 for a root. */
    record PhaserDeclaration(int parent, int parties, int firstPhase, Policy policy) {
    }

    /** {@code action} is the row of its action, -1 where it has none. */
    record BarrierDeclaration(int parties, int action) {
    }

    final List<PhaserDeclaration> phasers = new ArrayList<>();
    final List<BarrierDeclaration> barriers = new ArrayList<>();
    /** The row at which each thread begins. */
    final List<Integer> threads = new ArrayList<>();
    final List<Row> rows = new ArrayList<>();

    Program(String text) {
        for (String line : text.split("\n")) {
            if (!line.isEmpty()) {
                read(line.split(" "));
            }
        }
    }

    private void read(String[] words) {
        switch (words[0]) {
            case ".phaser" -> phasers.add(phaser(words));
            case ".barrier" ->
                barriers.add(new BarrierDeclaration(number(words[2]), words.length > 3 ? number(words[4]) : -1));
            case ".thread" -> threads.add(number(words[2]));
            default -> {
                int[] operands = new int[words.length - 1];
                for (int place = 0; place < operands.length; place++) {
                    operands[place] = number(words[place + 1]);
                }
                rows.add(new Row(Operation.of(words[0]), operands));
            }
        }
    }

    private static PhaserDeclaration phaser(String[] words) {
        int parent = -1;
        int firstPhase = 0;
        Policy policy = Policy.DEFAULT;
        for (int at = 3; at < words.length; at++) {
            switch (words[at]) {
                case "parent" -> parent = number(words[++at]);
                case "phase" -> firstPhase = number(words[++at]);
                case "never" -> policy = new Policy(Policy.Kind.NEVER, 0);
                case "until" -> policy = new Policy(Policy.Kind.UNTIL, number(words[++at]));
                case "onadvance" -> policy = new Policy(Policy.Kind.ROUTINE, number(words[++at]));
                default -> throw new IllegalArgumentException(words[at]);
            }
        }
        return new PhaserDeclaration(parent, number(words[2]), firstPhase, policy);
    }

    private static int number(String word) {
        char first = word.charAt(0);
        return Integer.parseInt(first == '#' || first == 'r' ? word.substring(1) : word);
    }

    int parent(int phaser) {
        return phasers.get(phaser).parent();
    }

    int root(int phaser) {
        int at = phaser;
        while (parent(at) >= 0) {
            at = parent(at);
        }
        return at;
    }
}
