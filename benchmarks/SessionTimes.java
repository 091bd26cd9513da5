// How long the calls of a session take from Java by JNA, in microseconds of the processor, each with its name, as benchmarks/session.c
// measures them. benchmarks/languages compiles it beside the example whose session it uses.
import java.lang.management.ManagementFactory;
import java.util.function.IntConsumer;

public class SessionTimes {
  /** Whether it is the last round: those before are for the compiler. */
  static boolean isLast;

  static void took(String name, int count, IntConsumer call) {
    long begun = ManagementFactory.getThreadMXBean().getCurrentThreadCpuTime();
    for (int n = 0; n < count; n++) call.accept(n);
    long ended = ManagementFactory.getThreadMXBean().getCurrentThreadCpuTime();
    if (isLast) System.out.printf("%s %.2f%n", name, (ended - begun) / 1e3 / count);
  }

  public static void main(String[] words) {
    try (Session session = Session.open(".phaser p 2\n.thread a main\n.thread b main\nmain: paaa r0 p\njmp main\n".getBytes())) {
      Session.Choice[] turns = {new Session.Choice(0, false), new Session.Choice(1, false)};
      for (int round = 1; round <= 5; round++) {
        isLast = round == 5;
        took("step", 50000, n -> session.play(turns[n % 2]));
        took("back", 4096, n -> session.back());
        took("enabled", 50000, n -> session.enabled());
        took("state", 20000, n -> session.look());
        took("copy", 10000, n -> session.copy().close());
      }
    }
  }
}
