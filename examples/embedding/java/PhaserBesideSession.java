// The JDK's own Phaser beside a session of Vuthgal: the same random calls, none of which waits. Answers, phase and parties have to
// agree. The structs of vuthgal.h are read as numbers: no text is parsed. From the top of a clone:
//   javac -cp /usr/share/java/jna.jar -d classes examples/embedding/java/*.java
//   java -cp /usr/share/java/jna.jar:classes -Djna.library.path=lib PhaserBesideSession
import java.util.Random;
import java.util.concurrent.Phaser;

public class PhaserBesideSession {
  static final String[] CALLS = {"register", "arrive", "arriveAndDeregister", "forceTermination"};
  static final String[] ROWS = {"preg r0 p", "parr r0 p", "pdereg r0 p", "pforce p"};

  /** A program with a thread for each call, which makes it again and again. */
  static byte[] program(int parties) {
    StringBuilder text = new StringBuilder(".phaser p " + parties + "\n");
    for (String call : CALLS) text.append(".thread by_" + call + " " + call + "\n");
    for (int n = 0; n < CALLS.length; n++) text.append(CALLS[n] + ": " + ROWS[n] + "\njmp " + CALLS[n] + "\n");
    return text.toString().getBytes();
  }

  /** What a thread's call answers: a number, `ok` or `throw`. The thread stands at its call again behind it. */
  static String step(Session session, int thread) {
    if (session.enabled().size() != CALLS.length) throw new AssertionError("some thread waits, though no call does");
    Session.Choice turn = new Session.Choice(thread, false);
    Session.Event event = session.play(turn);
    if (event.what() == Session.THROW) {
      session.back();
      return "throw";
    }
    session.play(turn);
    return event.what() == Session.RESULT ? "" + event.value() : event.what() == Session.OK ? "ok" : "what " + event.what();
  }

  static String call(Phaser phaser, int call) {
    try {
      switch (call) {
        case 0: return "" + phaser.register();
        case 1: return "" + phaser.arrive();
        case 2: return "" + phaser.arriveAndDeregister();
        default: phaser.forceTermination(); return "ok";
      }
    } catch (IllegalStateException refused) {
      return "throw";
    }
  }

  public static void main(String[] words) {
    Random chance = new Random(1);
    int calls = 0;
    for (int round = 0; round < 200; round++) {
      int parties = chance.nextInt(4);
      Phaser phaser = new Phaser(parties);
      try (Session session = Session.open(program(parties))) {
        for (int n = 0; n < 20; n++, calls++) {
          int call = chance.nextInt(20) == 0 ? 3 : chance.nextInt(3);
          String ours = step(session, call) + stands(session, call);
          String theirs = call(phaser, call) + " at " + phaser.getPhase() + " with " + phaser.getRegisteredParties();
          if (!ours.equals(theirs)) throw new AssertionError(CALLS[call] + ": " + theirs + ", and Vuthgal says " + ours);
        }
      }
    }
    System.out.println(calls + " calls agree");
  }

  static String stands(Session session, int call) {
    Session.Look look = session.look();
    Session.ThreadLook thread = look.threads().get(call);
    if (thread.status() != Session.RUNS || thread.row() != 2 * call) throw new AssertionError("at row " + thread.row());
    return " at " + look.phasers().get(0).phase() + " with " + look.phasers().get(0).parties();
  }
}
