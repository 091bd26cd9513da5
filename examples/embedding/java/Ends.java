// Every way in which a small program can end, each with a shortest schedule that leads there. The workbench itself searches for no order:
// this is a program of yours, over the library. From the top of a clone:
//   javac -cp /usr/share/java/jna.jar -d classes examples/embedding/java/*.java
//   java -cp /usr/share/java/jna.jar:classes -Djna.library.path=lib Ends examples/lessons/two-orders.asm
import java.nio.file.Files;
import java.nio.file.Path;
import java.util.ArrayDeque;
import java.util.ArrayList;
import java.util.HashSet;
import java.util.List;
import java.util.Set;

public class Ends {
  static final int MOST = 10_000;

  /** A session, and the schedule of what it played, each choice with a blank behind it. */
  record Reached(Session session, String schedule) {}

  /** A shortest schedule for each state in which nothing can go on, in the order in which they are found. */
  static List<String> ends(byte[] program) {
    Session first = Session.open(program);
    Set<Object> seen = new HashSet<>(Set.of(first.fingerprint()));
    Set<String> states = new HashSet<>();
    List<String> found = new ArrayList<>();
    ArrayDeque<Reached> ahead = new ArrayDeque<>(List.of(new Reached(first, "")));
    while (!ahead.isEmpty()) {
      Reached reached = ahead.remove();
      try (Session session = reached.session) {
        List<Session.Choice> enabled = session.enabled();
        if (enabled.isEmpty() && states.add(withoutCounts(session.state()))) found.add(reached.schedule);
        for (Session.Choice choice : enabled) {
          Session after = session.copy();
          after.play(choice);
          if (seen.add(after.fingerprint())) ahead.add(new Reached(after, reached.schedule + choice + " "));
          else after.close();
        }
      }
      if (seen.size() > MOST) stop("there are more than " + MOST + " states", 1);
    }
    return found;
  }

  static void stop(String why, int status) {
    System.err.println(why);
    System.exit(status);
  }

  static String withoutCounts(String state) {
    return state.replaceFirst("^state \\d+ \\d+", "state 0 0");
  }

  public static void main(String[] words) throws Exception {
    byte[] program = Files.readAllBytes(Path.of(words[0]));
    Session.mistake(program, Session.PROGRAM, new byte[0])
        .ifPresent(it -> stop(words[0] + ":" + it.line() + ":" + it.column() + ": " + it.told() + "\n" + it.hint(), 3));
    try (Session session = Session.open(program)) {
      for (String schedule : ends(program)) {
        session.goTo(schedule, schedule.chars().filter(it -> it == ' ').count());
        String state = withoutCounts(session.state());
        System.out.printf("%s: %s%n%s%n%n", state.lines().findFirst().get().substring(10), schedule.strip(), state);
      }
    }
  }
}
