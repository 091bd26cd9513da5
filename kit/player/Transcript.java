package kit.player;

import java.util.ArrayList;
import java.util.Collections;
import java.util.IdentityHashMap;
import java.util.List;
import java.util.Set;

/**
 * A play in the lines of the port protocol (kit/PROTOCOL.md, "Transcripts"): what the player says, what a right port answers,
 * and where all stand still. Of the player's own looks only those at the play's end stand in it.
 */
final class Transcript {
    private static final String STANDS = ".\n";

    private final StringBuilder text = new StringBuilder();
    private final Set<Object> seen = Collections.newSetFromMap(new IdentityHashMap<>());

    synchronized void says(String line) {
        text.append("> ").append(line).append('\n');
    }

    synchronized void hears(String line) {
        text.append("< ").append(line).append('\n');
    }

    /** A command for objects, which is carried out. */
    void makes(String command) {
        says(command);
        hears("ok");
    }

    /** The thread's call is done, or stands in a routine or an action: that is told once. */
    synchronized void saw(int thread, Call call) {
        if (call.done() ? seen.add(call) : call.hasEntered() && seen.add(call.entered())) {
            hears(thread + " " + (call.done() ? call.answer().line() : "enter " + call.entered().line()));
        }
    }

    /** A look at an object; two answers may be right. */
    void asks(int thread, Request request, Answer one, Answer other) {
        says("call " + thread + " " + request.words());
        hears(thread + " " + one.line() + (one.equals(other) ? "" : " or " + thread + " " + other.line()));
    }

    /** Who has no answer by now waits. */
    synchronized void stands() {
        if (!text.toString().endsWith(STANDS)) {
            text.append(STANDS);
        }
    }

    /** In place of this answer, which a documented difference excuses, the other is right too. */
    synchronized void excuses(int thread, Answer given, Answer ours) {
        String line = "< " + thread + " " + given.line() + "\n";
        int at = text.lastIndexOf(line);
        text.replace(at, at + line.length(), "< " + thread + " " + ours.line() + " or " + thread + " " + given.line() + "\n");
    }

    /** The answers between two lines of another kind may come in any order, and stand in that of the alphabet. */
    @Override
    public synchronized String toString() {
        StringBuilder sorted = new StringBuilder();
        List<String> answers = new ArrayList<>();
        for (String line : text.toString().lines().toList()) {
            if (!line.startsWith("< ")) {
                answers.stream().sorted().forEach(each -> sorted.append(each).append('\n'));
                answers.clear();
                sorted.append(line).append('\n');
            } else {
                answers.add(line);
            }
        }
        answers.stream().sorted().forEach(each -> sorted.append(each).append('\n'));
        return sorted.toString();
    }
}
