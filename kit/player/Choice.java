package kit.player;

import java.util.ArrayList;
import java.util.List;

/** One choice of a schedule: a thread's turn, or the expiry of its timed wait. */
record Choice(int thread, boolean expiry) {
    /** The choices of a schedule's text, which {@code vuthgal run} has accepted. */
    static List<Choice> schedule(String text) {
        List<Choice> choices = new ArrayList<>();
        for (String token : text.trim().split("[ \t\r\n]+")) {
            if (token.isEmpty()) {
                continue;
            }
            int star = token.indexOf('*');
            int count = star < 0 ? 1 : Integer.parseInt(token.substring(star + 1));
            int thread = Integer.parseInt(token.substring(1, star < 0 ? token.length() : star));
            Choice choice = new Choice(thread, token.charAt(0) == 'x');
            for (; count > 0; count--) {
                choices.add(choice);
            }
        }
        return choices;
    }
}
