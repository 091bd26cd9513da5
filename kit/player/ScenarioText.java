package kit.player;

import java.util.ArrayList;
import java.util.List;

/** Puts the scripts of a scenario one behind the other, and writes the program. */
final class ScenarioText {
    private final List<Script> threads;
    private final List<Script> inner;
    private final List<String> declarations;

    ScenarioText(List<Script> threads, List<Script> inner, List<String> declarations) {
        this.threads = threads;
        this.inner = inner;
        this.declarations = declarations;
    }

    String write() {
        StringBuilder starts = new StringBuilder();
        StringBuilder rows = new StringBuilder();
        List<Integer> firstOfInner = new ArrayList<>();
        int at = 0;
        for (Script script : threads) {
            script.row("halt");
            starts.append(".thread t").append(threads.indexOf(script)).append(" #").append(at).append('\n');
            rows.append(script.text(at));
            at += script.size();
        }
        for (Script script : inner) {
            firstOfInner.add(at);
            rows.append(script.text(at));
            at += script.size();
        }
        StringBuilder text = new StringBuilder();
        declarations.forEach(line -> text.append(placed(line, firstOfInner)).append('\n'));
        return text.append(starts).append(rows).toString();
    }

    private static String placed(String line, List<Integer> firstOfInner) {
        int mark = line.indexOf('@');
        return mark < 0 ? line : line.substring(0, mark) + "#" + firstOfInner.get(Integer.parseInt(line.substring(mark + 1)));
    }
}
