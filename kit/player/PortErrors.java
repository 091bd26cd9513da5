package kit.player;

import java.io.IOException;
import java.io.InputStream;
import java.util.concurrent.locks.LockSupport;
import java.util.regex.Pattern;

/**
 * A port's standard error. It is passed on as it comes, and the first warning of a race detector is kept. While the port lives
 * nobody stands in a read, so that whoever wants to know what it has written until now can read it.
 */
final class PortErrors {
    private static final String OF_GO = "WARNING: DATA RACE";
    private static final String OF_THREAD_SANITIZER = "WARNING: ThreadSanitizer:";
    /** Of Helgrind and DRD, whose warnings have no end of their own: each line goes with those before it. */
    private static final Pattern OF_VALGRIND = Pattern.compile("^==\\d+== (Possible data race|Conflicting (load|store) by) ");
    private static final Pattern RULE_OF_VALGRIND = Pattern.compile("^==\\d+== --");
    /** What begins and ends a warning of the others. */
    private static final String RULE = "====";
    private static final int MOST_LINES = 80;
    private static final int CHUNK = 8_192;
    private static final int LONGEST = 1_000;
    private static final long MILLISECONDS_TO_THE_END = 1_000;
    /** So often it is read. */
    private static final long LOOK = 20_000_000;

    private final Process process;
    private final InputStream from;
    private final Thread reader = new Thread(this::readToTheEnd, "errors of the port");
    private final byte[] chunk = new byte[CHUNK];
    private final StringBuilder line = new StringBuilder();
    private StringBuilder warning;
    private boolean ofValgrind;
    private int lines;
    private volatile String whole;
    private boolean ended;

    PortErrors(Process process) {
        this.process = process;
        from = process.getErrorStream();
        reader.setDaemon(true);
        reader.start();
    }

    /** The lines of a warning that has come to its end; null where there is none. */
    String warning() {
        return whole;
    }

    /** The same once the port has ended, and with it all that it had to say. */
    String lastWarning() {
        try {
            reader.join(MILLISECONDS_TO_THE_END);
        } catch (InterruptedException never) {
            throw new IllegalStateException(never);
        }
        return whole;
    }

    /** Reads what the port has written until now. */
    synchronized void read() {
        try {
            while (!ended && from.available() > 0) {
                readSome();
            }
        } catch (IOException closed) {
            // the port has ended
        }
    }

    private void readToTheEnd() {
        while (process.isAlive()) {
            read();
            LockSupport.parkNanos(LOOK);
        }
        synchronized (this) {
            ended = true;
        }
        try {
            boolean goesOn = true;
            while (goesOn) {
                goesOn = readSome();
            }
        } catch (IOException closed) {
            // the port has ended
        }
        end();
    }

    /** Waits for something where nothing is there; false at the end. */
    private boolean readSome() throws IOException {
        int count = from.read(chunk);
        if (count > 0) {
            System.err.write(chunk, 0, count);
            System.err.flush();
        }
        for (int at = 0; at < count; at++) {
            take((char) (chunk[at] & 0xff));
        }
        return count >= 0;
    }

    private void take(char letter) {
        if (letter != '\n') {
            if (line.length() < LONGEST) {
                line.append(letter);
            }
            return;
        }
        String told = line.toString();
        line.setLength(0);
        if (warning == null) {
            ofValgrind = OF_VALGRIND.matcher(told).find();
            boolean begins = ofValgrind || told.contains(OF_GO) || told.contains(OF_THREAD_SANITIZER);
            warning = begins ? new StringBuilder() : null;
        }
        if (warning == null) {
            return;
        }
        if (told.startsWith(RULE)) {
            end();
        } else if (ofValgrind && RULE_OF_VALGRIND.matcher(told).find()) {
            lines = MOST_LINES;
        } else if (lines++ < MOST_LINES) {
            warning.append("    ").append(told).append('\n');
            if (ofValgrind) {
                whole = warning.toString().stripTrailing();
            }
        }
    }

    private void end() {
        if (warning != null && whole == null) {
            whole = warning.toString().stripTrailing();
        }
    }
}
