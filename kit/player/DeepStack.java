package kit.player;

import java.util.concurrent.ExecutionException;
import java.util.concurrent.FutureTask;
import java.util.function.BooleanSupplier;

/** Runs what calls itself as often as a burst has steps: some thousand, where a wait hangs and the player goes on for it. */
final class DeepStack {
    /** Of addresses: only what is used takes memory. */
    private static final long BYTES = 1L << 28;

    private DeepStack() {
    }

    static boolean ask(BooleanSupplier search) {
        FutureTask<Boolean> task = new FutureTask<>(search::getAsBoolean);
        Thread thread = new Thread(null, task, "search", BYTES);
        thread.setDaemon(true);
        thread.start();
        try {
            return task.get();
        } catch (InterruptedException never) {
            throw new IllegalStateException(never);
        } catch (ExecutionException failed) {
            throw new IllegalStateException(failed.getCause());
        }
    }
}
