package kit.player;

import java.util.ArrayList;
import java.util.List;
import java.util.concurrent.ExecutionException;
import java.util.concurrent.ExecutorService;
import java.util.concurrent.Executors;
import java.util.concurrent.Future;
import java.util.concurrent.TimeUnit;
import java.util.concurrent.TimeoutException;
import java.util.function.Consumer;

/** Checks that mostly wait, and so are made several for each processor at a time, whatever part they belong to. */
final class AtOnce {
    private static final int FOR_EACH_PROCESSOR = 6;
    private static final long LONGEST_SECONDS = 900;
    private static final ExecutorService THREADS =
        Executors.newFixedThreadPool(FOR_EACH_PROCESSOR * Runtime.getRuntime().availableProcessors(), AtOnce::thread);
    /** For what sleeps nearly all of its time. */
    private static final ExecutorService SLEEPERS = Executors.newCachedThreadPool(AtOnce::thread);
    /** For what needs the processors, but often waits for something that never comes. */
    private static final ExecutorService FEW = Executors.newFixedThreadPool(6, AtOnce::thread);

    private AtOnce() {
    }

    private static Thread thread(Runnable checks) {
        Thread thread = new Thread(checks, "checks");
        thread.setDaemon(true);
        return thread;
    }

    /** Hands each of these to the check, and waits for all. No check may come here again. */
    static <T> void each(Iterable<T> all, Consumer<T> check) {
        each(THREADS, all, check);
    }

    /** The same, of checks that sleep nearly all of their time: none waits for its turn. */
    static void sleepers(Iterable<Runnable> checks) {
        each(SLEEPERS, checks, Runnable::run);
    }

    /** The same, of checks that need the processors: a few at a time. */
    static <T> void few(Iterable<T> all, Consumer<T> check) {
        each(FEW, all, check);
    }

    private static <T> void each(ExecutorService threads, Iterable<T> all, Consumer<T> check) {
        List<Future<?>> checks = new ArrayList<>();
        all.forEach(one -> checks.add(threads.submit(() -> check.accept(one))));
        try {
            for (Future<?> each : checks) {
                each.get(LONGEST_SECONDS, TimeUnit.SECONDS);
            }
        } catch (ExecutionException failed) {
            throw new IllegalStateException(failed.getCause());
        } catch (InterruptedException | TimeoutException hangs) {
            throw new IllegalStateException(hangs);
        }
    }
}
