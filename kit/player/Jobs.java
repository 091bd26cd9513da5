package kit.player;

import java.util.ArrayList;
import java.util.List;
import java.util.concurrent.CompletableFuture;
import java.util.concurrent.CompletionException;
import java.util.concurrent.atomic.AtomicInteger;
import java.util.function.BiFunction;
import java.util.function.Consumer;
import java.util.function.Predicate;

/** Plays many cases, by so many judges at once, and hands on what came of each, in the order of the cases. */
final class Jobs<T> {
    private final List<T> cases;
    private final BiFunction<Judge, T, Played> player;
    private final List<CompletableFuture<Played>> played = new ArrayList<>();
    private final AtomicInteger begun = new AtomicInteger();
    private volatile boolean enough;
    private Consumer<WarmUp.Word> tell = word -> { };

    Jobs(List<T> cases, BiFunction<Judge, T, Played> player) {
        this.cases = cases;
        this.player = player;
        cases.forEach(each -> played.add(new CompletableFuture<>()));
    }

    /** Tells what hangs before the first case, of one judge. */
    Jobs<T> tell(Consumer<WarmUp.Word> to) {
        tell = to;
        return this;
    }

    /** Plays until {@code goesOn} says that what it was given was enough. */
    void run(List<Judge> judges, Predicate<Played> goesOn) {
        for (Judge judge : judges) {
            boolean tells = judge == judges.get(0);
            Thread worker = new Thread(() -> work(judge, tells ? tell : word -> { }), "judge");
            worker.setDaemon(true);
            worker.start();
        }
        try {
            for (int number = 0; number < played.size() && !enough; number++) {
                enough = !goesOn.test(played.get(number).join());
            }
        } catch (CompletionException failed) {
            throw failed.getCause() instanceof RuntimeException cause ? cause : failed;
        } finally {
            enough = true;
        }
    }

    private void work(Judge judge, Consumer<WarmUp.Word> tells) {
        try {
            judge.warm(tells);
            for (int number = begun.getAndIncrement(); number < cases.size() && !enough; number = begun.getAndIncrement()) {
                played.get(number).complete(player.apply(judge, cases.get(number)));
            }
        } catch (RuntimeException | Error failed) {
            played.forEach(place -> place.completeExceptionally(failed));
        } finally {
            judge.close();
        }
    }
}
