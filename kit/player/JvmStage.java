package kit.player;

import java.util.ArrayList;
import java.util.HashMap;
import java.util.List;
import java.util.Map;
import java.util.concurrent.BrokenBarrierException;
import java.util.concurrent.TimeoutException;
import java.util.function.Supplier;

/** Calls on the objects of a factory, made by threads of this JVM. */
final class JvmStage implements Stage {
    private final Factory factory;
    private final Map<Integer, Actor> actors = new HashMap<>();
    private Objects objects = new Objects();

    JvmStage(Factory factory) {
        this.factory = factory;
    }

    /** The objects of one case. A thread that was abandoned keeps those of its own. */
    private static final class Objects {
        private final List<PhaserUnderTest> phasers = new ArrayList<>();
        private final List<BarrierUnderTest> barriers = new ArrayList<>();
    }

    @Override
    public void begin(Patience patience) {
        objects = new Objects();
    }

    @Override
    public void phaser(int number, int parent, int parties, int firstPhase, Advance advance) {
        Factory.OnAdvance onAdvance = advance == null ? null : (phase, registered) -> {
            Boolean known = advance.decide(phase, registered);
            return known != null ? known : Actor.current().stand(Entered.onAdvance(number, phase, registered)) != 0;
        };
        PhaserUnderTest above = parent < 0 ? null : objects.phasers.get(parent);
        objects.phasers.add(made(() -> factory.phaser(above, parties, firstPhase, onAdvance), "phaser"));
    }

    @Override
    public void barrier(int number, int parties, boolean withAction) {
        Runnable action = withAction ? () -> Actor.current().stand(Entered.action(number)) : null;
        objects.barriers.add(made(() -> factory.barrier(parties, action), "barrier"));
    }

    private static <T> T made(Supplier<T> maker, String what) {
        try {
            return maker.get();
        } catch (UnsupportedOperationException missing) {
            throw new Unplayable(missing.getMessage() == null ? "the factory makes no such " + what : missing.getMessage());
        } catch (RuntimeException thrown) {
            throw new ProtocolFault("the factory's " + what + " threw " + Excerpt.of(thrown.toString()), thrown);
        }
    }

    @Override
    public RealThread thread(int number) {
        return actors.computeIfAbsent(number, fresh -> new Actor(request -> make(objects, request)));
    }

    @Override
    public boolean isHere() {
        return true;
    }

    /** Threads that hang are left behind as they are; the next case has new ones. */
    @Override
    public void abandon() {
        actors.clear();
    }

    @Override
    public Patience[] patience() {
        return Patience.OF_JVM;
    }

    @Override
    public void close() {
        actors.clear();
    }

    private static Answer make(Objects objects, Request request)
            throws InterruptedException, BrokenBarrierException, TimeoutException {
        Method method = request.method();
        if (method.ofPhaser()) {
            return ofPhaser(objects, objects.phasers.get(request.object()), request);
        }
        if (method.ofBarrier()) {
            return ofBarrier(objects.barriers.get(request.object()), request);
        }
        boolean status = method == Method.INTERRUPTED ? Thread.interrupted() : Thread.currentThread().isInterrupted();
        return truth(status);
    }

    private static Answer ofPhaser(Objects objects, PhaserUnderTest phaser, Request request)
            throws InterruptedException, TimeoutException {
        int number = request.number();
        return switch (request.method()) {
            case REGISTER -> Answer.value(phaser.register());
            case BULK_REGISTER -> Answer.value(phaser.bulkRegister(number));
            case ARRIVE -> Answer.value(phaser.arrive());
            case ARRIVE_AND_DEREGISTER -> Answer.value(phaser.arriveAndDeregister());
            case ARRIVE_AND_AWAIT_ADVANCE -> Answer.value(phaser.arriveAndAwaitAdvance());
            case AWAIT_ADVANCE -> Answer.value(phaser.awaitAdvance(number));
            case AWAIT_ADVANCE_INTERRUPTIBLY -> Answer.value(phaser.awaitAdvanceInterruptibly(number));
            case AWAIT_ADVANCE_FOR -> Answer.value(phaser.awaitAdvanceInterruptibly(number, request.nanoseconds()));
            case FORCE_TERMINATION -> {
                phaser.forceTermination();
                yield Answer.NOTHING;
            }
            case GET_PHASE -> Answer.value(phaser.getPhase());
            case GET_REGISTERED_PARTIES -> Answer.value(phaser.getRegisteredParties());
            case GET_ARRIVED_PARTIES -> Answer.value(phaser.getArrivedParties());
            case GET_UNARRIVED_PARTIES -> Answer.value(phaser.getUnarrivedParties());
            case IS_TERMINATED -> truth(phaser.isTerminated());
            case GET_PARENT -> number(objects, phaser.getParent());
            case GET_ROOT -> number(objects, phaser.getRoot());
            default -> throw new AssertionError(request);
        };
    }

    private static Answer ofBarrier(BarrierUnderTest barrier, Request request)
            throws InterruptedException, BrokenBarrierException, TimeoutException {
        return switch (request.method()) {
            case AWAIT -> Answer.value(barrier.await());
            case AWAIT_FOR -> Answer.value(barrier.await(request.nanoseconds()));
            case RESET -> {
                barrier.reset();
                yield Answer.NOTHING;
            }
            case IS_BROKEN -> truth(barrier.isBroken());
            case GET_NUMBER_WAITING -> Answer.value(barrier.getNumberWaiting());
            case GET_PARTIES -> Answer.value(barrier.getParties());
            default -> throw new AssertionError(request);
        };
    }

    private static Answer truth(boolean yes) {
        return Answer.value(yes ? 1 : 0);
    }

    /** The number of a phaser, -1 for none, -2 for one that the factory didn't make. */
    private static Answer number(Objects objects, PhaserUnderTest phaser) {
        if (phaser == null) {
            return Answer.value(-1);
        }
        int at = objects.phasers.indexOf(phaser);
        return Answer.value(at < 0 ? -2 : at);
    }
}
