package kit.player;

import java.util.concurrent.BrokenBarrierException;
import java.util.concurrent.Semaphore;
import java.util.concurrent.TimeoutException;

/** A thread of this JVM that makes one call when it is told to. */
final class Actor extends RealThread {
    /** The exception that a routine or an action was told to throw. */
    private static final class Told extends RuntimeException {
        private static final long serialVersionUID = 1;
        private final int number;

        Told(int number) {
            super(null, null, false, false);
            this.number = number;
        }
    }

    /** Makes a call on the objects under test. */
    interface Maker {
        Answer make(Request request) throws InterruptedException, BrokenBarrierException, TimeoutException;
    }

    /** What an actor is told: a call, or the end of the routine or action in which it stands. */
    private record Order(Call call, int number, boolean throwing) {
    }

    /** A thread that knows its actor. */
    private static final class Body extends Thread {
        private final Actor actor;

        Body(Actor actor) {
            super(actor::serve);
            this.actor = actor;
            setDaemon(true);
        }
    }

    /** Its state is seen by looks alone. */
    private static final long LOOK = 50_000;

    private final Maker maker;
    private final Semaphore go = new Semaphore(0);
    private final Body body = new Body(this);
    private volatile Order told;
    private volatile boolean taken;

    Actor(Maker maker) {
        this.maker = maker;
        body.start();
    }

    /** The actor whose thread this is. */
    static Actor current() {
        return ((Body) Thread.currentThread()).actor;
    }

    /** Takes orders until the routine or action in which it stands is to end; answers that order. */
    private Order serve() {
        for (;;) {
            go.acquireUninterruptibly();
            Order order = told;
            taken = true;
            if (order.call() == null) {
                return order;
            }
            finish(order.call(), make(order.call().request));
        }
    }

    private Answer make(Request request) {
        try {
            return maker.make(request);
        } catch (Told exception) {
            return Answer.through(exception.number);
        } catch (Throwable other) {
            return Answer.of(other);
        }
    }

    /** Called by an object under test in the middle of a call: stands here until it is told the end, and answers that. */
    int stand(Entered where) {
        innermost().enter(where);
        Order end = serve();
        if (end.throwing()) {
            throw new Told(end.number());
        }
        return end.number();
    }

    @Override
    protected void send(Call call) {
        order(new Order(call, 0, false));
    }

    @Override
    protected void sendEnd(int number, boolean throwing) {
        order(new Order(null, number, throwing));
    }

    private void order(Order order) {
        taken = false;
        told = order;
        go.release();
    }

    @Override
    void interrupt() {
        body.interrupt();
    }

    @Override
    protected boolean staysAtRest() {
        return mayBeBlocked();
    }

    @Override
    protected long look() {
        return LOOK;
    }

    /** An order that isn't taken yet leaves it parked, and that is no wait of its call. */
    @Override
    protected boolean mayBeBlocked() {
        if (!taken) {
            return false;
        }
        return switch (body.getState()) {
            case WAITING, TIMED_WAITING, BLOCKED -> true;
            default -> false;
        };
    }
}
