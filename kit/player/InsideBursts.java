package kit.player;

import java.util.List;
import java.util.stream.Stream;

/** Bursts in which an onAdvance or an action calls its own object, while other threads call it, too. */
final class InsideBursts {
    static final List<BurstKind> KINDS = List.of(
        new BurstKind("calls-inside-on-advance", InsideBursts::onAdvance,
            "An onAdvance looks at its phaser, and arrives there in vain, while others arrive, come and go."),
        new BurstKind("calls-inside-an-action", InsideBursts::action,
            "An action looks at its barrier, while more threads than parties come."));

    /** All calls that Java answers there: a registration, and a wait for the present phase, would block for ever. */
    private static final List<Method> OF_PHASER = List.of(Method.GET_PHASE, Method.GET_REGISTERED_PARTIES,
        Method.GET_ARRIVED_PARTIES, Method.GET_UNARRIVED_PARTIES, Method.IS_TERMINATED, Method.ARRIVE,
        Method.ARRIVE_AND_DEREGISTER, Method.ARRIVE_AND_AWAIT_ADVANCE);
    /** And these at a barrier, where {@code await} would block, and {@code reset} is as the port likes it. */
    private static final List<Method> OF_BARRIER = List.of(Method.IS_BROKEN, Method.GET_NUMBER_WAITING, Method.GET_PARTIES);

    private InsideBursts() {
    }

    private static List<Method> some(BurstMaker make, List<Method> methods) {
        return Stream.generate(() -> make.any(methods)).limit(make.between(1, 4)).toList();
    }

    private static void onAdvance(BurstMaker make) {
        int phaser = make.root(make.between(1, 3), make.of(50) ? BurstMaker.NEVER : new Policy(Policy.Kind.UNTIL, make.between(1, 4)));
        make.insideOnAdvance(phaser, some(make, OF_PHASER));
        make.threads(make.between(2, 4),
            () -> BurstMaker.times(make.between(1, 4), BurstMaker.call(Method.ARRIVE, phaser)));
        if (make.of(40)) {
            make.thread(BurstMaker.call(Method.REGISTER, phaser), BurstMaker.call(Method.ARRIVE_AND_DEREGISTER, phaser));
        }
        if (make.of(20)) {
            make.thread(BurstMaker.call(Method.FORCE_TERMINATION, phaser).after(make.time(0, 300)));
        }
    }

    private static void action(BurstMaker make) {
        int barrier = DoorBursts.comers(make, make.of(20), 3);
        make.insideAction(barrier, some(make, OF_BARRIER));
    }
}
