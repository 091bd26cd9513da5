package kit.player;

import java.util.function.IntPredicate;

/** A thread of a port's process. */
final class PortThread extends RealThread {
    private static final int LAST_EXCEPTION = Answer.TIMEOUT;

    private final int number;
    private final PortProcess process;

    PortThread(int number, PortProcess process) {
        this.number = number;
        this.process = process;
    }

    @Override
    protected void send(Call call) {
        process.write("call " + number + " " + call.request.words());
    }

    @Override
    protected void sendEnd(int end, boolean throwing) {
        process.write((throwing ? "throw " : "answer ") + number + " " + end);
    }

    @Override
    void interrupt() {
        process.write("interrupt " + number);
    }

    /** Nothing can be seen of it alone. */
    @Override
    protected boolean mayBeBlocked() {
        return true;
    }

    @Override
    protected void markRest() {
        process.tasks().mark();
    }

    @Override
    protected Rest rest() {
        return process.tasks().rest();
    }

    @Override
    protected double share() {
        return process.tasks().share();
    }

    @Override
    protected void check() {
        process.check();
    }

    @Override
    protected boolean staysAtRest() {
        return process.staysAtRest();
    }

    @Override
    protected String state() {
        return process.state();
    }

    /** The port wrote this line of it, which has to fit the call that it is inside of. */
    void take(PortLine said) {
        Call call = innermost();
        if (call == null) {
            throw said.fault("thread " + number + " is in no call");
        }
        if (call.inside()) {
            throw said.fault("thread " + number + " stands in an onAdvance or an action, and wasn't told to end it");
        }
        switch (said.kind()) {
            case ENTERS_ROUTINE -> enterRoutine(said, call);
            case ENTERS_ACTION -> enterAction(said, call);
            case DID, BEGAN, END -> throw said.fault("thread " + number + " was given no list");
            default -> finish(call, answer(said, call.request.method(), call::wasToldToThrow));
        }
    }

    /** What a call of this method has come to. */
    static Answer answer(PortLine said, Method method, IntPredicate wasToldToThrow) {
        return switch (said.kind()) {
            case VALUE -> value(said, method);
            case VOID -> nothing(said, method);
            case THROWN -> thrown(said);
            case THROUGH -> through(said, wasToldToThrow);
            case FAULT -> Answer.fault(Excerpt.of(said.line().replaceFirst("^.*?fault ", "")));
            default -> throw said.fault("it is no answer of a call");
        };
    }

    private static Answer value(PortLine said, Method method) {
        if (!method.hasValue()) {
            throw said.fault(method.word + " has no value");
        }
        if (method.isTruth() && (said.number(0) < 0 || said.number(0) > 1)) {
            throw said.fault(method.word + " answers 1 for true, or 0 for false");
        }
        return Answer.value(said.number(0));
    }

    private static Answer nothing(PortLine said, Method method) {
        if (method.hasValue()) {
            throw said.fault(method.word + " has a value");
        }
        return Answer.NOTHING;
    }

    private static Answer thrown(PortLine said) {
        if (said.number(0) < 1 || said.number(0) > LAST_EXCEPTION) {
            throw said.fault("the exceptions of calls have the numbers 1 to " + LAST_EXCEPTION);
        }
        return Answer.thrown(said.number(0));
    }

    private static Answer through(PortLine said, IntPredicate wasToldToThrow) {
        if (!wasToldToThrow.test(said.number(0))) {
            throw said.fault("no onAdvance or action of this call was told to throw that");
        }
        return Answer.through(said.number(0));
    }

    private void enterRoutine(PortLine said, Call call) {
        int phaser = said.number(0);
        Stage.Advance advance = process.advance(phaser);
        if (!call.request.method().ofPhaser() || advance == null) {
            throw said.fault("its call asks no onAdvance of such a phaser");
        }
        Boolean known = advance.decide(said.number(1), said.number(2));
        if (known == null) {
            call.enter(Entered.onAdvance(phaser, said.number(1), said.number(2)));
        } else {
            sendEnd(known ? 1 : 0, false);
        }
    }

    private void enterAction(PortLine said, Call call) {
        boolean itsBarrier = call.request.method().waitsAtBarrier() && call.request.object() == said.number(0);
        if (!itsBarrier || !process.hasAction(said.number(0))) {
            throw said.fault("its call asks no action of such a barrier");
        }
        call.enter(Entered.action(said.number(0)));
    }
}
