package kit.player;

/** A call as a thread is told to make it. What the method doesn't use is 0. */
record Request(Method method, int object, int number, long nanoseconds) {
    static Request of(Method method, int object) {
        return new Request(method, object, 0, 0);
    }

    /** The words of the port protocol. */
    String words() {
        StringBuilder words = new StringBuilder(method.word);
        if (method.ofPhaser() || method.ofBarrier()) {
            words.append(' ').append(object);
        }
        if (method.numbered()) {
            words.append(' ').append(number);
        }
        if (method.timed()) {
            words.append(' ').append(nanoseconds);
        }
        return words.toString();
    }
}
