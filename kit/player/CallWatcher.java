package kit.player;

/** Is told how a call goes on: by the thread that makes it, where that is one of this JVM, else by the reader of its port. */
interface CallWatcher {
    CallWatcher NOBODY = new CallWatcher() {
        @Override
        public void entered(Call call, Entered where) {
        }

        @Override
        public void done(Call call) {
        }
    };

    /** Its thread stands at the beginning of a routine or an action. */
    void entered(Call call, Entered where);

    /** It has its answer. */
    void done(Call call);
}
