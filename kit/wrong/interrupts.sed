# The skeletons with this done to `threads`: a wait looks at the interrupted status, and can be woken only after that, so that an
# interrupt in between is lost. First in C++, then in Rust, Python, and Go, where a wait throws a wake-up away that it takes to be
# left over.
s/^  wait_at(at);.*/  const bool interrupted = interrupted_;\n  wait_at(at);/
s/if (!interrupted_)/if (!interrupted)/
s/^        let thread = Thread::current();/&\n        let interrupted = thread.is_interrupted();/
s/if thread\.is_interrupted() {/if interrupted {/
s/^        self\._waits_at = condition .*/        interrupted = self.interrupted\n        points.point()\n&/
s/if not self\.interrupted:/if not interrupted:/
s/^\ttimer := time\.NewTimer/\tselect {\n\tcase <-t.wakes:\n\tdefault:\n\t}\n&/
