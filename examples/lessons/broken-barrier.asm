; A broken barrier: ann, bob and cem meet at `gate`, and eve interrupts ann while she waits there. Each puts out what it got:
; 3 is InterruptedException, 4 is BrokenBarrierException.
.barrier gate 3
.thread ann runner
.thread bob runner
.thread cem runner
.thread eve judge
runner: try failed
        cawait r0 gate ; await
        out r0
        halt
failed: out r7         ; r7 holds the exception
        halt
judge:  intr ann       ; ann.interrupt()
        halt
