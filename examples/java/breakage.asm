; A third party never comes: the first to lose patience breaks the barrier for both.
.barrier three 3
.thread ann hurried
.thread bob patient
hurried: ldi r1 100
         try late
         cawaitt r0 three r1 ; three.await(100, MILLISECONDS)
         halt
late:    out r7              ; catch (TimeoutException e): prints 5
         cbroken r0 three    ; three.isBroken()
         out r0              ; prints 1
         halt
patient: try broke
         cawait r0 three     ; three.await()
         halt
broke:   out r7              ; catch (BrokenBarrierException e): prints 4
         halt
