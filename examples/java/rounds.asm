; Three rounds: the phaser terminates after the last, and each thread counts its rounds.
.phaser rounds 2 onadvance ends
.thread ann work
.thread bob work
work: ldi r1 1
again: add r2 r2 r1     ; do { got++;
      paaa r0 rounds    ;   rounds.arriveAndAwaitAdvance();
      pterm r0 rounds   ; } while (!rounds.isTerminated());
      beq r0 r7 again   ; r7 is 0
      out r2            ; prints 3
      halt
ends: ldi r1 2          ; boolean onAdvance(int phase, int parties) {
      blt r0 r1 no      ;   return phase >= 2;
      ldi r0 1          ; }
      ret
no:   ldi r0 0
      ret
