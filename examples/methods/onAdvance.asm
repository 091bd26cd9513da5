; `onAdvance` returns phase >= 1, so the phaser terminates at the end of phase 1.
.phaser p 1 onadvance ends
.thread ann main
main: parr r3 p
      parr r4 p
      pterm r5 p
      halt
ends: ret ; r0 has the phase: 0 continues, 1 terminates
