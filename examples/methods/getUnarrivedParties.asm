; How many arrivals the phase still needs; none once the phaser is terminated.
.phaser p 2
.thread ann main
main: parr r0 p
      punarr r1 p
      pforce p
      punarr r2 p
      halt
