; Timed waits at a phaser and at a barrier.
.phaser p 2
.barrier gate 2
.thread a first
.thread b second
first: ldi r1 10
loop: try late
pphase r2 p
pawaitt r0 p r2 r1
cawaitt r3 gate r1
endtry
jmp loop
late: out r0
creset gate
jmp loop
second: ldi r1 10
again: try later
parr r4 p
parr r4 p
cawaitt r3 gate r1
endtry
jmp again
later: jmp again
