; A barrier with an action: two meet, and a third interrupts one of them, and makes the barrier whole again.
.cell turns
.barrier gate 2 action act
.thread a meet
.thread b meet
.thread c other
meet: try late
cawait r0 gate
out r0
endtry
jmp meet
late: jmp meet
other: cbroken r1 gate
intr a
creset gate
call sub
jmp other
sub: cwaiting r2 gate
ret
act: lds r1 turns
ldi r2 1
add r1 r1 r2
sts r1 turns
ret
