; Four trees: of `wild` the routine always throws, `own` is forced by its own routine. Nobody looks whether it is registered:
; parties arrive for others, leave for others, and leave children that still have an arrival to come; one thread forces two
; of the trees after a while.
.phaser calm 1 onadvance adv
.phaser left 1 parent calm
.phaser right 1 parent calm
.phaser wild 0 onadvance bad
.phaser below 1 parent wild
.phaser plain 1 never
.phaser under 1 parent plain
.phaser own 1 onadvance ends
.thread a roots
.thread b children
.thread c leavers
.thread d waiters
.thread e forces
roots: try again
parr r0 wild
again: try roots
parr r0 calm
parr r0 plain
pdereg r0 plain
parr r0 own
parr r0 wild
jmp again
children: try later
parr r0 below
later: try children
parr r0 left
parr r0 right
parr r0 under
preg r0 under
pdereg r0 below
jmp later
leavers: try others
parr r1 below
others: try leavers
pdereg r1 right
preg r1 right
pdereg r1 calm
preg r1 plain
pdereg r1 under
jmp others
waiters: try waiters
ldi r2 3
pphase r1 left
pawaitt r0 left r1 r2
paaa r0 below
pphase r1 below
pawaitt r0 below r1 r2
jmp waiters
forces: parrived r0 left
punarr r1 calm
pphase r0 below
parrived r0 below
punarr r0 wild
pforce below
parrived r0 under
pparties r0 plain
pforce left
jmp forces
adv: ldi r0 0
ret
bad: throw r1
ends: pforce own
ldi r0 0
ret
