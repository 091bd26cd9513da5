; Lunch: nobody begins to eat before both are at the table.
.phaser table 2
.thread ann guest
.thread bob guest
guest:  paaa r0 table
        out r0
        halt
