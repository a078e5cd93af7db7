# Message passing: core 0 stores a message in x and then a flag in y; core 1 loads the flag and then the message. The flag without the
# message (10) needs stores or loads that change places.
        .include "litmus.inc"

        begin   2
        store   x, 1
        then
        store   y, 1
        halt

P1:     load    x8, y
        then
        load    x9, x
        halt    x8, x9
