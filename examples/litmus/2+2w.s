# 2+2W: core 0 stores 1 to x and then 2 to y; core 1 stores 1 to y and then 2 to x. That both end at 1 needs stores that change places.
        .include "litmus.inc"

        begin   2
        store   x, 1
        then
        store   y, 2
        halt

P1:     store   y, 1
        then
        store   x, 2
        halt
