# Independent reads of independent writes: cores 0 and 1 store to x and to y; core 2 loads x and then y, core 3 y and then x. That both find
# first 1 and then 0 needs stores that cores see in different orders.
        .include "litmus.inc"

        begin   4
        store   x, 1
        halt

P1:     store   y, 1
        halt

P2:     load    x8, x
        then
        load    x9, y
        halt    x8, x9

P3:     load    x8, y
        then
        load    x9, x
        halt    x8, x9
