# S: core 0 stores 2 to x and then to y; core 1 loads y and then stores 1 to x. That core 1 loads 1 and x ends at 2 needs stores of core 0
# that change places, or a store of core 1 before its load.
        .include "litmus.inc"

        begin   2
        store   x, 2
        then
        store   y, 1
        halt

P1:     load    x8, y
        then
        store   x, 1
        halt    x8
