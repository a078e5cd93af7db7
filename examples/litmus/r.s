# R: core 0 stores to x and then 1 to y; core 1 stores 2 to y and then loads x. That core 1 loads 0 and y ends at 2 needs a load before an
# earlier store, or stores of core 0 that change places.
        .include "litmus.inc"

        begin   2
        store   x, 1
        then
        store   y, 1
        halt

P1:     store   y, 2
        then
        load    x8, x
        halt    x8
