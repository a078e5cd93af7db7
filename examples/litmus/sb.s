# Store buffering: each core stores to one word and then loads the other. That both load 0 needs a store that waits.
        .include "litmus.inc"

        begin   2
        store   x, 1
        then
        load    x8, y
        halt    x8

P1:     store   y, 1
        then
        load    x8, x
        halt    x8
