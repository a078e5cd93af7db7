# Write-to-read causality: core 0 stores to x; core 1 loads x and then stores to y; core 2 loads y and then x. That core 1 loads 1 and core 2
# first 1 and then 0 needs a store that core 1 sees before core 2.
        .include "litmus.inc"

        begin   3
        store   x, 1
        halt

P1:     load    x8, x
        then
        store   y, 1
        halt    x8

P2:     load    x8, y
        then
        load    x9, x
        halt    x8, x9
