# Load buffering: each core loads one word and then stores to the other. That both load 1 needs a store before an earlier load.
        .include "litmus.inc"

        begin   2
        load    x8, x
        then
        store   y, 1
        halt    x8

P1:     load    x8, y
        then
        store   x, 1
        halt    x8
