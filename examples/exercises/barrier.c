/* Rounds without a barrier: in each round a core writes the number of the round into its slot, and prints what is in its neighbour's.
   All should print 123. */

#include "machine.h"

enum { ROUNDS = 3, MOST = 8 };

static unsigned slots[MOST];

/* To be written: comes back when all cores have called it. */
static void barrier(unsigned cores)
{
    (void)cores;
    commit();
}

int main(unsigned core, unsigned cores)
{
    for (unsigned round = 1; round <= ROUNDS; round++) {
        slots[core] = round;
        barrier(cores);
        print_plain(slots[(core + 1) % cores]);
        barrier(cores);
    }
    return 0;
}
