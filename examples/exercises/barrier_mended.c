/* Rounds with a barrier: in each round a core writes the number of the round into its slot, and prints what is in its neighbour's.
   All print 123. */

#include "machine.h"

enum { ROUNDS = 3, MOST = 8 };

static unsigned slots[MOST];
static unsigned arrived, generation;

/* Comes back when all cores have called it. The last one to arrive begins the next generation, for which the others wait. */
static void barrier(unsigned cores)
{
    unsigned mine = generation;

    if (++arrived == cores) {
        arrived = 0;
        generation++;
    }
    commit();
    wait_for(&generation, mine + 1);
}

int main(unsigned core, unsigned cores)
{
    for (unsigned round = 1; round <= ROUNDS; round++) {
        slots[core] = round;
        barrier(cores);
        print_plain(slots[(core + 1) % cores]);
        barrier(cores);
    }
    return 0;
}
