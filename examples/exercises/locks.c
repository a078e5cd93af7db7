/* A deadlock in some runs: each core takes two locks, one after the other, adds to a word, and gives the locks back. Each step is a
 * transaction. Even cores begin with lock 0, and odd ones with lock 1. */
#include "../machine.h"

static unsigned locks[2], total;

static void take(unsigned *lock)
{
    wait_for(lock, 0);
    *lock = 1;
    commit();
}

int main(unsigned core, unsigned cores)
{
    (void)cores;
    take(&locks[core % 2]);
    take(&locks[1 - core % 2]);
    total++;
    commit();
    locks[0] = 0;
    locks[1] = 0;
    return 0;
}
