/* The locks of locks.c, which all cores take in one order. */
#include "../machine.h"

static unsigned locks[2], total;

static void take(unsigned *lock)
{
    wait_for(lock, 0);
    *lock = 1;
    commit();
}

int main(unsigned core, unsigned cores)
{
    (void)core, (void)cores;
    take(&locks[0]);
    take(&locks[1]);
    total++;
    commit();
    locks[0] = 0;
    locks[1] = 0;
    return 0;
}
