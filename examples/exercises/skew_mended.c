/* The cores of skew.c, which count and leave in one transaction. */
#include "../machine.h"

static volatile unsigned on_call[8] = {1, 1, 1, 1, 1, 1, 1, 1};

int main(unsigned core, unsigned cores)
{
    unsigned count = 0;
    for (unsigned other = 0; other < cores; other++)
        count += on_call[other];
    if (count == 1)
        return 0;
    on_call[core] = 0;
    return 1;
}
