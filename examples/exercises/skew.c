/* Write skew. All cores are on call, and one of them has to stay. Each counts those that are on call, and leaves where there is another. It
 * reads all words and stores to its own alone, so no word is stored to twice. The count and the store are a transaction each. A core halts
 * with 1 where it has left. */
#include "../machine.h"

static volatile unsigned on_call[8] = {1, 1, 1, 1, 1, 1, 1, 1};

int main(unsigned core, unsigned cores)
{
    unsigned count = 0;
    for (unsigned other = 0; other < cores; other++)
        count += on_call[other];
    commit();
    if (count == 1)
        return 0;
    on_call[core] = 0;
    return 1;
}
