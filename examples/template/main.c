/* Each core adds its number, counted from 1, to a sum that all share, a transaction; core 0 waits for the others and prints the sum. */

#include "machine.h"

static unsigned sum, finished;

int main(unsigned core, unsigned cores)
{
    sum += core + 1;
    finished++;
    commit();
    if (core == 0) {
        wait_for(&finished, cores);
        print_plain(sum);
        print_char('\n');
    }
    return 0;
}
