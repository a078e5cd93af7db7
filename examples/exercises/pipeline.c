/* A pipeline with a core for each stage and one cell between them. The first core puts the next number into the cell, each further one adds
   what is there to itself, and the last one prints it too. Nobody waits for another: the order is that of the phases, so this is for
   `phases`. With `run` the stages come as they like. */

#include "machine.h"

enum { NUMBERS = 4 };

static unsigned cell;

static void stage(unsigned core, unsigned cores, unsigned number)
{
    unsigned value = core == 0 ? number : 2 * cell;

    cell = value;
    if (core == cores - 1) {
        if (number > 1)
            print_char(' ');
        print_plain(value);
    }
}

int main(unsigned core, unsigned cores)
{
    for (unsigned i = 0; i < NUMBERS; i++) {
        set_phase(i * cores + core + 1);
        commit();
        stage(core, cores, i + 1);
    }
    return 0;
}
