/* The pipeline of pipeline.c with a cell behind each stage, so that stages work on different numbers at once. Stage s has number i in phase
   2 i + s + 1: after stage s - 1 has put it into its cell, and before that stage puts the next one there. */

#include "machine.h"

enum { NUMBERS = 4, MOST = 8 };

static unsigned cells[MOST];

static void stage(unsigned core, unsigned cores, unsigned number)
{
    unsigned value = core == 0 ? number : 2 * cells[core - 1];

    cells[core] = value;
    if (core == cores - 1) {
        if (number > 1)
            print_char(' ');
        print_plain(value);
    }
}

int main(unsigned core, unsigned cores)
{
    for (unsigned i = 0; i < NUMBERS; i++) {
        set_phase(2 * i + core + 1);
        commit();
        stage(core, cores, i + 1);
    }
    return 0;
}
