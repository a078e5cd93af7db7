/* Counts the digits of a number in a table that all cores share. Each core takes two digits at a time, in one transaction. When
   all are done core 0 prints a bar for each digit. */

#include "machine.h"

enum { DIGITS = 12, BINS = 8 };

static const unsigned char digits[DIGITS] = {3, 1, 4, 1, 5, 2, 6, 5, 3, 5, 1, 7};
static unsigned counts[BINS];
static unsigned finished;

static inline void print_bars(void)
{
    for (unsigned digit = 1; digit < BINS; digit++) {
        print_plain(digit);
        print_char(' ');
        for (unsigned i = counts[digit]; i; i--)
            print_char('*');
        print_char('\n');
    }
}

int main(unsigned core, unsigned cores)
{
    for (unsigned i = 2 * core; i < DIGITS; i += 2 * cores) {
        counts[digits[i]]++;
        counts[digits[i + 1]]++;
        commit();
    }
    finished++;
    if (core != 0)
        return 0;
    wait_for(&finished, cores);
    print_bars();
    return 0;
}
