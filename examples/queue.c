/* A queue with room for two, between cores that put numbers in and cores that take them out and print them. Cores with an even
   number put, those with an odd number take; a core alone does both. All numbers are taken, each once. At the end core 0 prints
   their sum. */

#include "machine.h"

enum { ROOM = 2, NUMBERS = 4 };

static unsigned numbers[ROOM];
static unsigned put, taken, sum;

/* Puts the next number in, where there is one and there is room. */
static inline void put_one(void)
{
    if (put == NUMBERS || put - taken == ROOM)
        return;
    numbers[put % ROOM] = put + 1;
    put++;
}

/* Takes the oldest number out and prints it, where there is one. */
static inline void take_one(void)
{
    if (put == taken)
        return;
    unsigned number = numbers[taken % ROOM];
    sum += number;
    taken++;
    print_plain(number);
    print_char('\n');
}

int main(unsigned core, unsigned cores)
{
    int puts = core % 2 == 0, takes = core % 2 == 1 || cores == 1;

    while (taken != NUMBERS) {
        if (puts)
            put_one();
        if (takes)
            take_one();
        commit();
    }
    if (core == 0) {
        print_plain(sum);
        print_char('\n');
    }
    return 0;
}
