/* A table of signed division: quotients and remainders as the M extension has them, where no case traps. */

#include "machine.h"

static const int dividends[] = {7, -7, 100, -100, (int)0x80000000};
static const int divisors[] = {3, -3, 0, -1};

static int quotient(int a, int b)
{
    int q;
    asm("div %0, %1, %2" : "=r"(q) : "r"(a), "r"(b));
    return q;
}

static int remainder(int a, int b)
{
    int r;
    asm("rem %0, %1, %2" : "=r"(r) : "r"(a), "r"(b));
    return r;
}

int main(int core)
{
    if (core != 0)
        return 0;
    for (unsigned i = 0; i < sizeof dividends / sizeof dividends[0]; i++)
        for (unsigned k = 0; k < sizeof divisors / sizeof divisors[0]; k++) {
            int a = dividends[i], b = divisors[k];
            print_number(a, 11);
            print(" / ");
            print_number(b, 2);
            print(" = ");
            print_number(quotient(a, b), 11);
            print(" rest ");
            print_number(remainder(a, b), 1);
            print_char('\n');
            commit();
        }
    return 0;
}
