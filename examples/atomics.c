/* Word atomics as C has them: ten tickets are drawn, a transaction each, and the squares of their numbers are added up. */

#include "machine.h"

static unsigned tickets, drawn, last, sum;

int main(unsigned core, unsigned cores)
{
    (void)core;
    (void)cores;
    for (int i = 0; i < 10; i++) {
        unsigned ticket = __atomic_fetch_add(&tickets, 1, __ATOMIC_ACQ_REL);
        unsigned before = __atomic_exchange_n(&last, ticket, __ATOMIC_ACQ_REL);
        unsigned old = __atomic_load_n(&sum, __ATOMIC_RELAXED);

        __atomic_fetch_or(&drawn, 1u << ticket, __ATOMIC_RELAXED);
        while (!__atomic_compare_exchange_n(&sum, &old, old + ticket * ticket, 1, __ATOMIC_ACQ_REL, __ATOMIC_RELAXED))
            ;
        print_number(before, 2);
        print_number(ticket, 4);
        print_number(drawn, 6);
        print_number(sum, 6);
        print("\n");
        commit();
    }
    return sum;
}
