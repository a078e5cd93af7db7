/* The C library picolibc on the machine: each core makes a list of its own by malloc and prints it by printf, a transaction each. */

#include <stdio.h>
#include <stdlib.h>

#include "machine.h"

struct square {
    unsigned long long value;
    struct square *next;
};

static struct square *list_to(unsigned last)
{
    struct square *first = NULL;

    for (unsigned i = last; i > 0; i--) {
        struct square *square = malloc(sizeof *square);

        square->value = (unsigned long long)i * i * 1000003 / 7;
        square->next = first;
        first = square;
    }
    return first;
}

int main(unsigned core, unsigned cores)
{
    struct square *first = list_to(core + 2);

    commit();
    printf("core %u of %u:", core, cores);
    while (first) {
        struct square *next = first->next;

        printf(" %llu", first->value);
        free(first);
        first = next;
    }
    printf("\n");
    return 0;
}
