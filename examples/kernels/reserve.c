/* A travel agency, in the manner of Vacation of STAMP. Customers call; a call reserves a car, a flight and a room, or cancels all that its
   customer has. The cores share the calls between them, GRAIN calls a transaction. Two calls are in conflict where they have an item or a
   customer in common, and not where they merely search in the same table.

   Who gets what depends on the order of the transactions. At the end, in any order: of each item what is free and what is reserved are all
   its places, and the bill of each customer is the sum of what the reservations cost. Core 0 prints the tables and whether this is so. */

#include "machine.h"

#ifndef CALLS
#define CALLS 16
#endif
#ifndef GRAIN
#define GRAIN 1     /* calls a transaction */
#endif
#ifndef ITEMS
#define ITEMS 4     /* of each kind */
#endif
#ifndef CUSTOMERS
#define CUSTOMERS 4
#endif
#ifndef UNCHECKED
#define UNCHECKED 0    /* 1: the program ends where the check would begin */
#endif

enum { CARS, FLIGHTS, ROOMS, KINDS };
enum { PLACES = 2, MOST = 9 };  /* places of an item; reservations that a customer can have */

struct item {
    unsigned free, price;
};

struct reservation {
    unsigned short kind, item;
    unsigned price;             /* as it was then */
};

struct customer {
    unsigned bill, count;
    struct reservation reservations[MOST];
};

static struct item items[KINDS][ITEMS] = {
    [CARS] = {[0 ... ITEMS - 1] = {PLACES, 20}},
    [FLIGHTS] = {[0 ... ITEMS - 1] = {PLACES, 90}},
    [ROOMS] = {[0 ... ITEMS - 1] = {PLACES, 50}},
};
static struct customer customers[CUSTOMERS];
static unsigned finished;

/* A number that looks as if drawn by lot, the same each time. */
static inline unsigned draw(unsigned number)
{
    number = (number + 1) * 2654435769u;
    number = (number ^ number >> 15) * 2246822519u;
    return number ^ number >> 13;
}

/* Of two items the cheaper one that has a place; ITEMS, where neither has. */
static unsigned choose(const struct item *table, unsigned one, unsigned other)
{
    if (!table[one].free)
        return table[other].free ? other : ITEMS;
    return table[other].free && table[other].price < table[one].price ? other : one;
}

/* Reserves an item. The next one who asks for it pays 1 more. */
static void reserve(struct customer *customer, unsigned kind, unsigned item)
{
    struct item *taken = &items[kind][item];
    struct reservation *made = &customer->reservations[customer->count++];

    made->kind = kind;
    made->item = item;
    made->price = taken->price;
    customer->bill += taken->price;
    taken->price++;
    taken->free--;
}

static void cancel(struct customer *customer)
{
    while (customer->count) {
        const struct reservation *last = &customer->reservations[--customer->count];

        customer->bill -= last->price;
        items[last->kind][last->item].free++;
    }
}

/* What a call wants follows from its number. Each fourth one cancels, and so does one of a customer who can have no more. */
static void answer(unsigned call)
{
    unsigned wish = draw(call);
    struct customer *customer = &customers[wish % CUSTOMERS];

    if (call % 4 == 3 || customer->count + KINDS > MOST) {
        cancel(customer);
        return;
    }
    for (unsigned kind = 0; kind < KINDS; kind++) {
        unsigned asked = draw(wish + kind), item = choose(items[kind], asked % ITEMS, (asked >> 8) % ITEMS);

        if (item != ITEMS)
            reserve(customer, kind, item);
    }
}

/* How many customers' reservations are of this item. */
static unsigned reserved(unsigned kind, unsigned item)
{
    unsigned count = 0;

    for (unsigned i = 0; i < CUSTOMERS; i++)
        for (unsigned j = 0; j < customers[i].count; j++)
            count += customers[i].reservations[j].kind == kind && customers[i].reservations[j].item == item;
    return count;
}

static void print_row(const char *name, unsigned first, const char *between, unsigned second)
{
    print(name);
    print_plain(first);
    print(between);
    print_plain(second);
    print_char('\n');
}

/* Prints the items, and counts those of which places were lost or made. */
static unsigned check_items(void)
{
    static const char *const names[KINDS] = {"car ", "flight ", "room "};
    unsigned wrong = 0;

    for (unsigned kind = 0; kind < KINDS; kind++)
        for (unsigned item = 0; item < ITEMS; item++) {
            unsigned free = items[kind][item].free, count = reserved(kind, item);

            print_row(names[kind], free, " free, reserved ", count);
            wrong += free > PLACES || free + count != PLACES;
        }
    return wrong;
}

/* Prints the customers, and counts those whose bill is wrong. */
static unsigned check_bills(void)
{
    unsigned wrong = 0;

    for (unsigned i = 0; i < CUSTOMERS; i++) {
        const struct customer *customer = &customers[i];
        unsigned sum = 0;

        for (unsigned j = 0; j < customer->count; j++)
            sum += customer->reservations[j].price;
        print_row("customer has ", customer->count, ", pays ", customer->bill);
        wrong += sum != customer->bill;
    }
    return wrong;
}

int main(unsigned core, unsigned cores)
{
    for (unsigned first = core * GRAIN; first < CALLS; first += cores * GRAIN) {
        for (unsigned call = first; call < first + GRAIN && call < CALLS; call++)
            answer(call);
        commit();
    }
    finished++;
    if (core != 0)
        return 0;
    wait_for(&finished, cores);
    if (UNCHECKED)
        return 0;
    unsigned items_wrong = check_items(), bills_wrong = check_bills();
    if (items_wrong)
        print_row("broken: items ", items_wrong, " of ", KINDS * ITEMS);
    if (bills_wrong)
        print_row("broken: bills ", bills_wrong, " of ", CUSTOMERS);
    if (items_wrong || bills_wrong)
        return 1;
    print("ok\n");
    return 0;
}
