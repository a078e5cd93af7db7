/* K-means in integers, in the manner of Kmeans of STAMP. In each round every point is added to the sums of its nearest centre, GRAIN points
   a transaction; then core 0 moves each centre to the middle of its points. Between rounds all wait for each other. Two transactions are in
   conflict where they add to the same centre.

   Sums of integers don't depend on the order, so at the end, in any order: each round has counted every point once, and the centres are
   those that one core computes alone. Core 0 does that, prints the centres, and says whether it is so. */

#include "machine.h"

#ifndef POINTS
#define POINTS 16
#endif
#ifndef GRAIN
#define GRAIN 1     /* points a transaction */
#endif
#ifndef CENTRES
#define CENTRES 3
#endif
#ifndef ROUNDS
#define ROUNDS 3
#endif
#ifndef SIZES
#define SIZES 2     /* dimensions: 2 or 3 */
#endif
#ifndef UNCHECKED
#define UNCHECKED 0    /* 1: the program ends where the check would begin */
#endif

/* A centre, with the points that are its own in this round: how many, and their sums. */
struct centre {
    int at[SIZES];
    unsigned count;
    int sums[SIZES];
};

static struct centre centres[CENTRES];
static unsigned arrived, rounds_begun, miscounted;

/* Where a point is: around one of as many places as there are centres, by a number that looks as if drawn by lot. */
static inline int place(unsigned point, unsigned size)
{
    unsigned drawn = (point * SIZES + size + 1) * 2654435769u;

    drawn = (drawn ^ drawn >> 15) * 2246822519u;
    return (int)(point % CENTRES * (size + 1) % CENTRES * 40 + (drawn >> 16) % 50);
}

/* At first the centres are the first points. */
static void begin(struct centre *all)
{
    for (unsigned i = 0; i < CENTRES; i++)
        for (unsigned size = 0; size < SIZES; size++)
            all[i].at[size] = place(i, size);
}

static unsigned nearest(const struct centre *all, unsigned point)
{
    unsigned best = 0, least = ~0u;

    for (unsigned i = 0; i < CENTRES; i++) {
        unsigned distance = 0;

        for (unsigned size = 0; size < SIZES; size++) {
            int apart = all[i].at[size] - place(point, size);

            distance += (unsigned)(apart * apart);
        }
        if (distance < least) {
            least = distance;
            best = i;
        }
    }
    return best;
}

static void add(struct centre *all, unsigned point)
{
    struct centre *centre = &all[nearest(all, point)];

    centre->count++;
    for (unsigned size = 0; size < SIZES; size++)
        centre->sums[size] += place(point, size);
}

/* Moves the centres, and gives how many points were counted. A centre without points stays. */
static unsigned move(struct centre *all)
{
    unsigned counted = 0;

    for (unsigned i = 0; i < CENTRES; i++) {
        for (unsigned size = 0; size < SIZES; size++) {
            if (all[i].count)
                all[i].at[size] = all[i].sums[size] / (int)all[i].count;
            all[i].sums[size] = 0;
        }
        counted += all[i].count;
        all[i].count = 0;
    }
    return counted;
}

/* The barrier. Each core says that it is there. When all are, core 0 does what comes between rounds and opens the next one; the others wait
   for that. Nobody gets ahead: the next round isn't over before all have arrived again. */
static void meet(unsigned core, unsigned cores, unsigned round)
{
    arrived++;
    commit();
    if (core == 0) {
        wait_for(&arrived, cores * round);
        miscounted += move(centres) != POINTS;
        rounds_begun++;
        commit();
    }
    wait_for(&rounds_begun, round + 1);
}

static void print_centres(const struct centre *all)
{
    for (unsigned i = 0; i < CENTRES; i++) {
        print("centre");
        for (unsigned size = 0; size < SIZES; size++) {
            print_char(' ');
            print_plain((unsigned)all[i].at[size]);
        }
        print_char('\n');
    }
}

/* Whether these are the centres that one core computes alone. */
static int as_alone(const struct centre *all)
{
    struct centre own[CENTRES] = {0};
    int same = 1;

    begin(own);
    for (unsigned round = 0; round < ROUNDS; round++) {
        for (unsigned point = 0; point < POINTS; point++)
            add(own, point);
        move(own);
    }
    for (unsigned i = 0; i < CENTRES; i++)
        for (unsigned size = 0; size < SIZES; size++)
            same &= own[i].at[size] == all[i].at[size];
    return same;
}

int main(unsigned core, unsigned cores)
{
    if (core == 0) {
        begin(centres);
        rounds_begun = 1;
        commit();
    }
    wait_for(&rounds_begun, 1);
    for (unsigned round = 1; round <= ROUNDS; round++) {
        for (unsigned first = core * GRAIN; first < POINTS; first += cores * GRAIN) {
            for (unsigned point = first; point < first + GRAIN && point < POINTS; point++)
                add(centres, point);
            commit();
        }
        meet(core, cores, round);
    }
    if (core != 0 || UNCHECKED)
        return 0;
    print_centres(centres);
    int same = as_alone(centres);
    if (miscounted)
        print("broken: a round didn't count each point once\n");
    if (!same)
        print("broken: one core alone has other centres\n");
    if (miscounted || !same)
        return 1;
    print("ok\n");
    return 0;
}
