/* A router of wires, in the manner of Labyrinth of STAMP. Cores take pairs of ends from a list, GRAIN at a time. For each pair a wave goes
   out from one end over the free cells of a grid that all share (Lee's algorithm) until it comes to the other end, and the way back is the
   path, which is written into the grid. A pair that no path joins any more is left out.

   A transaction has read every cell that its wave came to, so it is in conflict with each path that is written there meanwhile. With
   -DCOPY=1 a short transaction copies the grid, and the next one sends the wave over the copy, which is its core's own; then it looks
   whether the path's cells are still free in the grid, and writes them, or begins anew. It reads no more of the grid than the path.

   Which paths there are depends on the order. At the end, in any order: a path leads from one end of its pair to the other, from neighbour
   to neighbour; the grid has each path's number in all its cells, and in no others, so paths don't cross; and a pair without a path has
   none in the end either, since the grid only fills up. Core 0 prints the grid and whether this is so. */

#include "machine.h"

#ifndef SIDE
#define SIDE 8      /* cells a row; with 32, link with RAM=131072 STACK=8192 */
#endif
#ifndef PAIRS
#define PAIRS 6     /* at most 26 */
#endif
#ifndef GRAIN
#define GRAIN 1     /* pairs a transaction */
#endif
#ifndef COPY
#define COPY 0
#endif
#ifndef UNCHECKED
#define UNCHECKED 0    /* 1: the program ends where the check would begin */
#endif

enum { CELLS = SIDE * SIDE };

struct path {
    unsigned length;    /* 0: there is none */
    unsigned short cells[CELLS];
};

static unsigned char grid[CELLS];   /* 0: free; else the pair's number, counted from 1 */
static struct path paths[PAIRS];
static unsigned next, finished;

/* An end of a pair, by a number that looks as if drawn by lot. */
static unsigned end_of(unsigned pair, unsigned which)
{
    unsigned drawn = (2 * pair + which + 1) * 2654435769u;

    drawn = (drawn ^ drawn >> 15) * 2246822519u;
    return (drawn >> 16) % CELLS;
}

/* The neighbour of a cell in one of four directions; the cell itself, where that would leave the grid. */
static unsigned beside(unsigned cell, unsigned direction)
{
    switch (direction) {
    case 0: return cell % SIDE + 1 < SIDE ? cell + 1 : cell;
    case 1: return cell + SIDE < CELLS ? cell + SIDE : cell;
    case 2: return cell % SIDE ? cell - 1 : cell;
    default: return cell >= SIDE ? cell - SIDE : cell;
    }
}

/* The wave: steps[cell] is how far a cell is from `to`, counted from 1, and 0 where the wave hasn't come. Whether it comes to `from`. */
static int expand(const unsigned char *cells, unsigned from, unsigned to, unsigned short *steps)
{
    unsigned short reached[CELLS];
    unsigned count = 0;

    for (unsigned i = 0; i < CELLS; i++)
        steps[i] = 0;
    if (cells[to] || cells[from])
        return 0;
    steps[to] = 1;
    reached[count++] = to;
    for (unsigned i = 0; i < count && !steps[from]; i++)
        for (unsigned direction = 0; direction < 4; direction++) {
            unsigned cell = beside(reached[i], direction);

            if (steps[cell] || cells[cell])
                continue;
            steps[cell] = steps[reached[i]] + 1;
            reached[count++] = cell;
        }
    return steps[from] != 0;
}

/* Makes the path of a pair from the wave, where it came so far: each cell is one step nearer than the one before. */
static void plan(unsigned pair)
{
    struct path *path = &paths[pair];
    unsigned cell = end_of(pair, 0), to = end_of(pair, 1);
    unsigned char copy[CELLS];
    unsigned short steps[CELLS];

    for (unsigned i = 0; COPY && i < CELLS; i++)
        copy[i] = grid[i];
    if (COPY)
        commit();
    path->length = 0;
    if (!expand(COPY ? copy : grid, cell, to, steps))
        return;
    path->cells[path->length++] = cell;
    while (cell != to) {
        unsigned direction = 0;

        while (steps[beside(cell, direction)] != steps[cell] - 1)
            direction++;
        cell = beside(cell, direction);
        path->cells[path->length++] = cell;
    }
}

/* Writes a path into the grid, unless one of its cells has been taken. */
static int claim(unsigned pair)
{
    const struct path *path = &paths[pair];

    for (unsigned i = 0; i < path->length; i++)
        if (grid[path->cells[i]])
            return 0;
    for (unsigned i = 0; i < path->length; i++)
        grid[path->cells[i]] = pair + 1;
    return 1;
}

/* Whether a path is one, from end to end, and has all its cells; or there is none, now as then. */
static int sound(unsigned pair)
{
    const struct path *path = &paths[pair];
    unsigned from = end_of(pair, 0), to = end_of(pair, 1);
    unsigned short steps[CELLS];

    if (!path->length)
        return !expand(grid, from, to, steps);
    for (unsigned i = 0; i < path->length; i++) {
        unsigned cell = path->cells[i], direction = 0;

        if (grid[cell] != pair + 1)
            return 0;
        while (i && direction < 4 && beside(path->cells[i - 1], direction) != cell)
            direction++;
        if (direction == 4)
            return 0;
    }
    return path->cells[0] == from && path->cells[path->length - 1] == to;
}

static unsigned print_grid(void)
{
    unsigned taken = 0;

    for (unsigned cell = 0; cell < CELLS; cell++) {
        print_char(grid[cell] ? 'a' + grid[cell] - 1 : '.');
        if (cell % SIDE == SIDE - 1)
            print_char('\n');
        taken += grid[cell] != 0;
    }
    return taken;
}

/* Core 0's last transaction: prints the grid and the check. */
static int check(void)
{
    unsigned taken = print_grid(), lengths = 0, unsound = 0;

    for (unsigned pair = 0; pair < PAIRS; pair++) {
        lengths += paths[pair].length;
        if (sound(pair))
            continue;
        unsound++;
        print("broken: path ");
        print_char('a' + pair);
        print_char('\n');
    }
    if (taken != lengths)
        print("broken: the grid has other cells than the paths\n");
    if (unsound || taken != lengths)
        return 1;
    print("ok\n");
    return 0;
}

int main(unsigned core, unsigned cores)
{
    for (;;) {
        unsigned first = next;

        if (first >= PAIRS)
            break;
        next = first + GRAIN;
        commit();
        for (unsigned pair = first; pair < first + GRAIN && pair < PAIRS; pair++)
            do
                plan(pair);
            while (!claim(pair));
        commit();
    }
    finished++;
    if (core != 0)
        return 0;
    wait_for(&finished, cores);
    return UNCHECKED ? 0 : check();
}
