/* Transfers between accounts that all cores share, a transaction each. What an account has at the end depends on the order; the total
   doesn't, since money is moved and never made. When all are done core 0 prints the accounts and their total. */

#include "machine.h"

enum { ACCOUNTS = 6, TRANSFERS = 3 };

static unsigned accounts[ACCOUNTS] = {16, 32, 48, 64, 80, 96};
static unsigned finished;

/* Moves half of what the first account has to the second. */
static inline void transfer(unsigned from, unsigned to)
{
    unsigned amount = accounts[from] / 2;

    accounts[from] -= amount;
    accounts[to] += amount;
}

static inline void print_accounts(void)
{
    unsigned total = 0;

    for (int i = 0; i < ACCOUNTS; i++) {
        print_plain(accounts[i]);
        print_char(' ');
        total += accounts[i];
    }
    print_char('=');
    print_char(' ');
    print_plain(total);
    print_char('\n');
}

int main(unsigned core, unsigned cores)
{
    for (unsigned i = 0; i < TRANSFERS; i++) {
        transfer((core + i) % ACCOUNTS, (core + 2 * i + 3) % ACCOUNTS);
        commit();
    }
    finished++;
    if (core != 0)
        return 0;
    wait_for(&finished, cores);
    print_accounts();
    return 0;
}
