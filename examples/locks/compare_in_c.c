/* What private_in_c.c does, under a word that each hart takes by a weak compare-and-swap of its own number, counted
 * from 1, over 0, and gives back by a store. Hart 0 prints the sum, 8 times the number of harts. */
#include "runtime.h"

enum { TURNS = 8, MOST_HARTS = 8 };

struct own {
    _Alignas(64) volatile unsigned count;
};

static _Alignas(64) unsigned owner;
static struct own own[MOST_HARTS];
static _Alignas(64) volatile unsigned finished;

int main(unsigned hart, unsigned harts)
{
    volatile unsigned *count = &own[hart].count;
    for (int turn = 0; turn < TURNS; turn++) {
        unsigned nobody = 0;
        while (!__atomic_compare_exchange_n(&owner, &nobody, hart + 1, 1, __ATOMIC_ACQUIRE, __ATOMIC_RELAXED))
            nobody = 0;
        *count = *count + 1;
        __atomic_store_n(&owner, 0, __ATOMIC_RELEASE);
    }
    __atomic_fetch_add(&finished, 1, __ATOMIC_ACQ_REL);
    if (hart != 0)
        return 0;
    while (finished != harts)
        ;
    unsigned sum = 0;
    for (unsigned other = 0; other < harts; other++)
        sum += own[other].count;
    print_number(sum);
    print("\n");
    return 0;
}
