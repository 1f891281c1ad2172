/* What private.S does, in C: the swap is an exchange, and the release is a store. Hart 0 prints the sum,
 * which is 8 times the number of harts. */
#include "runtime.h"

enum { TURNS = 8, MOST_HARTS = 8 };

struct own {
    _Alignas(64) volatile unsigned count;
};

static struct lock lock;
static struct own own[MOST_HARTS];
static _Alignas(64) volatile unsigned finished;

int main(unsigned hart, unsigned harts)
{
    volatile unsigned *count = &own[hart].count;
    for (int turn = 0; turn < TURNS; turn++) {
        do {
            while (lock.held != 0)
                ;
        } while (__atomic_exchange_n(&lock.held, 1, __ATOMIC_ACQUIRE) != 0);
        *count = *count + 1;
        __atomic_store_n(&lock.held, 0, __ATOMIC_RELEASE);
    }
    __atomic_fetch_add(&finished, 1, __ATOMIC_ACQ_REL);
    if (hart != 0)
        return 0;
    while (finished != harts)
        ;
    unsigned sum = 0;
    for (unsigned other = 0; other < harts; other++)
        sum += own[other].count;
    print_number(sum);
    print("\n");
    return 0;
}
