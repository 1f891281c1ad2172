/* What private_in_c.c does, under a mutex as a C library has it: taken by a compare-and-swap of 1 over 0, which
 * compilers make of LR.W and SC.W, and given back by an exchange. Hart 0 prints the sum, 8 times the number of harts. */
#include "runtime.h"

enum { TURNS = 8, MOST_HARTS = 8 };

struct mutex {
    _Alignas(64) unsigned state; /* 0: free, 1: taken */
};

struct own {
    _Alignas(64) volatile unsigned count;
};

static struct mutex mutex;
static struct own own[MOST_HARTS];
static _Alignas(64) volatile unsigned finished;

static int try_lock(struct mutex *mutex)
{
    unsigned free = 0;
    return __atomic_compare_exchange_n(&mutex->state, &free, 1, 0, __ATOMIC_ACQUIRE, __ATOMIC_RELAXED);
}

static void lock(struct mutex *mutex)
{
    while (!try_lock(mutex))
        ;
}

static void unlock(struct mutex *mutex)
{
    __atomic_exchange_n(&mutex->state, 0, __ATOMIC_RELEASE);
}

int main(unsigned hart, unsigned harts)
{
    volatile unsigned *count = &own[hart].count;
    for (int turn = 0; turn < TURNS; turn++) {
        lock(&mutex);
        *count = *count + 1;
        unlock(&mutex);
    }
    __atomic_fetch_add(&finished, 1, __ATOMIC_ACQ_REL);
    if (hart != 0)
        return 0;
    while (finished != harts)
        ;
    unsigned sum = 0;
    for (unsigned other = 0; other < harts; other++)
        sum += own[other].count;
    print_number(sum);
    print("\n");
    return 0;
}
