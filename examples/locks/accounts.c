/* One lock over two accounts of 1000 each: each hart 8 times moves 1, the harts with even numbers from the
 * first account to the second, the others back. Hart 0 prints both balances; their sum is always 2000. */
#include "runtime.h"

enum { TURNS = 8 };

struct account {
    _Alignas(64) volatile unsigned balance;
};

static struct lock lock;
static struct account accounts[2] = { { 1000 }, { 1000 } };
static _Alignas(64) volatile unsigned finished;

int main(unsigned hart, unsigned harts)
{
    volatile unsigned *from = &accounts[hart % 2].balance;
    volatile unsigned *to = &accounts[1 - hart % 2].balance;
    for (int turn = 0; turn < TURNS; turn++) {
        acquire(&lock);
        *from = *from - 1;
        *to = *to + 1;
        /* The release is a store, which no section begins at. */
        __atomic_thread_fence(__ATOMIC_RELEASE);
        lock.held = 0;
    }
    __atomic_fetch_add(&finished, 1, __ATOMIC_ACQ_REL);
    if (hart != 0)
        return 0;
    while (finished != harts)
        ;
    print_number(accounts[0].balance);
    print(" ");
    print_number(accounts[1].balance);
    print("\n");
    return 0;
}
