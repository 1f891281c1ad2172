/* Each hart adds 1 to a counter 100 times under one lock; hart 0 waits for all and prints it:
 * 100 times the number of harts. */
#include "runtime.h"

enum { TURNS = 100 };

static struct lock lock;
static _Alignas(64) volatile unsigned counter;
static _Alignas(64) volatile unsigned finished;

int main(unsigned hart, unsigned harts)
{
    for (int turn = 0; turn < TURNS; turn++) {
        acquire(&lock);
        counter = counter + 1;
        release(&lock);
    }
    __atomic_fetch_add(&finished, 1, __ATOMIC_ACQ_REL);
    if (hart != 0)
        return 0;
    while (finished != harts)
        ;
    print_number(counter);
    print("\n");
    return 0;
}
