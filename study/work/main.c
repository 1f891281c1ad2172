/* Each hart does its turns; hart 0 waits for all and prints the result. */
#include "runtime.h"
#include "work.h"

static struct place places[MOST_HARTS];
static _Alignas(64) volatile unsigned finished;

int main(unsigned hart, unsigned harts)
{
    places[hart].hart = hart;
    work(hart, &places[hart]);
    __atomic_fetch_add(&finished, 1, __ATOMIC_ACQ_REL);
    if (hart != 0)
        return 0;
    while (finished != harts)
        ;
    print_number(result(harts));
    print("\n");
    return 0;
}
