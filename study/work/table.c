/* A table of 16 buckets, each with a lock of its own: each turn adds 1 to a drawn bucket. Result: 64 for each hart. */
#include "work.h"

enum { BUCKETS = 16 };

static struct lock_words locks[BUCKETS];
static struct own counts[BUCKETS];

void work(unsigned hart, struct place *place)
{
    unsigned state = (hart + 1) * 2463534242u;
    for (int turn = 0; turn < TURNS; turn++) {
        unsigned bucket = drawn(&state) % BUCKETS;
        take(&locks[bucket], place);
        counts[bucket].value = counts[bucket].value + 1;
        give(&locks[bucket], place);
    }
}

unsigned result(unsigned harts)
{
    (void)harts;
    unsigned sum = 0;
    for (int bucket = 0; bucket < BUCKETS; bucket++)
        sum += counts[bucket].value;
    return sum;
}
