/* One lock over data that never meets: each turn adds 1 to a word of the hart's own. Result: 64 for each hart. */
#include "work.h"

static struct lock_words lock;
static struct own counts[MOST_HARTS];

void work(unsigned hart, struct place *place)
{
    for (int turn = 0; turn < TURNS; turn++) {
        take(&lock, place);
        counts[hart].value = counts[hart].value + 1;
        give(&lock, place);
    }
}

unsigned result(unsigned harts)
{
    unsigned sum = 0;
    for (unsigned hart = 0; hart < harts; hart++)
        sum += counts[hart].value;
    return sum;
}
