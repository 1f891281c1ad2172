/* A shared counter: each turn adds 1 to one word under one lock. Result: 64 for each hart. */
#include "work.h"

static struct lock_words lock;
static struct own counter;

void work(unsigned hart, struct place *place)
{
    (void)hart;
    for (int turn = 0; turn < TURNS; turn++) {
        take(&lock, place);
        counter.value = counter.value + 1;
        give(&lock, place);
    }
}

unsigned result(unsigned harts)
{
    (void)harts;
    return counter.value;
}
