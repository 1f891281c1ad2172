/* Two accounts of 10,000 under one lock: a hart with an even number moves 1 from the first to the second in each turn,
 * one with an odd number moves it back. Result: the first account, 10,000 less 64 where the harts are an odd number. */
#include "work.h"

static struct lock_words lock;
static struct own accounts[2] = { { 10000 }, { 10000 } };

void work(unsigned hart, struct place *place)
{
    volatile unsigned *from = &accounts[hart % 2].value;
    volatile unsigned *to = &accounts[1 - hart % 2].value;
    for (int turn = 0; turn < TURNS; turn++) {
        take(&lock, place);
        *from = *from - 1;
        *to = *to + 1;
        give(&lock, place);
    }
}

unsigned result(unsigned harts)
{
    (void)harts;
    /* 0 where money was lost or made. */
    return accounts[0].value + accounts[1].value == 20000 ? accounts[0].value : 0;
}
