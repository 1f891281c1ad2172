/* As `apart`, but the words lie behind the lock on its own line of 64 bytes. Result: 64 for each hart. */
#include "work.h"

static struct {
    struct lock_words lock;
} at;

/* The struct of a lock fills its line: the words of the harts are the last eight of that line. */
static volatile unsigned *count_of(unsigned hart)
{
    return (volatile unsigned *)&at + 8 + hart;
}

void work(unsigned hart, struct place *place)
{
    volatile unsigned *count = count_of(hart);
    for (int turn = 0; turn < TURNS; turn++) {
        take(&at.lock, place);
        *count = *count + 1;
        give(&at.lock, place);
    }
}

unsigned result(unsigned harts)
{
    unsigned sum = 0;
    for (unsigned hart = 0; hart < harts; hart++)
        sum += *count_of(hart);
    return sum;
}
