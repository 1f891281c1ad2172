/* A long section: each turn adds 1 to each of 20 words on 20 lines, four more than a section may write where nothing
 * else is said. A quarter of the turns of the others. Result: 320 for each hart. */
#include "work.h"

enum { WORDS = 20 };

static struct lock_words lock;
static struct own words[WORDS];

void work(unsigned hart, struct place *place)
{
    (void)hart;
    for (int turn = 0; turn < TURNS / 4; turn++) {
        take(&lock, place);
        for (int at = 0; at < WORDS; at++)
            words[at].value = words[at].value + 1;
        give(&lock, place);
    }
}

unsigned result(unsigned harts)
{
    (void)harts;
    unsigned sum = 0;
    for (int at = 0; at < WORDS; at++)
        sum += words[at].value;
    return sum;
}
