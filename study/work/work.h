/* What the programs share. `work` is all turns of a hart, and `result` what hart 0 prints when all harts are done;
 * study/sweep.py knows by a formula what that has to be. */
#ifndef STUDY_WORK_H
#define STUDY_WORK_H

#include "lock.h"

enum { TURNS = 64, MOST_HARTS = 8 };

/* A word that lies on a line of 64 bytes of its own. */
struct own {
    _Alignas(64) volatile unsigned value;
};

void work(unsigned hart, struct place *place);
unsigned result(unsigned harts);

/* The next number of a sequence (G. Marsaglia, 'Xorshift RNGs', 2003). */
static inline unsigned drawn(unsigned *state)
{
    *state ^= *state << 13;
    *state ^= *state >> 17;
    *state ^= *state << 5;
    return *state;
}

#endif
