/* Test-and-test-and-set, given back by a swap (`amoswap.w.rl`), as the RISC-V manual's example does. */
#include "lock.h"

void take(struct lock_words *lock, struct place *place)
{
    (void)place;
    do {
        while (lock->word != 0)
            ;
    } while (__atomic_exchange_n(&lock->word, 1, __ATOMIC_ACQUIRE) != 0);
}

void give(struct lock_words *lock, struct place *place)
{
    (void)place;
    (void)__atomic_exchange_n(&lock->word, 0, __ATOMIC_RELEASE);
}
