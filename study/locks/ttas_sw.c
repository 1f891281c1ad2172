/* Test-and-test-and-set: look until it is free, then swap. The release is a fence and a plain store (`sw`). */
#include "lock.h"

void take(struct lock_words *lock, struct place *place)
{
    (void)place;
    do {
        while (lock->word != 0)
            ;
    } while (__atomic_exchange_n(&lock->word, 1, __ATOMIC_ACQUIRE) != 0);
}

void give(struct lock_words *lock, struct place *place)
{
    (void)place;
    __atomic_thread_fence(__ATOMIC_RELEASE);
    lock->word = 0;
}
