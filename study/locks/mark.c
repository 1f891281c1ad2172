/* Test-and-test-and-set whose holder leaves its number in the lock word: a store to the word inside. */
#include "lock.h"

void take(struct lock_words *lock, struct place *place)
{
    do {
        while (lock->word != 0)
            ;
    } while (__atomic_exchange_n(&lock->word, 1, __ATOMIC_ACQUIRE) != 0);
    lock->word = place->hart + 2;
}

void give(struct lock_words *lock, struct place *place)
{
    (void)place;
    __atomic_thread_fence(__ATOMIC_RELEASE);
    lock->word = 0;
}
