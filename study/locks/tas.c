/* Test-and-set: swap until the old value is 0. The release is an atomic store, as the compiler makes it. */
#include "lock.h"

void take(struct lock_words *lock, struct place *place)
{
    (void)place;
    while (__atomic_exchange_n(&lock->word, 1, __ATOMIC_ACQUIRE) != 0)
        ;
}

void give(struct lock_words *lock, struct place *place)
{
    (void)place;
    __atomic_store_n(&lock->word, 0, __ATOMIC_RELEASE);
}
