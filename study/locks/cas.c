/* Compare and exchange, which both compilers make a loop of `lr.w` and `sc.w`. The release is an atomic store. */
#include "lock.h"

void take(struct lock_words *lock, struct place *place)
{
    (void)place;
    unsigned free;
    do
        free = 0;
    while (!__atomic_compare_exchange_n(&lock->word, &free, 1, 1, __ATOMIC_ACQUIRE, __ATOMIC_RELAXED));
}

void give(struct lock_words *lock, struct place *place)
{
    (void)place;
    __atomic_store_n(&lock->word, 0, __ATOMIC_RELEASE);
}
