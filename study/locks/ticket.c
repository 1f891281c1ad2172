/* A ticket lock: draw a ticket by an atomic addition, wait until it is served. */
#include "lock.h"

void take(struct lock_words *lock, struct place *place)
{
    (void)place;
    unsigned ticket = __atomic_fetch_add(&lock->word, 1, __ATOMIC_RELAXED);
    while (__atomic_load_n(&lock->second, __ATOMIC_ACQUIRE) != ticket)
        ;
}

void give(struct lock_words *lock, struct place *place)
{
    (void)place;
    __atomic_store_n(&lock->second, lock->second + 1, __ATOMIC_RELEASE);
}
