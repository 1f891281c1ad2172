/* The queue lock of Mellor-Crummey and Scott: swap the tail for a node of one's own, wait at one's own node. */
#include "lock.h"

void take(struct lock_words *lock, struct place *place)
{
    place->next = 0;
    place->waits = 1;
    struct place *before = (struct place *)__atomic_exchange_n(&lock->word, (unsigned)place, __ATOMIC_ACQ_REL);
    if (before == 0)
        return;
    __atomic_store_n(&before->next, place, __ATOMIC_RELEASE);
    while (__atomic_load_n(&place->waits, __ATOMIC_ACQUIRE) != 0)
        ;
}

void give(struct lock_words *lock, struct place *place)
{
    unsigned tail = (unsigned)place;
    if (__atomic_load_n(&place->next, __ATOMIC_ACQUIRE) == 0) {
        if (__atomic_compare_exchange_n(&lock->word, &tail, 0, 0, __ATOMIC_RELEASE, __ATOMIC_RELAXED))
            return;
        while (__atomic_load_n(&place->next, __ATOMIC_ACQUIRE) == 0)
            ;
    }
    __atomic_store_n(&place->next->waits, 0, __ATOMIC_RELEASE);
}
