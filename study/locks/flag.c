/* The builtins for a flag of one byte, as the compilers make them: GCC an `amoor.w`, clang a loop of `lr.w` and
 * `sc.w`. */
#include "lock.h"

void take(struct lock_words *lock, struct place *place)
{
    (void)place;
    while (__atomic_test_and_set((volatile unsigned char *)&lock->word, __ATOMIC_ACQUIRE))
        ;
}

void give(struct lock_words *lock, struct place *place)
{
    (void)place;
    __atomic_clear((volatile unsigned char *)&lock->word, __ATOMIC_RELEASE);
}
