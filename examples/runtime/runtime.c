#include "runtime.h"

long write_all(const void *bytes, unsigned long count)
{
    const char *next = bytes;
    while (count > 0) {
        long written = write_some(1, next, count);
        if (written < 0)
            return written;
        next += written;
        count -= written;
    }
    return 0;
}

void print(const char *text)
{
    unsigned long length = 0;
    while (text[length] != 0)
        length++;
    write_all(text, length);
}

void print_number(unsigned number)
{
    char digits[10];
    int at = sizeof digits;
    do {
        digits[--at] = '0' + number % 10;
        number /= 10;
    } while (number != 0);
    write_all(digits + at, sizeof digits - at);
}

void acquire(struct lock *lock)
{
    /* amoswap.w.aq: the lock was free where the old value is 0. */
    do {
        while (lock->held != 0)
            ;
    } while (__atomic_exchange_n(&lock->held, 1, __ATOMIC_ACQUIRE) != 0);
}

void release(struct lock *lock)
{
    /* amoswap.w.rl puts back the value that the lock had before it was taken. */
    __atomic_exchange_n(&lock->held, 0, __ATOMIC_RELEASE);
}
