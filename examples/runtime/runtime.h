/* A minimal runtime for C programs on elide: exit, output, and a spin lock. */
#ifndef ELIDE_RUNTIME_H
#define ELIDE_RUNTIME_H

/* Ends this hart alone, with a code. */
_Noreturn void exit_hart(int code);

/* One write call, which is short at the end of each line of 64 bytes; in start.S. */
long write_some(int file, const void *bytes, unsigned long count);

/* Writes all of the bytes, however short each write is; 0, or a negative error number. */
long write_all(const void *bytes, unsigned long count);

void print(const char *text);
void print_number(unsigned number);

/* A lock that spins on an atomic swap: 0 where it is free. It has a line of 64 bytes of its own. */
struct lock {
    _Alignas(64) volatile unsigned held;
};

void acquire(struct lock *lock);
void release(struct lock *lock);

#endif
