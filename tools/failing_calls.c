// Makes one call of the C library fail, to show what a program does then. Loaded before the program's libraries:
//
//   cc -shared -fPIC -O2 -o failing_calls.so tools/failing_calls.c
//   FAIL=malloc:3 REACHED=FILE LD_PRELOAD=./failing_calls.so PROGRAM WORD..
//
// FAIL is a kind and a number, counted from 1 over the calls of that kind that the program itself makes: `malloc` (with
// realloc and the aligned ones) answers NULL, `read`, `write` and `open` fail with EIO; `short-read` and `short-write`
// are given one byte alone, where they ask for more. FILE is made where the call was reached.
#define _GNU_SOURCE
#include <errno.h>
#include <fcntl.h>
#include <link.h>
#include <stdarg.h>
#include <stdatomic.h>
#include <stdint.h>
#include <stdlib.h>
#include <string.h>
#include <sys/syscall.h>
#include <unistd.h>

enum kind { NONE, MALLOC, READ, WRITE, OPEN };

static enum kind kind;
static int is_short;
static long number;
static atomic_long calls;
static uintptr_t first, last; // where the program itself lies

static int find_program(struct dl_phdr_info *info, size_t size, void *data)
{
    (void)size, (void)data;
    first = UINTPTR_MAX;
    for (int i = 0; i < info->dlpi_phnum; i++) {
        const ElfW(Phdr) *header = &info->dlpi_phdr[i];
        uintptr_t start = info->dlpi_addr + header->p_vaddr;
        if (header->p_type != PT_LOAD)
            continue;
        if (start < first)
            first = start;
        if (start + header->p_memsz > last)
            last = start + header->p_memsz;
    }
    return 1; // the program is the first object
}

__attribute__((constructor)) static void begin(void)
{
    static const struct { const char *name; enum kind kind; int is_short; } kinds[] = {
        {"malloc:", MALLOC, 0}, {"read:", READ, 0}, {"write:", WRITE, 0}, {"open:", OPEN, 0},
        {"short-read:", READ, 1}, {"short-write:", WRITE, 1},
    };
    const char *fail = getenv("FAIL");
    dl_iterate_phdr(find_program, NULL);
    for (size_t i = 0; fail && i < sizeof kinds / sizeof *kinds; i++) {
        size_t length = strlen(kinds[i].name);
        if (strncmp(fail, kinds[i].name, length) == 0) {
            kind = kinds[i].kind;
            is_short = kinds[i].is_short;
            number = atol(fail + length);
        }
    }
}

// Whether this call, made from there, is the one that is to fail.
static int fails(enum kind called, void *from)
{
    if (called != kind || (uintptr_t)from < first || (uintptr_t)from >= last)
        return 0;
    if (atomic_fetch_add(&calls, 1) + 1 != number)
        return 0;
    const char *reached = getenv("REACHED");
    if (reached) {
        long file = syscall(SYS_openat, AT_FDCWD, reached, O_WRONLY | O_CREAT, 0600);
        syscall(SYS_close, file);
    }
    return 1;
}

#define FROM __builtin_return_address(0)

extern void *__libc_malloc(size_t);
extern void *__libc_realloc(void *, size_t);
extern void *__libc_calloc(size_t, size_t);
extern void *__libc_memalign(size_t, size_t);

static void *no_memory(void)
{
    errno = ENOMEM;
    return NULL;
}

void *malloc(size_t size) { return fails(MALLOC, FROM) ? no_memory() : __libc_malloc(size); }
void *realloc(void *old, size_t size) { return fails(MALLOC, FROM) ? no_memory() : __libc_realloc(old, size); }
void *calloc(size_t count, size_t size) { return fails(MALLOC, FROM) ? no_memory() : __libc_calloc(count, size); }
void *aligned_alloc(size_t to, size_t size) { return fails(MALLOC, FROM) ? no_memory() : __libc_memalign(to, size); }

int posix_memalign(void **made, size_t to, size_t size)
{
    if (fails(MALLOC, FROM))
        return ENOMEM;
    *made = __libc_memalign(to, size);
    return *made ? 0 : ENOMEM;
}

static ssize_t transfer(enum kind called, void *from, long call, int file, const void *bytes, size_t count)
{
    if (fails(called, from)) {
        if (!is_short) {
            errno = EIO;
            return -1;
        }
        count = count > 1 ? 1 : count;
    }
    return syscall(call, file, bytes, count);
}

ssize_t read(int file, void *bytes, size_t count) { return transfer(READ, FROM, SYS_read, file, bytes, count); }
ssize_t write(int file, const void *bytes, size_t count) { return transfer(WRITE, FROM, SYS_write, file, bytes, count); }
ssize_t __write(int file, const void *bytes, size_t count) { return transfer(WRITE, FROM, SYS_write, file, bytes, count); }

static int open_file(void *from, const char *name, int flags, unsigned mode)
{
    if (fails(OPEN, from)) {
        errno = EIO;
        return -1;
    }
    return (int)syscall(SYS_openat, AT_FDCWD, name, flags, mode);
}

#define MODE(flags, mode)                                                                                               \
    unsigned mode = 0;                                                                                                  \
    va_list words;                                                                                                      \
    va_start(words, flags);                                                                                             \
    if (flags & O_CREAT)                                                                                                \
        mode = va_arg(words, unsigned);                                                                                 \
    va_end(words)

int open(const char *name, int flags, ...)
{
    MODE(flags, mode);
    return open_file(FROM, name, flags, mode);
}

int open64(const char *name, int flags, ...)
{
    MODE(flags, mode);
    return open_file(FROM, name, flags, mode);
}
