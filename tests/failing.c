/* Preloaded into the program (LD_PRELOAD), so that a call of the outside fails that would not. By the environment:
 *
 *   FAIL_ALLOC=N   allocation number N fails        FAIL_ALLOCS=N   each from number N on
 *   FAIL_IO=N      call number N fails              FAIL_IOS=N      each from number N on
 *   SHORT_IO=N     read or write number N moves one byte at the most
 *   SHORT_IOS=N    each from number N on
 *   COUNTS=FILE    where the program ends, the numbers of allocations, of calls, and of reads and writes go there
 *
 * Numbers count from 1. An allocation is malloc or realloc; a call is open, read, write, lseek, statx, ftruncate or
 * close. What the C library does before the program begins is not counted. */
#define _GNU_SOURCE
#include <dlfcn.h>
#include <errno.h>
#include <fcntl.h>
#include <stdarg.h>
#include <stdio.h>
#include <stdlib.h>
#include <sys/stat.h>
#include <unistd.h>

struct fault {
    unsigned long made, single, from;
};

static struct fault allocations, calls, moves;
static int counting;

static unsigned long number(const char *name) {
    const char *text = getenv(name);
    return text ? strtoul(text, NULL, 10) : 0;
}

__attribute__((constructor)) static void begin(void) {
    allocations = (struct fault){0, number("FAIL_ALLOC"), number("FAIL_ALLOCS")};
    calls = (struct fault){0, number("FAIL_IO"), number("FAIL_IOS")};
    moves = (struct fault){0, number("SHORT_IO"), number("SHORT_IOS")};
    counting = 1;
}

__attribute__((destructor)) static void tell(void) {
    const char *name = getenv("COUNTS");
    counting = 0;
    FILE *file = name ? fopen(name, "w") : NULL;
    if (file) {
        fprintf(file, "%lu %lu %lu\n", allocations.made, calls.made, moves.made);
        fclose(file);
    }
}

/* Counts one more, and tells whether it is to fail. */
static int fails(struct fault *fault) {
    if (!counting)
        return 0;
    fault->made++;
    return fault->made == fault->single || (fault->from && fault->made >= fault->from);
}

/* The C library's own function of this name, as `real`. */
#define REAL(name) \
    static __typeof__(name) *real; \
    if (!real) \
        real = (__typeof__(name) *)dlsym(RTLD_NEXT, #name)

void *malloc(size_t size) {
    REAL(malloc);
    if (fails(&allocations)) {
        errno = ENOMEM;
        return NULL;
    }
    return real(size);
}

void *realloc(void *block, size_t size) {
    REAL(realloc);
    if (fails(&allocations)) {
        errno = ENOMEM;
        return NULL;
    }
    return real(block, size);
}

static int refused(void) {
    if (!fails(&calls))
        return 0;
    errno = EIO;
    return 1;
}

int open(const char *name, int flags, ...) {
    REAL(open);
    va_list rest;
    va_start(rest, flags);
    int mode = va_arg(rest, int);
    va_end(rest);
    return refused() ? -1 : real(name, flags, mode);
}

ssize_t read(int file, void *into, size_t most) {
    REAL(read);
    if (refused())
        return -1;
    return real(file, into, fails(&moves) && most > 1 ? 1 : most);
}

ssize_t write(int file, const void *from, size_t most) {
    REAL(write);
    if (refused())
        return -1;
    return real(file, from, fails(&moves) && most > 1 ? 1 : most);
}

off_t lseek(int file, off_t by, int whence) {
    REAL(lseek);
    return refused() ? -1 : real(file, by, whence);
}

int statx(int folder, const char *restrict name, int flags, unsigned mask, struct statx *restrict found) {
    REAL(statx);
    return refused() ? -1 : real(folder, name, flags, mask, found);
}

int ftruncate(int file, off_t length) {
    REAL(ftruncate);
    return refused() ? -1 : real(file, length);
}

int close(int file) {
    REAL(close);
    if (!refused())
        return real(file);
    real(file);
    errno = EIO;
    return -1;
}
