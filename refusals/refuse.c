/* The allocation of the number in REFUSED_ALLOCATION, counted from 1, is refused; at the end, where TELL_ALLOCATIONS is set, their
   number goes to standard error. For LD_PRELOAD. */
#define _GNU_SOURCE
#include <dlfcn.h>
#include <errno.h>
#include <stdio.h>
#include <stdlib.h>
#include <unistd.h>

static long count, refused = -1;
static void *(*next_malloc)(size_t);
static void *(*next_realloc)(void *, size_t);

static int is_refused(void) {
    if (!next_malloc) {
        const char *number = getenv("REFUSED_ALLOCATION");
        next_realloc = (void *(*)(void *, size_t))dlsym(RTLD_NEXT, "realloc");
        next_malloc = (void *(*)(size_t))dlsym(RTLD_NEXT, "malloc");
        refused = number ? atol(number) : -1;
    }
    count++;
    if (count == refused) {
        errno = ENOMEM;
    }
    return count == refused;
}

void *malloc(size_t size) {
    return is_refused() ? NULL : next_malloc(size);
}

void *realloc(void *old, size_t size) {
    return is_refused() ? NULL : next_realloc(old, size);
}

__attribute__((destructor)) static void tell(void) {
    if (getenv("TELL_ALLOCATIONS")) {
        char line[32];
        int length = snprintf(line, sizeof line, "%ld\n", count);
        if (write(2, line, (size_t)length) != length) {
            _exit(1);
        }
    }
}
