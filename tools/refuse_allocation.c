/* Refuses one allocation of the program that it is loaded into: the one with the number that REFUSED_ALLOCATION tells,
 * counted from 1. How many allocations there were stands in the first eight bytes of the file that COUNTED_ALLOCATIONS
 * names, at each moment, since a program may end without telling anybody. tools/preloaded.py builds it. */
#define _GNU_SOURCE
#include <dlfcn.h>
#include <errno.h>
#include <fcntl.h>
#include <stdatomic.h>
#include <stdlib.h>
#include <sys/mman.h>

static atomic_long *allocations;
static long refused;
static void *(*next_malloc)(size_t);
static void *(*next_realloc)(void *, size_t);

__attribute__((constructor)) static void begin(void) {
    const char *number = getenv("REFUSED_ALLOCATION"), *path = getenv("COUNTED_ALLOCATIONS");
    next_realloc = dlsym(RTLD_NEXT, "realloc");
    next_malloc = dlsym(RTLD_NEXT, "malloc");
    int file = path ? open(path, O_RDWR) : -1;
    void *shared = mmap(NULL, sizeof *allocations, PROT_READ | PROT_WRITE, MAP_SHARED, file, 0);
    if (number && shared != MAP_FAILED) {
        refused = atol(number);
        allocations = shared;
    }
}

static int is_refused(void) {
    return allocations && atomic_fetch_add(allocations, 1) + 1 == refused;
}

void *malloc(size_t size) {
    return !next_malloc || is_refused() ? (errno = ENOMEM, NULL) : next_malloc(size);
}

void *realloc(void *bytes, size_t size) {
    return !next_realloc || is_refused() ? (errno = ENOMEM, NULL) : next_realloc(bytes, size);
}
