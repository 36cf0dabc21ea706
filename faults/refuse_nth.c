/* Stands in front of malloc and realloc, counts their calls, and refuses the one whose number REFUSE_NTH gives.
   Without REFUSE_NTH it refuses none, and at the end prints how many there were.

   The program imports no other function that allocates: `nm -D` shows malloc, realloc and free, and neither calloc nor
   posix_memalign, aligned_alloc or mmap; faults/refusals looks at that each time. What a function of the C library takes
   for itself (calloc, mmap) stands behind its own failure, and is refused here only where it asks malloc or realloc. */
#define _GNU_SOURCE
#include <dlfcn.h>
#include <errno.h>
#include <stdio.h>
#include <stdlib.h>

static unsigned long calls, nth;

__attribute__((constructor)) static void begin(void) {
    const char *word = getenv("REFUSE_NTH");
    nth = word ? strtoul(word, NULL, 10) : 0;
    calls = 0;
}

__attribute__((destructor)) static void end(void) {
    if (!nth)
        fprintf(stderr, "allocations %lu\n", calls);
}

static int refused(void) {
    if (++calls != nth)
        return 0;
    errno = ENOMEM;
    return 1;
}

void *malloc(size_t size) {
    static void *(*real)(size_t);
    if (!real)
        real = (void *(*)(size_t))dlsym(RTLD_NEXT, "malloc");
    return refused() ? NULL : real(size);
}

void *realloc(void *old, size_t size) {
    static void *(*real)(void *, size_t);
    if (!real)
        real = (void *(*)(void *, size_t))dlsym(RTLD_NEXT, "realloc");
    return refused() ? NULL : real(old, size);
}
