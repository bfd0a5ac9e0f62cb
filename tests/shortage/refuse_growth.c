/* Refuses the growth of memory with the number REFUSED_GROWTH, counted from 0 over malloc, calloc, realloc and aligned_alloc, and then writes
   one byte into the file descriptor REFUSAL_TOLD. To be loaded in front of the C library (LD_PRELOAD). */
#define _GNU_SOURCE
#include <dlfcn.h>
#include <errno.h>
#include <stdatomic.h>
#include <stdlib.h>
#include <unistd.h>

extern void *__libc_malloc(size_t);
extern void *__libc_calloc(size_t, size_t);
extern void *__libc_realloc(void *, size_t);
extern void *__libc_memalign(size_t, size_t);

static atomic_long growths;
static long refused = -1;
static int told = -1;

/* What was asked for before the program began is not counted. */
__attribute__((constructor)) static void begin(void) {
    const char *number = getenv("REFUSED_GROWTH"), *descriptor = getenv("REFUSAL_TOLD");
    if (number && descriptor) {
        told = atoi(descriptor);
        refused = atol(number);
    }
    atomic_store(&growths, 0);
}

static int is_refused(void) {
    if (refused < 0 || atomic_fetch_add(&growths, 1) != refused) return 0;
    if (write(told, "x", 1) != 1) abort();
    errno = ENOMEM;
    return 1;
}

void *malloc(size_t size) { return is_refused() ? NULL : __libc_malloc(size); }
void *calloc(size_t count, size_t size) { return is_refused() ? NULL : __libc_calloc(count, size); }
void *realloc(void *old, size_t size) { return is_refused() ? NULL : __libc_realloc(old, size); }
void *aligned_alloc(size_t align, size_t size) { return is_refused() ? NULL : __libc_memalign(align, size); }
int posix_memalign(void **to, size_t align, size_t size) {
    if (is_refused()) return ENOMEM;
    *to = __libc_memalign(align, size);
    return *to ? 0 : ENOMEM;
}
