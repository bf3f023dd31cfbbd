/* Loaded before the C library: the allocation of the number in FAIL_ALLOC, from 1, fails, and the standard error says so. */
#include <stddef.h>
#include <stdlib.h>
#include <unistd.h>

extern void *__libc_malloc(size_t);
extern void *__libc_calloc(size_t, size_t);
extern void *__libc_realloc(void *, size_t);

static int is_to_fail(void) {
    static long calls, failing = -1;
    if (failing < 0) {
        const char *number = getenv("FAIL_ALLOC");
        failing = number ? atol(number) : 0;
    }
    if (++calls != failing)
        return 0;
    return write(2, "refused\n", 8) == 8;
}

void *malloc(size_t size) { return is_to_fail() ? NULL : __libc_malloc(size); }
void *calloc(size_t count, size_t size) { return is_to_fail() ? NULL : __libc_calloc(count, size); }
void *realloc(void *at, size_t size) { return is_to_fail() ? NULL : __libc_realloc(at, size); }
