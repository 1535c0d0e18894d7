/* Loaded before the libraries of a program (LD_PRELOAD), it refuses the Nth allocation of the program, and no other: N
   is what REFUSED_ALLOCATION says. tools/check/refusals compiles and uses it; nothing of the bench is linked with it. */
#include <errno.h>
#include <stdatomic.h>
#include <stdlib.h>

void *__libc_malloc(size_t size);
void *__libc_calloc(size_t count, size_t size);
void *__libc_realloc(void *old, size_t size);

static unsigned long refused;
static atomic_ulong made;

__attribute__((constructor)) static void begin(void) {
    const char *number = getenv("REFUSED_ALLOCATION");
    refused = number ? strtoul(number, NULL, 10) : 0;
}

static int is_refused(void) {
    if (refused == 0 || atomic_fetch_add(&made, 1) + 1 != refused) {
        return 0;
    }
    errno = ENOMEM;
    return 1;
}

void *malloc(size_t size) {
    return is_refused() ? NULL : __libc_malloc(size);
}

void *calloc(size_t count, size_t size) {
    return is_refused() ? NULL : __libc_calloc(count, size);
}

void *realloc(void *old, size_t size) {
    return is_refused() ? NULL : __libc_realloc(old, size);
}
