/* Refuses memory once: the allocation whose number the variable REFUSED_ALLOCATION gives fails. */
#include <errno.h>
#include <stdlib.h>

extern void *__libc_malloc(size_t size);
extern void *__libc_realloc(void *old, size_t size);

static int is_refused(void) {
    static long number, refused = -1;
    if (refused < 0) {
        const char *given = getenv("REFUSED_ALLOCATION");
        refused = given ? atol(given) : 0;
    }
    return ++number == refused;
}

void *malloc(size_t size) {
    if (is_refused()) {
        errno = ENOMEM;
        return NULL;
    }
    return __libc_malloc(size);
}

void *realloc(void *old, size_t size) {
    if (is_refused()) {
        errno = ENOMEM;
        return NULL;
    }
    return __libc_realloc(old, size);
}
