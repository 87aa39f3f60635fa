/* Makes one allocation of a program fail: the one that CFS_FAIL_ALLOC counts, from 1.
 * Loaded by LD_PRELOAD. When that allocation comes, one byte goes to descriptor 9, if it is open. For glibc. */
#include <errno.h>
#include <stddef.h>
#include <stdlib.h>
#include <unistd.h>

extern void *__libc_malloc(size_t);
extern void *__libc_realloc(void *, size_t);

static long left = -1;

static int fails(void) {
    if (left < 0) {
        const char *text = getenv("CFS_FAIL_ALLOC");
        left = text == NULL ? 0 : atol(text);
    }
    if (left == 0 || --left != 0) return 0;
    if (write(9, "x", 1) < 0) { /* nobody asked */ }
    errno = ENOMEM;
    return 1;
}

void *malloc(size_t size) {
    return fails() ? NULL : __libc_malloc(size);
}

void *realloc(void *old, size_t size) {
    return fails() ? NULL : __libc_realloc(old, size);
}
