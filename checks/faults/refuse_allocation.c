/* Refuses the allocation whose number is in FAIL_ALLOC, counted from 1, and makes the file FAIL_ALLOC_REACHED when it does. If
   FAIL_ALLOC_ON is set, each later one is refused too. It is loaded before the C library (glibc) by LD_PRELOAD. */
#include <errno.h>
#include <fcntl.h>
#include <stddef.h>
#include <stdlib.h>
#include <unistd.h>

extern void *__libc_malloc(size_t size);
extern void *__libc_calloc(size_t count, size_t size);
extern void *__libc_realloc(void *memory, size_t size);
extern void *__libc_memalign(size_t align, size_t size);

static long count;
static long wanted = -1;

static int refuse(void) {
    if (wanted < 0) {
        const char *number = getenv("FAIL_ALLOC");
        wanted = number ? atol(number) : 0;
    }
    count += 1;
    if (count != wanted && !(wanted > 0 && count > wanted && getenv("FAIL_ALLOC_ON"))) return 0;
    const char *reached = getenv("FAIL_ALLOC_REACHED");
    if (reached) close(open(reached, O_WRONLY | O_CREAT, 0600));
    errno = ENOMEM;
    return 1;
}

void *malloc(size_t size) {
    return refuse() ? NULL : __libc_malloc(size);
}

void *calloc(size_t items, size_t size) {
    return refuse() ? NULL : __libc_calloc(items, size);
}

void *realloc(void *memory, size_t size) {
    return refuse() ? NULL : __libc_realloc(memory, size);
}

void *aligned_alloc(size_t align, size_t size) {
    return refuse() ? NULL : __libc_memalign(align, size);
}

void *memalign(size_t align, size_t size) {
    return refuse() ? NULL : __libc_memalign(align, size);
}

int posix_memalign(void **memory, size_t align, size_t size) {
    if (refuse()) return ENOMEM;
    void *made = __libc_memalign(align, size);
    if (!made) return ENOMEM;
    *memory = made;
    return 0;
}
