/* Lets the reader and the writer of a session fail. Reads of the file READ_FILE give READ_MOST octets in all, and writes to WRITE_FILE
   take WRITE_MOST; the next call fails. If PORT_PIECE is set, no call gives or takes more octets than that. If WRITE_NOTHING is set, the
   write that would fail takes no octet. It is loaded before the C library (glibc) by LD_PRELOAD. */
#define _GNU_SOURCE
#include <dlfcn.h>
#include <errno.h>
#include <limits.h>
#include <stdio.h>
#include <stdlib.h>
#include <string.h>
#include <sys/types.h>
#include <unistd.h>

static size_t was_read, was_written;

/* Whether this is the file in an environment variable. */
static int is_named(int file, const char *variable) {
    const char *name = getenv(variable);
    char link[64], path[PATH_MAX];
    if (!name) return 0;
    snprintf(link, sizeof link, "/proc/self/fd/%d", file);
    ssize_t size = readlink(link, path, sizeof path - 1);
    return size > 0 && (path[size] = 0, strcmp(path, name) == 0);
}

/* How many octets a call may have that asks for this many. */
static size_t allowed(const char *variable, size_t done, size_t size) {
    const char *most = getenv(variable), *piece = getenv("PORT_PIECE");
    if (piece && size > (size_t)atol(piece)) size = (size_t)atol(piece);
    if (most && size > (size_t)atol(most) - done) size = (size_t)atol(most) - done;
    return size;
}

static ssize_t fail(void) {
    errno = EIO;
    return -1;
}

ssize_t read(int file, void *octets, size_t size) {
    ssize_t (*real)(int, void *, size_t) = (ssize_t (*)(int, void *, size_t))dlsym(RTLD_NEXT, "read");
    if (!is_named(file, "READ_FILE")) return real(file, octets, size);
    size_t most = allowed("READ_MOST", was_read, size);
    if (size && !most) return fail();
    ssize_t given = real(file, octets, most);
    if (given > 0) was_read += (size_t)given;
    return given;
}

ssize_t write(int file, const void *octets, size_t size) {
    ssize_t (*real)(int, const void *, size_t) = (ssize_t (*)(int, const void *, size_t))dlsym(RTLD_NEXT, "write");
    if (!is_named(file, "WRITE_FILE")) return real(file, octets, size);
    size_t most = allowed("WRITE_MOST", was_written, size);
    if (size && !most) return getenv("WRITE_NOTHING") ? 0 : fail();
    ssize_t taken = real(file, octets, most);
    if (taken > 0) was_written += (size_t)taken;
    return taken;
}
