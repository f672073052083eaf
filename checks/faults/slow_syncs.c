/* Lets each sync of a file take SYNC_TAKES microseconds longer. It is loaded before the C library (glibc) by LD_PRELOAD. */
#define _GNU_SOURCE
#include <dlfcn.h>
#include <stdlib.h>
#include <unistd.h>

static int slowly(const char *name, int file) {
    int (*real)(int) = (int (*)(int))dlsym(RTLD_NEXT, name);
    const char *takes = getenv("SYNC_TAKES");
    if (takes) usleep(atoi(takes));
    return real(file);
}

int fsync(int file) { return slowly("fsync", file); }

int fdatasync(int file) { return slowly("fdatasync", file); }
