/* Stops a program at a call on its database: the calls pwrite, fdatasync, fsync and ftruncate are counted from 1. At the one whose
   number is in STOP_AT, if STOP_HOW is `kill`, the program is killed before the call. If it is `tear`, it is killed after half of
   what a pwrite writes. If it is `fail`, this call and each later one fail. It makes the file STOP_REACHED then. It is loaded
   before the C library (glibc) by LD_PRELOAD. */
#define _GNU_SOURCE
#include <dlfcn.h>
#include <errno.h>
#include <fcntl.h>
#include <signal.h>
#include <stdlib.h>
#include <string.h>
#include <sys/types.h>
#include <unistd.h>

static long count;

static void end(void) {
    kill(getpid(), SIGKILL);
}

/* Whether the call fails. `half`, if given, writes half of what the call writes. */
static int is_stopped(void (*half)(int, const void *, size_t, off_t), int file, const void *octets, size_t size, off_t at) {
    const char *number = getenv("STOP_AT"), *how = getenv("STOP_HOW"), *reached = getenv("STOP_REACHED");
    if (!number || !how) return 0;
    long wanted = atol(number);
    count += 1;
    if (count < wanted) return 0;
    if (count == wanted && reached) close(open(reached, O_WRONLY | O_CREAT, 0600));
    if (strcmp(how, "kill") == 0) end();
    if (strcmp(how, "tear") == 0) {
        if (half) half(file, octets, size, at);
        end();
    }
    errno = EIO;
    return 1;
}

static ssize_t real_pwrite(int file, const void *octets, size_t size, off_t at) {
    static ssize_t (*real)(int, const void *, size_t, off_t);
    if (!real) real = (ssize_t (*)(int, const void *, size_t, off_t))dlsym(RTLD_NEXT, "pwrite");
    return real(file, octets, size, at);
}

static void write_half(int file, const void *octets, size_t size, off_t at) {
    if (real_pwrite(file, octets, size / 2, at) < 0) errno = EIO;
}

ssize_t pwrite(int file, const void *octets, size_t size, off_t at) {
    return is_stopped(write_half, file, octets, size, at) ? -1 : real_pwrite(file, octets, size, at);
}

static int call_real(const char *name, int file) {
    int (*real)(int) = (int (*)(int))dlsym(RTLD_NEXT, name);
    return is_stopped(NULL, file, NULL, 0, 0) ? -1 : real(file);
}

int fdatasync(int file) {
    return call_real("fdatasync", file);
}

int fsync(int file) {
    return call_real("fsync", file);
}

int ftruncate(int file, off_t length) {
    int (*real)(int, off_t) = (int (*)(int, off_t))dlsym(RTLD_NEXT, "ftruncate");
    return is_stopped(NULL, file, NULL, 0, 0) ? -1 : real(file, length);
}
