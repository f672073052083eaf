/* Lets a call of the program to the C library fail, and records some of its calls. FAIL_CALL is one of socket, bind, connect, accept4, open, read
   and rename, FAIL_NUMBER is its errno, and FAIL_TIMES how many times it fails. An open, a read of what was opened, or a rename fails if its path,
   or that from which it renames, ends in FAIL_PATH. An accept4 fails only at the port FAIL_PORT, if that is set; 0 is a socket without a port. If
   FAIL_FROM is set, no call fails before there is a file of that name. Each rename, and each fsync of a file or a folder, is a line of the file
   CALLS. Behind the look number SWAP_LOOK at a path that ends in SWAP_PATH, what is there is removed. In its place comes a link to SWAP_TARGET, or
   the file SWAP_FILE. It is nothing if SWAP_FILE is empty, or a pipe if both are missing. Behind a rename to a path that ends in KILL_PATH the
   program is killed. So it is behind the call number STOP_AT of those that open, write, sync, rename or remove a file that has STOP_PATH in its
   path. It is loaded before the C library (glibc) by LD_PRELOAD. */
#define _GNU_SOURCE
#include <dlfcn.h>
#include <errno.h>
#include <fcntl.h>
#include <netinet/in.h>
#include <signal.h>
#include <stdarg.h>
#include <stdio.h>
#include <stdlib.h>
#include <string.h>
#include <sys/socket.h>
#include <sys/stat.h>
#include <unistd.h>

static long failed, looks, stops;

/* The descriptor whose reads fail, once it is open. */
static int read_from = -1;

/* The descriptor whose writes and syncs are counted, once it is open. */
static int counted = -1;

/* Whether a path ends in what the environment has under this name. */
static int ends_in(const char *path, const char *name) {
    const char *end = getenv(name);
    size_t length = strlen(path);
    return end && *end && length >= strlen(end) && strcmp(path + length - strlen(end), end) == 0;
}

/* Whether the calls at a path are counted. */
static int is_counted(const char *path) {
    const char *part = getenv("STOP_PATH");
    return part && *part && strstr(path, part) != NULL;
}

/* Counts a call that was made, and kills the program behind the last one. */
static void count_call(void) {
    const char *number = getenv("STOP_AT");
    if (number && ++stops == atol(number)) kill(getpid(), SIGKILL);
}

/* Whether this call fails. */
static int fails(const char *name) {
    const char *call = getenv("FAIL_CALL"), *number = getenv("FAIL_NUMBER"), *times = getenv("FAIL_TIMES");
    const char *from = getenv("FAIL_FROM");
    if (!call || !number || !times || strcmp(call, name) != 0 || failed >= atol(times)) return 0;
    if (from && access(from, F_OK) != 0) return 0;
    failed += 1;
    errno = atoi(number);
    return 1;
}

static int real_open(const char *path, int flags, mode_t mode) {
    int (*real)(const char *, int, ...) = (int (*)(const char *, int, ...))dlsym(RTLD_NEXT, "open");
    return real(path, flags, mode);
}

static void write_down(const char *line) {
    const char *calls = getenv("CALLS");
    if (!calls) return;
    int kept = errno, file = real_open(calls, O_WRONLY | O_CREAT | O_APPEND, 0600);
    if (file < 0 || write(file, line, strlen(line)) < 0) abort();
    close(file);
    errno = kept;
}

int open(const char *path, int flags, ...) {
    const char *call = getenv("FAIL_CALL");
    va_list rest;
    va_start(rest, flags);
    mode_t mode = flags & O_CREAT ? va_arg(rest, mode_t) : 0;
    va_end(rest);
    int is_meant = ends_in(path, "FAIL_PATH");
    if (is_meant && fails("open")) return -1;
    int file = real_open(path, flags, mode);
    if (is_meant && call && strcmp(call, "read") == 0) read_from = file;
    if (file >= 0 && is_counted(path)) {
        counted = file;
        count_call();
    }
    return file;
}

int close(int file) {
    int (*real)(int) = (int (*)(int))dlsym(RTLD_NEXT, "close");
    if (file == counted) counted = -1;
    return real(file);
}

ssize_t write(int file, const void *octets, size_t size) {
    ssize_t (*real)(int, const void *, size_t) = (ssize_t (*)(int, const void *, size_t))dlsym(RTLD_NEXT, "write");
    ssize_t status = real(file, octets, size);
    if (file >= 0 && file == counted) count_call();
    return status;
}

int unlink(const char *path) {
    int (*real)(const char *) = (int (*)(const char *))dlsym(RTLD_NEXT, "unlink");
    int status = real(path);
    if (is_counted(path)) count_call();
    return status;
}

ssize_t read(int file, void *octets, size_t size) {
    ssize_t (*real)(int, void *, size_t) = (ssize_t (*)(int, void *, size_t))dlsym(RTLD_NEXT, "read");
    return file >= 0 && file == read_from && fails("read") ? -1 : real(file, octets, size);
}

/* Puts something else to a path. */
static void swap(const char *path) {
    const char *target = getenv("SWAP_TARGET"), *file = getenv("SWAP_FILE");
    unlink(path);
    if (target && symlink(target, path)) abort();
    if (!target && file && *file && link(file, path)) abort();
    if (!target && !file && mkfifo(path, 0644)) abort();
}

int statx(int folder, const char *path, int flags, unsigned mask, struct statx *about) {
    int (*real)(int, const char *, int, unsigned, struct statx *) =
        (int (*)(int, const char *, int, unsigned, struct statx *))dlsym(RTLD_NEXT, "statx");
    int status = real(folder, path, flags, mask, about);
    const char *number = getenv("SWAP_LOOK");
    if (number && ends_in(path, "SWAP_PATH") && ++looks == atol(number)) {
        int kept = errno;
        swap(path);
        errno = kept;
    }
    return status;
}

int socket(int domain, int type, int protocol) {
    int (*real)(int, int, int) = (int (*)(int, int, int))dlsym(RTLD_NEXT, "socket");
    return fails("socket") ? -1 : real(domain, type, protocol);
}

int bind(int file, const struct sockaddr *address, socklen_t length) {
    int (*real)(int, const struct sockaddr *, socklen_t) = (int (*)(int, const struct sockaddr *, socklen_t))dlsym(RTLD_NEXT, "bind");
    return fails("bind") ? -1 : real(file, address, length);
}

int connect(int file, const struct sockaddr *address, socklen_t length) {
    int (*real)(int, const struct sockaddr *, socklen_t) = (int (*)(int, const struct sockaddr *, socklen_t))dlsym(RTLD_NEXT, "connect");
    return fails("connect") ? -1 : real(file, address, length);
}

/* Whether calls at the port of this socket fail. */
static int is_at_port(int file) {
    const char *port = getenv("FAIL_PORT");
    struct sockaddr_storage own = {0};
    socklen_t length = sizeof own;
    if (!port) return 1;
    if (getsockname(file, (struct sockaddr *)&own, &length) != 0) abort();
    return atoi(port) == (own.ss_family == AF_INET ? ntohs(((struct sockaddr_in *)&own)->sin_port) : 0);
}

int accept4(int file, struct sockaddr *address, socklen_t *length, int flags) {
    int (*real)(int, struct sockaddr *, socklen_t *, int) = (int (*)(int, struct sockaddr *, socklen_t *, int))dlsym(RTLD_NEXT, "accept4");
    return is_at_port(file) && fails("accept4") ? -1 : real(file, address, length, flags);
}

int rename(const char *from, const char *to) {
    int (*real)(const char *, const char *) = (int (*)(const char *, const char *))dlsym(RTLD_NEXT, "rename");
    write_down("rename\n");
    if (ends_in(from, "FAIL_PATH") && fails("rename")) return -1;
    int status = real(from, to);
    if (status == 0 && ends_in(to, "KILL_PATH")) kill(getpid(), SIGKILL);
    if (is_counted(from) || is_counted(to)) count_call();
    return status;
}

int fsync(int file) {
    int (*real)(int) = (int (*)(int))dlsym(RTLD_NEXT, "fsync");
    struct stat about;
    write_down(fstat(file, &about) == 0 && S_ISDIR(about.st_mode) ? "sync of a folder\n" : "sync of a file\n");
    int status = real(file);
    if (file >= 0 && file == counted) count_call();
    return status;
}
