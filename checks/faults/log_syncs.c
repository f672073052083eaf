/* Writes down what the program does with names and files, so that it can be said what a loss of power would leave. In the file CALLS there is a line
   for each file and folder that it makes, each rename and each removal. So there is for each sync and each write to its standard output, in their
   order. Behind each sync of a file its content is copied into the folder KEPT, under the number that the line has. Behind a rename to a path that
   ends in KILL_PATH, and behind a sync of a file there, the program is killed. It is loaded before the C library (glibc) by LD_PRELOAD. */
#define _GNU_SOURCE
#include <dlfcn.h>
#include <errno.h>
#include <fcntl.h>
#include <limits.h>
#include <signal.h>
#include <stdarg.h>
#include <stdio.h>
#include <stdlib.h>
#include <string.h>
#include <sys/stat.h>
#include <unistd.h>

static int calls = -1;

static int real_open(const char *path, int flags, mode_t mode) {
    int (*real)(const char *, int, ...) = (int (*)(const char *, int, ...))dlsym(RTLD_NEXT, "open");
    return real(path, flags, mode);
}

/* Opens the log for the first line, behind what an earlier program has written. */
static int log_of_calls(void) {
    const char *path = getenv("CALLS");
    if (path && calls < 0) calls = real_open(path, O_RDWR | O_CREAT | O_APPEND | O_CLOEXEC, 0600);
    return calls;
}

/* The line is one write at the end of the file. */
static void write_down(const char *what, const char *first, const char *second) {
    char line[3 * PATH_MAX];
    int kept = errno, file = log_of_calls();
    if (file < 0) return;
    int length = snprintf(line, sizeof line, "%s\t%s\t%s\n", what, first, second);
    if (write(file, line, length) != length) abort();
    errno = kept;
}

/* A path without links in its folder, which is there. */
static void spell(const char *path, char *spelled) {
    char folder[PATH_MAX], real[PATH_MAX];
    const char *slash = strrchr(path, '/'), *name = slash ? slash + 1 : path;
    snprintf(folder, sizeof folder, "%.*s", slash ? (int)(slash - path) : 1, slash ? path : ".");
    if (!realpath(*folder ? folder : "/", real)) strcpy(real, "?");
    snprintf(spelled, 2 * PATH_MAX, "%s/%s", real, name);
}

static void write_path(const char *what, const char *path) {
    char spelled[2 * PATH_MAX];
    spell(path, spelled);
    write_down(what, spelled, "");
}

/* Kills the program behind a call at the path at which it is to end. */
static void kill_behind(const char *path) {
    const char *end = getenv("KILL_PATH");
    if (end && strlen(path) >= strlen(end) && strcmp(path + strlen(path) - strlen(end), end) == 0) kill(getpid(), SIGKILL);
}

/* Copies the octets of a file. */
static void copy(const char *from, const char *to) {
    char octets[65536];
    ssize_t size;
    int in = real_open(from, O_RDONLY, 0), out = real_open(to, O_WRONLY | O_CREAT | O_TRUNC, 0600);
    if (in < 0 || out < 0) abort();
    while ((size = read(in, octets, sizeof octets)) > 0)
        if (write(out, octets, size) != size) abort();
    close(in);
    close(out);
}

/* Keeps the content of a file that is synced, under the length of the log before its line. */
static void keep(const char *own, const char *path) {
    char to[PATH_MAX], number[32];
    struct stat log;
    if (fstat(calls, &log) != 0) abort();
    snprintf(number, sizeof number, "%lld", (long long)log.st_size);
    snprintf(to, sizeof to, "%s/%s", getenv("KEPT"), number);
    copy(own, to);
    write_down("sync file", path, number);
    kill_behind(path);
}

/* Writes down the sync of what is open. */
static void write_sync(int file) {
    char own[64], path[PATH_MAX];
    struct stat about;
    if (log_of_calls() < 0 || fstat(file, &about) != 0) return;
    int kept = errno;
    snprintf(own, sizeof own, "/proc/self/fd/%d", file);
    ssize_t length = readlink(own, path, sizeof path - 1);
    if (length < 0) abort();
    path[length] = 0;
    if (S_ISDIR(about.st_mode)) {
        write_down("sync folder", path, "");
    } else {
        keep(own, path);
    }
    errno = kept;
}

int open(const char *path, int flags, ...) {
    va_list rest;
    va_start(rest, flags);
    mode_t mode = flags & O_CREAT ? va_arg(rest, mode_t) : 0;
    va_end(rest);
    int is_new = (flags & O_CREAT) && access(path, F_OK) != 0;
    int file = real_open(path, flags, mode);
    if (is_new && file >= 0) write_path("make file", path);
    return file;
}

int mkdir(const char *path, mode_t mode) {
    int (*real)(const char *, mode_t) = (int (*)(const char *, mode_t))dlsym(RTLD_NEXT, "mkdir");
    int status = real(path, mode);
    if (status == 0) write_path("make folder", path);
    return status;
}

int unlink(const char *path) {
    int (*real)(const char *) = (int (*)(const char *))dlsym(RTLD_NEXT, "unlink");
    int status = real(path);
    if (status == 0) write_path("remove", path);
    return status;
}

int rename(const char *from, const char *to) {
    int (*real)(const char *, const char *) = (int (*)(const char *, const char *))dlsym(RTLD_NEXT, "rename");
    char first[2 * PATH_MAX], second[2 * PATH_MAX];
    spell(from, first);
    spell(to, second);
    int status = real(from, to);
    if (status == 0) {
        write_down("rename", first, second);
        kill_behind(to);
    }
    return status;
}

int fsync(int file) {
    int (*real)(int) = (int (*)(int))dlsym(RTLD_NEXT, "fsync");
    write_sync(file);
    return real(file);
}

int fdatasync(int file) {
    int (*real)(int) = (int (*)(int))dlsym(RTLD_NEXT, "fdatasync");
    write_sync(file);
    return real(file);
}

ssize_t write(int file, const void *octets, size_t size) {
    ssize_t (*real)(int, const void *, size_t) = (ssize_t (*)(int, const void *, size_t))dlsym(RTLD_NEXT, "write");
    ssize_t status = real(file, octets, size);
    if (file == 1 && status > 0) {
        char told[PATH_MAX];
        int kept = errno, length = 0;
        for (ssize_t at = 0; at < status && length < PATH_MAX - 3; at++) {
            char octet = ((const char *)octets)[at];
            if (octet == '\n') told[length++] = '\\';
            told[length++] = octet == '\n' ? 'n' : octet;
        }
        told[length] = 0;
        write_down("tell", told, "");
        errno = kept;
    }
    return status;
}
