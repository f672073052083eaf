/* Lets the clock that only goes forward pass CLOCK_RATE times as fast for the program, from its first call on, and waits of the program for its
   sockets as much shorter. It is loaded before the C library (glibc) by LD_PRELOAD. */
#define _GNU_SOURCE
#include <dlfcn.h>
#include <stdlib.h>
#include <sys/epoll.h>
#include <time.h>

static long rate(void) {
    const char *text = getenv("CLOCK_RATE");
    return text ? atol(text) : 1;
}

int clock_gettime(clockid_t clock, struct timespec *time) {
    static struct timespec first;
    static int (*real)(clockid_t, struct timespec *);
    if (!real) real = (int (*)(clockid_t, struct timespec *))dlsym(RTLD_NEXT, "clock_gettime");
    int result = real(clock, time);
    if (result || clock != CLOCK_MONOTONIC) return result;
    if (!first.tv_sec) first = *time;
    long passed = ((time->tv_sec - first.tv_sec) * 1000000000L + time->tv_nsec - first.tv_nsec) * rate() + first.tv_nsec;
    time->tv_sec = first.tv_sec + passed / 1000000000L;
    time->tv_nsec = passed % 1000000000L;
    return 0;
}

/* A wait is at least a millisecond, unless it is none. */
int epoll_wait(int place, struct epoll_event *events, int most, int limit) {
    static int (*real)(int, struct epoll_event *, int, int);
    if (!real) real = (int (*)(int, struct epoll_event *, int, int))dlsym(RTLD_NEXT, "epoll_wait");
    return real(place, events, most, limit > 0 ? 1 + (int)(limit / rate()) : limit);
}
