/* Lets the calendar pass DAYS_RATE times as fast for a program as it does, counted from DAYS_FROM on, in seconds since 1970: so one program after another
   finds it where the last one left it. It is loaded before the C library (glibc) by LD_PRELOAD. */
#define _GNU_SOURCE
#include <dlfcn.h>
#include <stdlib.h>
#include <time.h>

static long number(const char *name) {
    const char *text = getenv(name);
    return text ? atol(text) : 0;
}

int clock_gettime(clockid_t clock, struct timespec *time) {
    static int (*real)(clockid_t, struct timespec *);
    if (!real) real = (int (*)(clockid_t, struct timespec *))dlsym(RTLD_NEXT, "clock_gettime");
    int result = real(clock, time);
    if (result || clock != CLOCK_REALTIME) return result;
    long from = number("DAYS_FROM");
    long microseconds = ((time->tv_sec - from) * 1000000L + time->tv_nsec / 1000) * number("DAYS_RATE");
    time->tv_sec = from + microseconds / 1000000L;
    time->tv_nsec = microseconds % 1000000L * 1000;
    return 0;
}
