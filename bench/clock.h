/* A clock for measuring; define _POSIX_C_SOURCE 199309L before the first include. */
#ifndef CLOCK_H
#define CLOCK_H

#include <time.h>

/* Of the processor's time, so that what else the machine does is not counted. */
static double now_ns(void) {
    struct timespec t;
    clock_gettime(CLOCK_PROCESS_CPUTIME_ID, &t);
    return (double)t.tv_sec * 1e9 + (double)t.tv_nsec;
}

#endif
