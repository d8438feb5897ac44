/* Preloaded: a clock that moves by as many milliseconds as STEP has, or by 300, each time that it is read, over all threads. */
#define _GNU_SOURCE
#include <stdatomic.h>
#include <stdlib.h>
#include <time.h>

static atomic_long readings;

int clock_gettime(clockid_t clock, struct timespec *now)
{
    const char *step = getenv("STEP");
    long millis = (step ? atol(step) : 300) * atomic_fetch_add(&readings, 1);
    (void)clock;
    now->tv_sec = 1000 + millis / 1000;
    now->tv_nsec = millis % 1000 * 1000000;
    return 0;
}
