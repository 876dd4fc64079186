/* A clock that goes on by PACE milliseconds at each reading. check_log.py has the program use it by LD_PRELOAD, so that what is said
 * at most once a second is said after so many parts of a work. */
#include <stdatomic.h>
#include <stdlib.h>
#include <time.h>

int clock_gettime(clockid_t clock, struct timespec *now)
{
    static atomic_long readings;
    const char *pace = getenv("PACE");
    long millis = 1000000 + atomic_fetch_add(&readings, 1) * (pace ? atol(pace) : 1000);
    (void)clock;
    now->tv_sec = millis / 1000;
    now->tv_nsec = millis % 1000 * 1000000;
    return 0;
}
