/* Preloaded: holds each thread that reads the clock until so many threads as THREADS has read it at once, for half a second at most,
 * and then lets it go. For each time that one more thread was held at once than ever before, a byte is written to descriptor 9: as
 * many bytes as threads were ever held at once. The first reading holds nobody, and none holds the only thread that there is. */
#define _GNU_SOURCE
#include <pthread.h>
#include <stdlib.h>
#include <sys/stat.h>
#include <sys/syscall.h>
#include <time.h>
#include <unistd.h>

static pthread_mutex_t lock = PTHREAD_MUTEX_INITIALIZER;
static pthread_cond_t all_came = PTHREAD_COND_INITIALIZER;
static int begun, held, most, rounds;

static void hold(void)
{
    struct timespec end;
    int wanted = atoi(getenv("THREADS"));
    syscall(SYS_clock_gettime, CLOCK_REALTIME, &end);
    end.tv_nsec += 500000000;
    end.tv_sec += end.tv_nsec / 1000000000;
    end.tv_nsec %= 1000000000;
    held++;
    if (held > most) {
        most = held;
        if (write(9, "t", 1) != 1)
            abort();
    }
    if (held == wanted) {
        rounds++;
        pthread_cond_broadcast(&all_came);
    } else {
        int round = rounds;
        while (rounds == round && pthread_cond_timedwait(&all_came, &lock, &end) == 0)
            continue;
    }
    held--;
}

/* The folder of the threads has a link for each of them, and two more. */
static int is_only_thread(void)
{
    struct stat threads;
    return stat("/proc/self/task", &threads) == 0 && threads.st_nlink <= 3;
}

int clock_gettime(clockid_t clock, struct timespec *now)
{
    pthread_mutex_lock(&lock);
    if (begun && !is_only_thread())
        hold();
    begun = 1;
    pthread_mutex_unlock(&lock);
    return (int)syscall(SYS_clock_gettime, clock, now);
}
