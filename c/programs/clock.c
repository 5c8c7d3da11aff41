/* A clock that a program is given in place of the system's, loaded before the C library: it stands still, but for the
   pauses that the program makes. A pause ends when `try` says so, and lasts as long as the program asked for. A wait
   for a key with a limit is such a pause too, which a key ends. Timers never run out by themselves: `try` sends
   SIGALRM. So two builds of a program see the same times, and come to the same places at the same keys. */
#define _GNU_SOURCE

#include <errno.h>
#include <fcntl.h>
#include <poll.h>
#include <signal.h>
#include <stdlib.h>
#include <sys/select.h>
#include <sys/syscall.h>
#include <sys/time.h>
#include <sys/timeb.h>
#include <time.h>
#include <unistd.h>

#define SECOND 1000000000LL
#define MOST 63

/* The time in nanoseconds: at first a date of 2001. A look at it takes a microsecond, so that a program that only looks
   at the clock until its pause is over comes to the end of it. */
static long long now = 1000000000LL * SECOND;
#define LOOK 1000

/* Opens a FIFO that a variable of the environment names, once. */
static int opened(int *fifo, const char *variable)
{
    const char *path = getenv(variable);

    if (*fifo < 0 && path)
        *fifo = open(path, O_RDWR | O_CLOEXEC);
    return *fifo;
}

static int system_poll(struct pollfd *asked, nfds_t count, int milliseconds)
{
    return (int)syscall(SYS_poll, asked, count, milliseconds);
}

/* Waits for one of these descriptors, or until the pause of so many nanoseconds is ended: 0 then. */
static int pause_of(struct pollfd *asked, nfds_t count, long long length)
{
    static int arrived = -1, released = -1;
    struct pollfd all[MOST + 1];
    char byte = 's';
    nfds_t n;
    int ready;

    if (count > MOST)
        return errno = EINVAL, -1;
    for (n = 0; n < count; n++)
        all[n] = asked[n];
    all[count].fd = opened(&released, "STEPS_RELEASED");
    all[count].events = POLLIN;
    all[count].revents = 0;
    if (write(opened(&arrived, "STEPS_ARRIVED"), &byte, 1) != 1)
        return -1;
    ready = system_poll(all, count + 1, -1);
    if (ready < 0)
        return ready;
    for (n = 0; n < count; n++)
        asked[n].revents = all[n].revents;
    if (!all[count].revents)
        return ready;
    if (ready > 1)
        return ready - 1;
    now += length;
    return read(all[count].fd, &byte, 1) == 1 ? 0 : -1;
}

int poll(struct pollfd *asked, nfds_t count, int milliseconds)
{
    return milliseconds > 0 ? pause_of(asked, count, milliseconds * 1000000LL)
                            : system_poll(asked, count, milliseconds);
}

/* What select() is asked for, as poll() is: how many descriptors. */
static nfds_t listed(int count, fd_set *reads, fd_set *writes, struct pollfd *asked)
{
    nfds_t all = 0;
    int n;

    for (n = 0; n < count && all < MOST; n++) {
        asked[all].fd = n;
        asked[all].revents = 0;
        asked[all].events = (short)((reads && FD_ISSET(n, reads) ? POLLIN : 0) |
                                    (writes && FD_ISSET(n, writes) ? POLLOUT : 0));
        if (asked[all].events)
            all++;
    }
    return all;
}

int select(int count, fd_set *reads, fd_set *writes, fd_set *faults, struct timeval *limit)
{
    struct pollfd asked[MOST];
    nfds_t all = listed(count, reads, writes, asked), n;
    long long length = limit ? limit->tv_sec * SECOND + limit->tv_usec * 1000LL : 0;
    int ready, set = 0;

    now += LOOK;
    ready = length > 0 ? pause_of(asked, all, length) : system_poll(asked, all, limit ? 0 : -1);
    if (ready < 0)
        return ready;
    if (reads)
        FD_ZERO(reads);
    if (writes)
        FD_ZERO(writes);
    if (faults)
        FD_ZERO(faults);
    for (n = 0; n < all; n++) {
        if (asked[n].events & POLLIN && asked[n].revents & (POLLIN | POLLHUP | POLLERR))
            FD_SET(asked[n].fd, reads), set++;
        if (asked[n].events & POLLOUT && asked[n].revents & POLLOUT)
            FD_SET(asked[n].fd, writes), set++;
    }
    if (limit && ready == 0)
        limit->tv_sec = limit->tv_usec = 0;
    return set;
}

int pselect(int count, fd_set *reads, fd_set *writes, fd_set *faults, const struct timespec *limit,
            const sigset_t *blocked)
{
    struct timeval same = {limit ? limit->tv_sec : 0, limit ? limit->tv_nsec / 1000 : 0};

    (void)blocked;
    return select(count, reads, writes, faults, limit ? &same : NULL);
}

int nanosleep(const struct timespec *length, struct timespec *left)
{
    if (pause_of(NULL, 0, length->tv_sec * SECOND + length->tv_nsec) < 0) {
        if (left)
            *left = *length;
        return -1;
    }
    return 0;
}

int clock_nanosleep(clockid_t clock, int flags, const struct timespec *length, struct timespec *left)
{
    long long until = length->tv_sec * SECOND + length->tv_nsec;

    (void)clock;
    (void)left;
    return pause_of(NULL, 0, flags & TIMER_ABSTIME ? until - now : until) < 0 ? errno : 0;
}

int usleep(useconds_t microseconds)
{
    return pause_of(NULL, 0, microseconds * 1000LL);
}

unsigned sleep(unsigned seconds)
{
    return pause_of(NULL, 0, seconds * SECOND) < 0 ? seconds : 0;
}

time_t time(time_t *told)
{
    if (told)
        *told = (time_t)(now / SECOND);
    return (time_t)(now / SECOND);
}

int gettimeofday(struct timeval *restrict told, void *restrict zone)
{
    (void)zone;
    now += LOOK;
    told->tv_sec = (time_t)(now / SECOND);
    told->tv_usec = (suseconds_t)(now % SECOND / 1000);
    return 0;
}

int clock_gettime(clockid_t clock, struct timespec *told)
{
    if (clock == CLOCK_PROCESS_CPUTIME_ID || clock == CLOCK_THREAD_CPUTIME_ID)
        return (int)syscall(SYS_clock_gettime, clock, told);
    now += LOOK;
    told->tv_sec = (time_t)(now / SECOND);
    told->tv_nsec = (long)(now % SECOND);
    return 0;
}

/* Programs that ask for it do nothing else until their pause is over: each call takes a thousandth of a second. */
int ftime(struct timeb *told)
{
    now += SECOND / 1000;
    told->time = (time_t)(now / SECOND);
    told->millitm = (unsigned short)(now % SECOND / 1000000);
    return 0;
}

unsigned alarm(unsigned seconds)
{
    (void)seconds;
    return 0;
}

int setitimer(__itimer_which_t which, const struct itimerval *restrict value, struct itimerval *restrict before)
{
    (void)which;
    (void)value;
    if (before)
        before->it_value.tv_sec = before->it_value.tv_usec = 0;
    return 0;
}

/* What many games make their random numbers from: the same for both, if the environment says so. */
pid_t getpid(void)
{
    const char *seed = getenv("STEPS_SEED");

    return seed ? (pid_t)atoi(seed) : (pid_t)syscall(SYS_getpid);
}
