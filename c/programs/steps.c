/* What replaces the clock, the process number and the pauses of a program that is compared step by step: both builds
   of it draw the same then, and go on at a signal. `try-steps` says by which -D they are put in place. */
#define _POSIX_C_SOURCE 200809L

#include <fcntl.h>
#include <stdlib.h>
#include <sys/types.h>
#include <time.h>
#include <unistd.h>

/* Opens a FIFO that a variable of the environment names. */
static int opened(const char *variable)
{
    const char *path = getenv(variable);

    return path ? open(path, O_RDWR | O_CLOEXEC) : -1;
}

/* For usleep(): says that the program has come here, and waits for a byte. */
int step_rest(unsigned microseconds)
{
    static int arrived = -1, released = -1;
    char byte = 's';

    (void)microseconds;
    if (arrived < 0) {
        arrived = opened("STEPS_ARRIVED");
        released = opened("STEPS_RELEASED");
    }
    if (write(arrived, &byte, 1) != 1)
        return -1;
    return read(released, &byte, 1) == 1 ? 0 : -1;
}

/* For sleep() and alarm(): no time passes. */
unsigned step_none(unsigned seconds)
{
    (void)seconds;
    return 0;
}

/* For time(), and for getpid() where it begins a row of random numbers. */
time_t step_time(time_t *told)
{
    if (told)
        *told = 1000000000;
    return 1000000000;
}

pid_t step_process(void)
{
    const char *seed = getenv("STEPS_SEED");

    return seed ? (pid_t)atoi(seed) : 4711;
}
