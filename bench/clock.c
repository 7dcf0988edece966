/* Processor time of a piece of work. */
#include "clock.h"

#include <stddef.h>
#include <stdlib.h>
#include <time.h>

/* Turns of about a millisecond, with pauses between them, so that not all of them meet the same other work. In nanoseconds. */
enum { TURNS = 11, TURN = 1000000, PAUSE = 2000000, MOST_TIMES = 1000 };

/* Of this thread alone: while others run it stands still. */
static double now(void)
{
    struct timespec t;
    clock_gettime(CLOCK_THREAD_CPUTIME_ID, &t);
    return 1e9 * (double)t.tv_sec + (double)t.tv_nsec;
}

static double once(work *does, void *what, uint32_t rounds)
{
    double start = now();
    does(what, rounds);
    return now() - start;
}

/* What else runs on the machine only adds to a turn, by caches and cores that are shared. */
static double least(work *does, void *what, uint32_t rounds)
{
    const struct timespec pause = {0, PAUSE};
    double best = once(does, what, rounds);
    for (int turn = 1; turn < TURNS; turn++) {
        nanosleep(&pause, NULL);
        double each = once(does, what, rounds);
        if (each < best)
            best = each;
    }
    return best;
}

/* The least so far of each time, in the order in which they are asked for. */
static double times[MOST_TIMES];
static size_t asked, known;

void begin_pass(void)
{
    asked = 0;
}

static double least_of_passes(double time)
{
    if (asked == MOST_TIMES)
        abort();
    size_t place = asked++;
    if (place == known) {
        times[place] = time;
        known++;
    } else if (time < times[place]) {
        times[place] = time;
    }
    return times[place];
}

double nanoseconds(work *does, void *what)
{
    double none = least(does, what, 0);
    uint32_t rounds = 1;
    while (rounds < 1u << 28 && once(does, what, rounds) < none + TURN)
        rounds *= 2;
    return least_of_passes((least(does, what, rounds) - none) / rounds);
}
