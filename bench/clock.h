/* Processor time of a piece of work. */
#ifndef CLOCK_H
#define CLOCK_H

#include <stdint.h>

/* Does something so many times. */
typedef void work(void *what, uint32_t rounds);

/* Nanoseconds of a round, without what a call of no rounds takes: the least of several turns, and of the passes so far. */
double nanoseconds(work *does, void *what);

/* From here on the same times are asked for again, in the same order. */
void begin_pass(void);

#endif
