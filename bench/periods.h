/* Tables filled with messages, and their periods. */
#ifndef PERIODS_H
#define PERIODS_H

#include "messages.h"

#include <stdbool.h>

/* The first so many cells have so many messages each, of so many contents, which have so many pages each. */
struct filling {
    unsigned cells, messages, contents, pages;
};

/* The requests that fill a table so: messages stand in contents / messages groups of cells, each group with contents of its own. */
void fill(struct octets *o, struct filling f);

/* Nanoseconds of a period over 64 cells. */
double period_time(struct filling f, bool frame);

#endif
