/* A period of a controller: over a drill site, which only counts, and a frame site, which writes what it broadcasts. */
#include "exchange.h"
#include "periods.h"
#include "tables.h"

#include <stdio.h>

/* The octets that a frame site writes in, and the broadcasts that it has room for. */
enum { MEMORY = 21152, FRAMES = 16 };

static uint8_t memory[MEMORY];

void fill(struct octets *o, struct filling f)
{
    unsigned groups = f.contents / f.messages, cells = f.cells / groups;
    for (unsigned group = 0; group < groups; group++)
        for (unsigned message = 0; message < f.messages; message++) {
            struct list list = {LAC_CI, group * cells, 1, cells};
            put_write_replace(o, group * f.messages + message, NONE, list, f.pages);
        }
}

double period_time(struct filling f, bool frame)
{
    static struct exchange x;
    unsigned due = f.cells * f.messages;
    fresh(&x, 64);
    if (f.messages > 0)
        fill(&x.recording, f);
    if (frame) {
        x.memory = memory;
        x.room = MEMORY;
    }
    put_period(&x, frame && due > FRAMES ? FRAMES : due);
    return round_time(&x);
}

static void print_row(const char *site, struct filling f, bool frame)
{
    double ours = period_time(f, frame);
    unsigned due = f.cells * f.messages, done = frame && due > FRAMES ? FRAMES : due;
    printf("  %-6s %5u %8u %8u %5u %5u %5u %8.0f", site, f.cells, f.messages, f.contents, f.pages, due, done, ours);
    printf(done > 0 ? " %9.1f\n" : "\n", ours / done);
}

void period_table(void)
{
    static const struct filling fillings[] = {{64, 8, 32, 15}, {64, 8, 8, 15}, {64, 1, 1, 15}, {8, 8, 8, 15},
                                              {1, 8, 8, 15},   {1, 1, 1, 15},  {1, 1, 1, 1},   {64, 0, 0, 0}};
    printf("A period over 64 cells, so many of which have messages, so many in each; all are due. Nanoseconds.\n");
    printf("  %-6s %5s %8s %8s %5s %5s %5s %8s %9s\n", "site", "cells", "messages", "contents", "pages", "due", "done", "period", "broadcast");
    for (size_t i = 0; i < sizeof fillings / sizeof *fillings; i++)
        print_row("drill", fillings[i], false);
    for (size_t i = 0; i < sizeof fillings / sizeof *fillings; i++)
        print_row("frame", fillings[i], true);
}
