/* Rounds of calls on a controller. */
#include "exchange.h"

#include "clock.h"

#include <inttypes.h>
#include <stdio.h>
#include <stdlib.h>
#include <string.h>

static uint64_t calls;

/* What making the table, its links and its list allocates: a run of no rounds. */
static struct allocated making;

void fresh(struct exchange *x, unsigned cells)
{
    x->recording.count = x->round.count = 0;
    x->periods = 0;
    x->each = (struct sums){0, 0, 0, 0};
    x->memory = NULL;
    x->room = 0;
    put_cell_file(&x->recording, cells);
}

void expect(struct exchange *x, enum type type, size_t length)
{
    x->each.accepted++;
    x->each.types += type;
    x->each.octets += length;
}

void put_period(struct exchange *x, unsigned broadcasts)
{
    x->periods++;
    x->each.accepted++;
    x->each.broadcasts += broadcasts;
}

static struct sums run(struct exchange *x, uint32_t rounds)
{
    struct sums sums;
    const struct octets *recording = &x->recording, *round = &x->round;
    bool made = x->memory ? bench_frame(recording->at, recording->count, round->at, round->count, x->periods, rounds, x->memory, x->room, &sums)
                          : bench_drill(recording->at, recording->count, round->at, round->count, x->periods, rounds, &sums);
    if (!made) {
        fprintf(stderr, "there is no memory for a table\n");
        exit(1);
    }
    return sums;
}

static void check_sum(const char *what, uint64_t each, uint32_t rounds, uint64_t sum)
{
    if (sum != each * rounds) {
        fprintf(stderr, "%s: %" PRIu64 " in %" PRIu32 " rounds, not %" PRIu64 " in each\n", what, sum, rounds, each);
        exit(1);
    }
}

static void check_allocated(struct allocated found)
{
    if (found.blocks != making.blocks || found.octets != making.octets) {
        fprintf(stderr, "the calls allocated\n");
        exit(1);
    }
}

static void run_checked(void *what, uint32_t rounds)
{
    struct exchange *x = what;
    struct allocated before = allocated();
    struct sums sums = run(x, rounds);
    check_allocated(since(before));
    check_sum("accepted calls", x->each.accepted, rounds, sums.accepted);
    check_sum("types of replies", x->each.types, rounds, sums.types);
    check_sum("octets of replies", x->each.octets, rounds, sums.octets);
    check_sum("broadcasts", x->each.broadcasts, rounds, sums.broadcasts);
    calls += sums.accepted;
}

/* Without messages before, so that these are under the check of what is allocated. */
static void note_making(const struct exchange *x)
{
    static struct exchange none;
    none = *x;
    none.recording.count = 2 + 5 * (size_t)x->recording.at[0];
    none.round.count = 0;
    none.periods = 0;
    struct allocated before = allocated();
    run(&none, 0);
    making = since(before);
}

double round_time(struct exchange *x)
{
    note_making(x);
    return nanoseconds(run_checked, x);
}

uint64_t checked_calls(void)
{
    return calls;
}
