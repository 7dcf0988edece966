/* How the time of requests and periods grows with cells, entries and messages. */
#include "exchange.h"
#include "periods.h"
#include "tables.h"

#include <stdio.h>

/* Makes the round of a series, for a number that grows. */
typedef void build(struct exchange *x, unsigned n);

struct series {
    const char *name;
    build *build;
};

enum { REPLY = 12, CELLS = 64 };

/* So many messages stand in every cell. */
static void stand(struct exchange *x, unsigned messages)
{
    fill(&x->recording, (struct filling){CELLS, messages, messages, 1});
}

static void kill_none(struct exchange *x, unsigned n)
{
    fresh(x, CELLS);
    put_reference(&x->round, KILL, 0, first_cells(n));
    expect(x, KILL_FAILURE, REPLY + failures_size(n));
}

static void put_query(struct exchange *x, unsigned message, unsigned n)
{
    put_reference(&x->round, STATUS_QUERY, message, first_cells(n));
    expect(x, STATUS_QUERY_COMPLETE, REPLY + completed_size(n));
}

static void query(struct exchange *x, unsigned n)
{
    fresh(x, CELLS);
    stand(x, 1);
    put_query(x, 0, n);
}

/* Over a file of the cells that are named, no more. */
static void query_exactly(struct exchange *x, unsigned n)
{
    fresh(x, n);
    put_write_replace(&x->recording, 0, NONE, first_cells(n), 1);
    put_query(x, 0, n);
}

static void reset(struct exchange *x, unsigned n)
{
    fresh(x, CELLS);
    put_reset(&x->round, first_cells(n));
    expect(x, RESET_COMPLETE, 4 + begun_size(n));
}

static void put_write_and_kill(struct exchange *x, unsigned message, unsigned n)
{
    put_write_replace(&x->round, message, NONE, first_cells(n), 1);
    expect(x, WRITE_REPLACE_COMPLETE, REPLY + begun_size(n));
    put_reference(&x->round, KILL, message, first_cells(n));
    expect(x, KILL_COMPLETE, REPLY + completed_size(n));
}

static void write_and_kill(struct exchange *x, unsigned n)
{
    fresh(x, CELLS);
    put_write_and_kill(x, 0, n);
}

static void replace(struct exchange *x, unsigned message, unsigned old, unsigned n)
{
    put_write_replace(&x->round, message, old, first_cells(n), 1);
    expect(x, WRITE_REPLACE_COMPLETE, REPLY + 3 + completed_size(n) + begun_size(n));
}

static void replace_twice(struct exchange *x, unsigned n)
{
    fresh(x, CELLS);
    put_write_replace(&x->recording, 0, NONE, first_cells(n), 1);
    replace(x, 1, 0, n);
    replace(x, 0, 1, n);
}

/* Eight messages stand in each cell, of 32 contents. */
static void write_to_full_cells(struct exchange *x, unsigned n)
{
    fresh(x, CELLS);
    fill(&x->recording, (struct filling){CELLS, 8, 32, 1});
    put_write_replace(&x->round, 100, NONE, first_cells(n), 1);
    expect(x, WRITE_REPLACE_FAILURE, REPLY + failures_size(n));
}

/* Four messages stand in each cell, of 32 contents: cells have room, and no content is free. */
static void write_without_content(struct exchange *x, unsigned n)
{
    fresh(x, CELLS);
    fill(&x->recording, (struct filling){CELLS, 4, 32, 1});
    put_write_replace(&x->round, 100, NONE, first_cells(n), 1);
    expect(x, WRITE_REPLACE_FAILURE, REPLY + failures_size(n));
}

/* Seven messages stand in each cell, of 28 contents: the new one gets the next. */
static void write_beside_seven(struct exchange *x, unsigned n)
{
    fresh(x, CELLS);
    fill(&x->recording, (struct filling){CELLS, 7, 28, 1});
    put_write_and_kill(x, 100, n);
}

static void query_newest(struct exchange *x, unsigned n)
{
    fresh(x, CELLS);
    stand(x, n);
    put_query(x, n - 1, CELLS);
}

/* The oldest of n messages is replaced, 2n times, until the first n stand again. */
static void replace_oldest(struct exchange *x, unsigned n)
{
    fresh(x, CELLS);
    stand(x, n);
    for (unsigned i = 0; i < 2 * n; i++)
        replace(x, (i + n) % (2 * n), i, CELLS);
}

static void query_list(struct exchange *x, struct list list, unsigned completed, size_t failures)
{
    fresh(x, CELLS);
    stand(x, 1);
    put_reference(&x->round, STATUS_QUERY, 0, list);
    expect(x, failures ? STATUS_QUERY_FAILURE : STATUS_QUERY_COMPLETE, REPLY + completed_size(completed) + failures);
}

static void no_cells(struct exchange *x, unsigned n)
{
    query_list(x, (struct list){LAC_CI, CELLS, 1, n}, 0, failures_size(n));
}

static void no_cells_by_ci(struct exchange *x, unsigned n)
{
    query_list(x, (struct list){CI, CELLS, 1, n}, 0, 3 + 4 * n);
}

static void one_cell(struct exchange *x, unsigned n)
{
    query_list(x, (struct list){LAC_CI, 0, 0, n}, 1, 0);
}

static void last_cell_by_ci(struct exchange *x, unsigned n)
{
    query_list(x, (struct list){CI, CELLS - 1, 0, n}, 1, 0);
}

static void one_area(struct exchange *x, unsigned n)
{
    query_list(x, (struct list){LAC, 0, 0, n}, 16, 0);
}

static unsigned cells_of(unsigned entries)
{
    return entries < CELLS ? entries : CELLS;
}

static void all_by_ci(struct exchange *x, unsigned n)
{
    unsigned cells = cells_of(n);
    query_list(x, (struct list){CI, 0, 1, cells}, cells, 0);
}

static void all_in_order(struct exchange *x, unsigned n)
{
    unsigned cells = cells_of(n);
    query_list(x, (struct list){LAC_CI, 0, 1, cells}, cells, 0);
}

/* The last cell of the file first. */
static void all_from_behind(struct exchange *x, unsigned n)
{
    unsigned cells = cells_of(n);
    query_list(x, (struct list){LAC_CI, CELLS - 1, -1U, cells}, cells, 0);
}

static void pages(struct exchange *x, unsigned n)
{
    fresh(x, CELLS);
    put_write_replace(&x->round, 0, NONE, first_cells(1), n);
    expect(x, WRITE_REPLACE_COMPLETE, REPLY + begun_size(1));
    put_reference(&x->round, KILL, 0, first_cells(1));
    expect(x, KILL_COMPLETE, REPLY + completed_size(1));
}

static void period_of_cells(struct exchange *x, unsigned n)
{
    fresh(x, CELLS);
    fill(&x->recording, (struct filling){n, 8, 8, 15});
    put_period(x, 8 * n);
}

static void period_of_messages(struct exchange *x, unsigned n)
{
    fresh(x, CELLS);
    stand(x, n);
    put_period(x, CELLS * n);
}

static void print_numbers(const unsigned *numbers, size_t count, const char *of)
{
    printf("\nby %s\n  %-42s", of, "");
    for (size_t i = 0; i < count; i++)
        printf(" %8u", numbers[i]);
    printf("\n");
}

/* Two lines: the time, and the time for each of what grows. */
static void print_series(struct series s, const unsigned *numbers, size_t count, const char *one)
{
    static struct exchange x;
    double times[8];
    printf("  %-42s", s.name);
    for (size_t i = 0; i < count; i++) {
        s.build(&x, numbers[i]);
        times[i] = round_time(&x);
        printf(" %8.0f", times[i]);
        fflush(stdout);
    }
    printf("\n    for each %-31s", one);
    for (size_t i = 0; i < count; i++)
        printf(" %8.1f", times[i] / numbers[i]);
    printf("\n");
}

static void print_table(const char *of, const char *one, const unsigned *numbers, size_t count, const struct series *all, size_t lines)
{
    print_numbers(numbers, count, of);
    for (size_t i = 0; i < lines; i++)
        print_series(all[i], numbers, count, one);
}

#define COUNT(array) (sizeof(array) / sizeof *(array))
#define PRINT_TABLE(of, one, numbers, all) print_table(of, one, numbers, COUNT(numbers), all, COUNT(all))

static void by_cells(void)
{
    static const unsigned numbers[] = {1, 2, 4, 8, 16, 32, 64};
    static const struct series all[] = {
        {"KILL of what does not stand there", kill_none},
        {"MESSAGE STATUS QUERY", query},
        {"the same over a file of so many cells", query_exactly},
        {"RESET", reset},
        {"WRITE-REPLACE, then KILL", write_and_kill},
        {"two WRITE-REPLACE that replace", replace_twice},
        {"WRITE-REPLACE, then KILL, beside 7 messages", write_beside_seven},
        {"WRITE-REPLACE, 8 messages in each cell", write_to_full_cells},
        {"WRITE-REPLACE, no content free", write_without_content},
        {"period, 8 messages in each cell", period_of_cells},
    };
    PRINT_TABLE("cells named, of 64", "cell", numbers, all);
}

static void by_messages(void)
{
    static const unsigned numbers[] = {1, 2, 3, 4, 5, 6, 7, 8};
    static const struct series all[] = {
        {"MESSAGE STATUS QUERY of the newest", query_newest},
        {"2n WRITE-REPLACE that replace the oldest", replace_oldest},
        {"period", period_of_messages},
    };
    PRINT_TABLE("messages of a cell, 64 cells", "message of a cell", numbers, all);
}

static void by_entries(void)
{
    static const unsigned numbers[] = {1, 2, 4, 8, 16, 32, 64, 128};
    static const struct series all[] = {
        {"LAC and CI of no cell", no_cells},
        {"CI of no cell", no_cells_by_ci},
        {"LAC and CI of one cell", one_cell},
        {"CI of the last cell", last_cell_by_ci},
        {"LAC and CI of cell after cell, at most 64", all_in_order},
        {"the same, the last cell first", all_from_behind},
        {"CI of cell after cell, at most 64", all_by_ci},
        {"LAC of 16 cells", one_area},
    };
    PRINT_TABLE("entries of the list of a MESSAGE STATUS QUERY, 64 cells", "entry", numbers, all);
}

static void by_pages(void)
{
    static const unsigned numbers[] = {1, 2, 4, 8, 15};
    static const struct series all[] = {{"WRITE-REPLACE, then KILL", pages}};
    PRINT_TABLE("pages, 1 cell named", "page", numbers, all);
}

void growth_tables(void)
{
    printf("How times grow; nanoseconds of a round, and for each of what grows.\n");
    by_cells();
    by_messages();
    by_entries();
    by_pages();
}
