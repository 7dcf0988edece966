/* The benchmark: prints the tables that are asked for. */
#include "clock.h"
#include "exchange.h"
#include "tables.h"

#include <fcntl.h>
#include <inttypes.h>
#include <stdbool.h>
#include <stdio.h>
#include <stdlib.h>
#include <string.h>
#include <unistd.h>

static const struct {
    const char *name;
    void (*print)(void);
} tables[] = {
    {"codec", codec_table}, {"requests", request_tables}, {"periods", period_table}, {"memory", memory_table}, {"growth", growth_tables},
};

enum { TABLES = sizeof tables / sizeof *tables, MOST_PASSES = 100 };

static bool is_asked(const char *name, int count, char **names)
{
    for (int i = 0; i < count; i++)
        if (strcmp(name, names[i]) == 0)
            return true;
    return count == 0;
}

static void print_tables(int count, char **names)
{
    begin_pass();
    for (size_t i = 0; i < TABLES; i++)
        if (is_asked(tables[i].name, count, names)) {
            tables[i].print();
            printf("\n");
        }
    fflush(stdout);
}

static void pass_in_silence(int count, char **names)
{
    int shown = dup(STDOUT_FILENO), nowhere = open("/dev/null", O_WRONLY);
    if (shown < 0 || nowhere < 0)
        abort();
    dup2(nowhere, STDOUT_FILENO);
    print_tables(count, names);
    dup2(shown, STDOUT_FILENO);
    close(shown);
    close(nowhere);
}

static bool is_table(const char *name)
{
    for (size_t i = 0; i < TABLES; i++)
        if (strcmp(name, tables[i].name) == 0)
            return true;
    fprintf(stderr, "there is no table %s\n", name);
    return false;
}

/* A number of passes; 0 for any other word. */
static int passes_in(const char *word)
{
    char *end;
    long passes = strtol(word, &end, 10);
    return end != word && *end == '\0' && passes > 0 && passes <= MOST_PASSES ? (int)passes : 0;
}

/* Arguments: the number of passes, then tables. All is measured in each pass, and printed in the last: other work on the machine comes
   and goes. */
int main(int argc, char **argv)
{
    int passes = argc > 1 ? passes_in(argv[1]) : 0, count = argc - 2;
    char **names = argv + 2;
    if (passes == 0) {
        fprintf(stderr, "passes are 1 to %d\n", MOST_PASSES);
        return 2;
    }
    for (int i = 0; i < count; i++)
        if (!is_table(names[i]))
            return 2;
    fflush(stdout);
    for (int pass = 1; pass < passes; pass++)
        pass_in_silence(count, names);
    print_tables(count, names);
    if (checked_calls() > 0)
        printf("%" PRIu64 " calls were measured: each was accepted and got the reply that it should, and none allocated.\n", checked_calls());
    return 0;
}
