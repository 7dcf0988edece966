/* The memory that a controller is made in. */
#include "exchange.h"
#include "tables.h"

#include <inttypes.h>
#include <stdio.h>
#include <stdlib.h>

static struct octets file;

static struct allocated for_list(void)
{
    struct allocated before = allocated();
    if (bench_list(file.at, file.count) != file.at[0])
        abort();
    return since(before);
}

static struct allocated for_table(void)
{
    struct allocated list = for_list(), before = allocated();
    if (!bench_table(file.at, file.count))
        abort();
    struct allocated all = since(before);
    return (struct allocated){all.blocks - list.blocks, all.octets - list.octets};
}

static struct allocated for_links(size_t count)
{
    struct allocated before = allocated();
    if (!bench_links(count))
        abort();
    return since(before);
}

static void print_row(const char *name, struct allocated a)
{
    printf("  %-42s %7" PRIu64 " %9" PRIu64 "\n", name, a.blocks, a.octets);
}

static void print_cells(unsigned cells)
{
    char name[48];
    file.count = 0;
    put_cell_file(&file, cells);
    snprintf(name, sizeof name, "cell list of a file of %u", cells);
    print_row(name, for_list());
    snprintf(name, sizeof name, "table over a file of %u, without the list", cells);
    print_row(name, for_table());
}

void memory_table(void)
{
    printf("Memory that is asked for when a controller is made.\n  %-42s %7s %9s\n", "", "blocks", "octets");
    print_cells(1);
    print_cells(64);
    print_row("places for 2 links", for_links(2));
    print_row("places for 65,536 links", for_links(65536));
}
