/* Reading and writing of single messages, beside libosmogsm.
 *
 * Reading: all of a message, every entry of its lists and every page included. libosmogsm's decoder makes a list in memory, which is freed
 * again; Yamgimlet's reader checks the octets and gives the entries where they stand. Writing: from a value to octets; libosmogsm makes
 * a message buffer, which is freed again, Yamgimlet writes into the same space each time, from a message that was read, whose entries and
 * pages stand in its octets, and from the same in memory, as a controller has them. */
#include "clock.h"
#include "messages.h"
#include "ours.h"
#include "tables.h"
#include "theirs.h"

#include <stdio.h>
#include <stdlib.h>
#include <string.h>

static volatile uint32_t sink;

static uint8_t out[LONGEST];

static void read_all(void *what, uint32_t rounds)
{
    struct octets *o = what;
    for (uint32_t i = 0; i < rounds; i++)
        sink += bench_read(o->at, o->count);
}

static void check_written(const struct octets *o, uint32_t rounds, uint32_t length)
{
    if (rounds > 0 && (length != o->count || memcmp(out, o->at, o->count) != 0)) {
        fprintf(stderr, "type %02x: other octets are written\n", o->at[0]);
        exit(1);
    }
}

static void write_all(void *what, uint32_t rounds)
{
    struct octets *o = what;
    check_written(o, rounds, bench_write(o->at, o->count, out, sizeof out, rounds));
}

static void write_given(void *what, uint32_t rounds)
{
    struct octets *o = what;
    check_written(o, rounds, bench_write_given(o->at, o->count, out, sizeof out, rounds));
}

/* With a Cell List, without which libosmogsm does not read it. */
static void put_kill_complete(struct octets *o, unsigned entries)
{
    begin(o, KILL_COMPLETE);
    put_octet(o, 0x0e);
    put_two(o, MESSAGE_IDENTIFIER);
    put_octet(o, 0x02);
    put_two(o, serial_of(0));
    put_octet(o, 0x08);
    put_two(o, 1 + 7 * entries);
    put_octet(o, 0x01);
    for (unsigned i = 0; i < entries; i++) {
        put_two(o, 0x0101);
        put_two(o, i + 1);
        put_two(o, 100 + i);
        put_octet(o, 0x00);
    }
    put_cell_list(o, first_cells(1));
    put_two(o, 0x1200);
    end(o);
}

static void print_row(const char *name, struct octets *o)
{
    if (bench_read(o->at, o->count) == 0)
        abort();
    double read = nanoseconds(read_all, o), written = nanoseconds(write_all, o), given = nanoseconds(write_given, o);
    printf("  %-34s %6zu %7.0f %7.0f %7.0f", name, o->count, read, written, given);
    if (have_theirs()) {
        double decode = decode_time(o->at, o->count).nanoseconds, encode = encode_time(o->at, o->count).nanoseconds;
        printf(" %8.0f %6.1f %8.0f %6.1f", decode, decode / read, encode, encode / given);
    }
    printf("\n");
    o->count = 0;
}

void codec_table(void)
{
    static struct octets o;
    printf("Messages read and written, from the octets of another and from memory; nanoseconds.\n");
    printf("  %-34s %6s %7s %7s %7s", "", "octets", "reading", "writing", "memory");
    printf(have_theirs() ? " %8s %6s %8s %6s\n" : "\n", "decode", "ratio", "encode", "ratio");
    put_write_replace(&o, 0, NONE, first_cells(1), 1);
    print_row("WRITE-REPLACE, 1 page, 1 cell", &o);
    put_write_replace(&o, 0, NONE, first_cells(64), 15);
    print_row("WRITE-REPLACE, 15 pages, 64 cells", &o);
    put_kill_complete(&o, 64);
    print_row("KILL COMPLETE, 64 entries", &o);
    put_keep_alive(&o, 0x26);
    print_row("KEEP-ALIVE", &o);
}
