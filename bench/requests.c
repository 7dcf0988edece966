/* Requests read, handled and answered by a controller, beside libosmogsm's decoding of them and encoding of the replies. */
#include "exchange.h"
#include "tables.h"
#include "theirs.h"

#include <stdio.h>
#include <stdlib.h>
#include <string.h>

/* A file of so many cells, lists of so many entries, of which those past the cells name none, and contents of so many pages. */
struct form {
    const char *name;
    unsigned cells, entries, pages;
};

static const struct form forms[] = {
    {"1 cell, 1 page", 1, 1, 1},
    {"64 cells, 15 pages", 64, 64, 15},
    {"128 entries, 64 of them name no cell, 15 pages", 64, 128, 15},
};

static unsigned named(const struct form *f)
{
    return f->entries < f->cells ? f->entries : f->cells;
}

static unsigned unnamed(const struct form *f)
{
    return f->entries - named(f);
}

/* Header, Message Identifier, a serial number and the Channel Indicator. */
enum { REPLY = 12, OLD_SERIAL = 3 };

static void put_write(struct exchange *x, const struct form *f)
{
    put_write_replace(&x->round, 0, NONE, first_cells(f->entries), f->pages);
    expect(x, unnamed(f) ? WRITE_REPLACE_FAILURE : WRITE_REPLACE_COMPLETE, REPLY + failures_size(unnamed(f)) + begun_size(named(f)));
}

static void put_reset_all(struct exchange *x, const struct form *f)
{
    put_reset(&x->round, first_cells(f->entries));
    expect(x, unnamed(f) ? RESET_FAILURE : RESET_COMPLETE, 4 + failures_size(unnamed(f)) + begun_size(named(f)));
}

static void write_and_kill(struct exchange *x, const struct form *f)
{
    put_write(x, f);
    put_reference(&x->round, KILL, 0, first_cells(f->entries));
    expect(x, unnamed(f) ? KILL_FAILURE : KILL_COMPLETE, REPLY + failures_size(unnamed(f)) + completed_size(named(f)));
}

static void write_and_reset(struct exchange *x, const struct form *f)
{
    put_write(x, f);
    put_reset_all(x, f);
}

static void put_replacing(struct exchange *x, const struct form *f, unsigned message, unsigned old)
{
    put_write_replace(&x->round, message, old, first_cells(f->entries), f->pages);
    expect(x, unnamed(f) ? WRITE_REPLACE_FAILURE : WRITE_REPLACE_COMPLETE,
           REPLY + OLD_SERIAL + failures_size(unnamed(f)) + completed_size(named(f)) + begun_size(named(f)));
}

static void replace_twice(struct exchange *x, const struct form *f)
{
    put_write_replace(&x->recording, 0, NONE, first_cells(f->entries), f->pages);
    put_replacing(x, f, 1, 0);
    put_replacing(x, f, 0, 1);
}

static void write_again(struct exchange *x, const struct form *f)
{
    put_write_replace(&x->recording, 0, NONE, first_cells(f->entries), f->pages);
    put_write_replace(&x->round, 0, NONE, first_cells(f->entries), f->pages);
    expect(x, WRITE_REPLACE_FAILURE, REPLY + failures_size(f->entries));
}

static void kill_none(struct exchange *x, const struct form *f)
{
    put_reference(&x->round, KILL, 0, first_cells(f->entries));
    expect(x, KILL_FAILURE, REPLY + failures_size(f->entries));
}

static void query(struct exchange *x, const struct form *f)
{
    put_write_replace(&x->recording, 0, NONE, first_cells(f->entries), f->pages);
    put_reference(&x->round, STATUS_QUERY, 0, first_cells(f->entries));
    expect(x, unnamed(f) ? STATUS_QUERY_FAILURE : STATUS_QUERY_COMPLETE, REPLY + failures_size(unnamed(f)) + completed_size(named(f)));
}

static void reset(struct exchange *x, const struct form *f)
{
    put_reset_all(x, f);
}

static void keep_alive(struct exchange *x, const struct form *f)
{
    (void)f;
    put_keep_alive(&x->round, 0x26);
    expect(x, KEEP_ALIVE_COMPLETE, 4);
}

/* No code has that time. */
static void faulty_keep_alive(struct exchange *x, const struct form *f)
{
    (void)f;
    put_keep_alive(&x->round, 0x27);
    expect(x, ERROR_INDICATION, 6);
}

/* The last page is not there. */
static void faulty_write(struct exchange *x, const struct form *f)
{
    put_write_replace(&x->round, 0, NONE, first_cells(f->entries), f->pages);
    x->round.count -= 2 + PAGE;
    end(&x->round);
    expect(x, ERROR_INDICATION, 6);
}

typedef void build(struct exchange *x, const struct form *f);

struct request {
    const char *name;
    build *build;
    unsigned parts; /* how many like parts a round has: the figures are for one of them */
};

static const struct request over_lists[] = {
    {"WRITE-REPLACE, then KILL", write_and_kill, 1},
    {"WRITE-REPLACE, then RESET", write_and_reset, 1},
    {"WRITE-REPLACE that replaces another", replace_twice, 2},
    {"WRITE-REPLACE of what stands there", write_again, 1},
    {"KILL of what does not stand there", kill_none, 1},
    {"MESSAGE STATUS QUERY", query, 1},
    {"RESET", reset, 1},
    {"WRITE-REPLACE without its last page", faulty_write, 1},
};

static const struct request alone[] = {
    {"KEEP-ALIVE", keep_alive, 1},
    {"KEEP-ALIVE of a time that no code has", faulty_keep_alive, 1},
};

/* What libosmogsm takes for the messages of a round and for its replies, and what it does not do with them. */
struct beside {
    double decode, encode;
    char notes[512];
};

static void note(struct beside *b, const char *what, size_t place, const char *why)
{
    size_t used = strlen(b->notes);
    snprintf(b->notes + used, sizeof b->notes - used, "      libosmogsm %s %zu%s%s\n", what, place + 1, why ? ": " : "", why ? why : "");
}

static size_t length_of(const uint8_t *message)
{
    return 4 + (size_t)message[2] * 256 + message[3];
}

static void add(struct beside *b, size_t place, const uint8_t *request, const uint8_t *reply)
{
    struct theirs decode = decode_time(request, length_of(request));
    struct theirs encode = encode_time(reply, length_of(reply));
    if (decode.why)
        note(b, "does not read request", place, decode.why);
    else if (reply[0] == ERROR_INDICATION)
        note(b, "takes request", place, NULL);
    if (encode.why)
        note(b, "does not read and write reply", place, encode.why);
    if (encode.differs)
        note(b, "reads, and writes to other octets, reply", place, NULL);
    b->decode += decode.nanoseconds;
    b->encode += encode.why ? 0 : encode.nanoseconds;
}

static struct beside beside(const struct exchange *x)
{
    static uint8_t replies[MOST_OCTETS];
    struct beside b = {0, 0, ""};
    const struct octets *recording = &x->recording, *round = &x->round;
    size_t count = bench_replies(recording->at, recording->count, round->at, round->count, replies, sizeof replies);
    size_t at = 0, place = 0;
    for (size_t i = 0; i < round->count; i += length_of(round->at + i), place++) {
        add(&b, place, round->at + i, replies + at);
        at += length_of(replies + at);
    }
    if (at != count)
        abort();
    return b;
}

static void print_row(const struct request *r, const struct exchange *x, double ours)
{
    printf("  %-37s %5zu %5zu %7.0f", r->name, x->round.count / r->parts, (size_t)x->each.octets / r->parts, ours);
    if (have_theirs()) {
        struct beside b = beside(x);
        double decode = b.decode / r->parts, encode = b.encode / r->parts;
        printf(" %8.0f %6.1f %8.0f %6.1f\n%s", decode, decode / ours, encode, (decode + encode) / ours, b.notes);
    } else {
        printf("\n");
    }
}

static double measure(const struct request *r, const struct form *f)
{
    static struct exchange x;
    fresh(&x, f->cells);
    r->build(&x, f);
    double ours = round_time(&x) / r->parts;
    print_row(r, &x, ours);
    return ours;
}

static void heading(const char *name)
{
    printf("\n%s\n  %-37s %5s %5s %7s", name, "", "in", "out", "ours");
    if (have_theirs())
        printf(" %8s %6s %8s %6s", "decode", "ratio", "encode", "both");
    printf("\n");
}

static void form_table(const struct form *f)
{
    heading(f->name);
    double times[sizeof over_lists / sizeof *over_lists];
    for (size_t i = 0; i < sizeof over_lists / sizeof *over_lists; i++)
        times[i] = measure(&over_lists[i], f);
    double write = times[1] - times[6], kill = times[0] - write;
    printf("  by difference: WRITE-REPLACE that begins %.0f, KILL that ends %.0f\n", write, kill);
}

void request_tables(void)
{
    printf("Requests read, handled and answered; octets in and out; nanoseconds.\n");
    if (have_theirs())
        printf("decode, encode: libosmogsm's decoding of the requests and encoding of the replies; ratio: decode by ours; both: their sum by ours.\n");
    for (size_t i = 0; i < sizeof forms / sizeof *forms; i++)
        form_table(&forms[i]);
    heading("without a list");
    for (size_t i = 0; i < sizeof alone / sizeof *alone; i++)
        measure(&alone[i], &forms[0]);
}
