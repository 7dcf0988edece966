/* A C host of the library: the edges of framing and of the cell file check, each with the answer that the header gives. */
#include "yamgimlet.h"

#include <stdio.h>
#include <stdlib.h>
#include <string.h>

static int tried, failed;

static void expect(const char *what, uint32_t is, uint32_t wanted)
{
    tried++;
    if (is != wanted) {
        failed++;
        fprintf(stderr, "%s: %u, not %u\n", what, (unsigned)is, (unsigned)wanted);
    }
}

/* Octets in memory of exactly their number, so that a sanitizer sees a read past them. */
static uint8_t *exact(const uint8_t *octets, size_t count)
{
    uint8_t *copy = malloc(count ? count : 1);
    if (!copy)
        exit(2);
    if (count)
        memcpy(copy, octets, count);
    return copy;
}

static void frame(const char *what, const uint8_t *octets, size_t count, uint32_t wanted)
{
    uint8_t *copy = exact(octets, count);
    expect(what, cbsp_first_length(copy, count), wanted);
    free(copy);
}

static void file(const char *what, const uint8_t *octets, size_t count, uint32_t wanted)
{
    uint8_t *copy = exact(octets, count);
    expect(what, cbsp_check_cell_file(copy, count), wanted);
    free(copy);
}

static void framing(void)
{
    static uint8_t octets[2100];
    uint8_t long_header[] = {0x01, 0x00, 0x08, 0x00};
    uint8_t widest_header[] = {0x01, 0xff, 0xff, 0xff};
    uint8_t keep_alive[] = {0x16, 0x00, 0x00, 0x02, 0x18, 0x26};
    octets[0] = 0x17;
    frame("0 octets", octets, 0, 0);
    frame("3 octets", octets, 3, 0);
    frame("3 octets of a header that is too long", widest_header, 3, 0);
    frame("4 octets, an empty body", octets, 4, 4);
    frame("5 octets, an empty body", octets, 5, 4);
    frame("KEEP-ALIVE", keep_alive, 6, 6);
    frame("KEEP-ALIVE, one octet short", keep_alive, 5, 0);
    frame("a header of 2,052 octets", long_header, 4, 3);
    frame("the widest header", widest_header, 4, 3);
    octets[2] = 0x07;
    octets[3] = 0xfb; /* 4 + 2,043 */
    frame("2,047 octets", octets, 2047, 2047);
    frame("2,047 octets, one short", octets, 2046, 0);
    octets[3] = 0xfc; /* 4 + 2,044 */
    frame("2,048 octets", octets, 2048, 2048);
    frame("2,048 octets and one more", octets, 2049, 2048);
    frame("2,048 octets, one short", octets, 2047, 0);
    octets[3] = 0xfd; /* 4 + 2,045 */
    frame("2,049 octets", octets, 2049, 3);
    frame("2,049 octets, the header alone", octets, 4, 3);
}

static void cell_files(void)
{
    uint8_t good[] = {2, 4, 1, 1, 0, 1, 1, 1, 0, 2, 1, 3};
    uint8_t twice[] = {2, 4, 1, 1, 0, 1, 1, 1, 0, 1, 1, 1};
    uint8_t capability[] = {1, 4, 1, 1, 0, 1, 2};
    uint8_t cut[] = {2, 4, 1};
    uint8_t none[] = {0, 4};
    uint8_t narrow[] = {1, 2, 1, 1, 3};
    uint8_t many[2 + 5 * 65];
    int i;
    file("the built-in file", good, 12, 0);
    file("an empty file", good, 0, 10);
    file("one octet", good, 1, 10);
    file("three octets", cut, 3, 10);
    file("one octet short", good, 11, 10);
    file("no cell", none, 2, 11);
    file("identities of two octets", narrow, 5, 11);
    file("an identity twice", twice, 12, 12);
    file("capability 2", capability, 7, 13);
    memset(many, 0, sizeof many);
    many[1] = 4;
    for (i = 0; i < 64; i++)
        many[2 + 4 * i + 3] = (uint8_t)i;
    many[0] = 64;
    file("64 cells", many, 2 + 5 * 64, 0);
    file("64 cells and one octet", many, 3 + 5 * 64, 10);
    many[2 + 4 * 63 + 3] = 0; /* the last as the first */
    file("64 cells, the last as the first", many, 2 + 5 * 64, 12);
    many[0] = 65;
    file("65 cells", many, 2 + 5 * 65, 11);
    good[11] = 2;
    good[9] = 1; /* an identity twice and a bad capability */
    file("both faults", good, 12, 12);
}

int main(void)
{
    framing();
    cell_files();
    printf("C host: %d tried, %d failed\n", tried, failed);
    return failed != 0;
}
