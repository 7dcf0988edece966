/* A C host that hands a million random and damaged inputs to each of the two calls, in memory of exactly their number of octets, and
 * compares each answer with what yamgimlet.h says, written here once more. The inputs are the same in every run. */
#include "yamgimlet.h"

#include <stdio.h>
#include <stdlib.h>
#include <string.h>

enum { INPUTS = 1000000, LONGEST = 2048, MOST_CELLS = 64, MOST_OCTETS = 2200 };

static uint64_t state = 0x9e3779b97f4a7c15u;

static uint32_t below(uint32_t bound)
{
    state ^= state << 13;
    state ^= state >> 7;
    state ^= state << 17;
    return (uint32_t)(state >> 32) % bound;
}

static void fill(uint8_t *octets, size_t count)
{
    for (size_t i = 0; i < count; i++)
        octets[i] = (uint8_t)below(256);
}

/* An octet changed, or the end cut off or made longer. */
static size_t damage(uint8_t *octets, size_t count)
{
    switch (below(4)) {
    case 0:
        return below((uint32_t)count + 1);
    case 1:
        fill(octets + count, 8);
        return count + 1 + below(8);
    default:
        if (count)
            octets[below((uint32_t)count)] = (uint8_t)below(below(2) ? 8 : 256);
        return count;
    }
}

static size_t some_message(uint8_t *octets)
{
    static const uint32_t bodies[] = {0, 2, 16, 200, LONGEST - 5, LONGEST - 4, LONGEST - 3, 0x10000};
    uint32_t body = bodies[below(8)];
    size_t count = 4 + (body > LONGEST ? below(64) : body);
    fill(octets, count);
    octets[1] = (uint8_t)(body >> 16);
    octets[2] = (uint8_t)(body >> 8);
    octets[3] = (uint8_t)body;
    return count;
}

static size_t some_file(uint8_t *octets)
{
    static const uint8_t capabilities[] = {0, 1, 3};
    uint32_t cells = 1 + below(below(4) ? 6 : MOST_CELLS + 2);
    octets[0] = (uint8_t)cells;
    octets[1] = 4;
    for (uint32_t i = 0; i < cells; i++) {
        fill(octets + 2 + 4 * i, 3);
        octets[2 + 4 * i + 3] = (uint8_t)i;
        octets[2 + 4 * cells + i] = capabilities[below(3)];
        if (below(40) == 0)
            memcpy(octets + 2 + 4 * i, octets + 2 + 4 * below(i + 1), 4);
    }
    return 2 + 5 * (size_t)cells;
}

static size_t some_input(uint8_t *octets, size_t (*good)(uint8_t *))
{
    size_t count;
    if (below(4) == 0) {
        count = below(below(2) ? 12 : MOST_OCTETS);
        fill(octets, count);
        return count;
    }
    count = good(octets);
    for (uint32_t left = below(4); left > 0; left--)
        count = damage(octets, count);
    return count;
}

static uint32_t first_length(const uint8_t *octets, size_t count)
{
    size_t length;
    if (count < 4)
        return 0;
    length = 4 + ((size_t)octets[1] << 16) + ((size_t)octets[2] << 8) + octets[3];
    if (length > LONGEST)
        return 3;
    return count < length ? 0 : (uint32_t)length;
}

static uint32_t check_cell_file(const uint8_t *octets, size_t count)
{
    size_t cells, i, k;
    if (count < 2)
        return 10;
    cells = octets[0];
    if (cells < 1 || cells > MOST_CELLS || octets[1] != 4)
        return 11;
    if (count != 2 + 5 * cells)
        return 10;
    for (i = 0; i < cells; i++)
        for (k = 0; k < i; k++)
            if (memcmp(octets + 2 + 4 * i, octets + 2 + 4 * k, 4) == 0)
                return 12;
    for (i = 0; i < cells; i++)
        if (octets[2 + 4 * cells + i] > 3 || octets[2 + 4 * cells + i] == 2)
            return 13;
    return 0;
}

struct call {
    const char *name;
    uint32_t (*is)(const uint8_t *, size_t);
    uint32_t (*wanted)(const uint8_t *, size_t);
    size_t (*good)(uint8_t *);
};

/* Whether all answers are as they should be; each kind of answer is counted, so that a reader sees that none is missing. */
static int try_inputs(const struct call *call)
{
    static uint8_t space[MOST_OCTETS + 64];
    uint32_t kinds[16] = {0}, i;
    for (i = 0; i < INPUTS; i++) {
        size_t count = some_input(space, call->good);
        uint8_t *octets = malloc(count ? count : 1);
        uint32_t is, wanted;
        if (!octets)
            exit(2);
        memcpy(octets, space, count);
        is = call->is(octets, count);
        wanted = call->wanted(octets, count);
        if (is != wanted || memcmp(octets, space, count) != 0) {
            fprintf(stderr, "%s: input %u of %zu octets: %u, not %u\n", call->name, (unsigned)i, count, (unsigned)is, (unsigned)wanted);
            return 0;
        }
        kinds[is > 14 ? 15 : is]++;
        free(octets);
    }
    printf("%s: %d inputs;", call->name, INPUTS);
    for (i = 0; i < 15; i++)
        if (kinds[i])
            printf(" %u: %u", (unsigned)i, (unsigned)kinds[i]);
    printf(" above: %u\n", (unsigned)kinds[15]);
    return 1;
}

int main(void)
{
    static const struct call calls[] = {
        {"cbsp_first_length", cbsp_first_length, first_length, some_message},
        {"cbsp_check_cell_file", cbsp_check_cell_file, check_cell_file, some_file},
    };
    return !(try_inputs(&calls[0]) && try_inputs(&calls[1]));
}
