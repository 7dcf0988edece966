/* The calls of crate `benched`, with every allocation of theirs counted. */
#ifndef OURS_H
#define OURS_H

#include <stdbool.h>
#include <stddef.h>
#include <stdint.h>

struct sums {
    uint64_t accepted, types, octets, broadcasts;
};

uint32_t bench_read(const uint8_t *octets, size_t count);
uint32_t bench_write(const uint8_t *octets, size_t count, uint8_t *out, size_t room, uint32_t rounds);
uint32_t bench_write_given(const uint8_t *octets, size_t count, uint8_t *out, size_t room, uint32_t rounds);

size_t bench_list(const uint8_t *file, size_t count);
bool bench_table(const uint8_t *file, size_t count);
bool bench_links(size_t count);

bool bench_drill(const uint8_t *recording, size_t recorded, const uint8_t *messages, size_t count, uint32_t periods, uint32_t rounds,
                 struct sums *sums);
bool bench_frame(const uint8_t *recording, size_t recorded, const uint8_t *messages, size_t count, uint32_t periods, uint32_t rounds,
                 uint8_t *memory, size_t room, struct sums *sums);
size_t bench_replies(const uint8_t *recording, size_t recorded, const uint8_t *messages, size_t count, uint8_t *out, size_t room);

/* What was allocated since the program began: calls of malloc and realloc, and the octets asked for. */
struct allocated {
    uint64_t blocks, octets;
};
struct allocated allocated(void);
struct allocated since(struct allocated before);

#endif
