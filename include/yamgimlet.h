/* Yamgimlet's calls for C. Link libcapi.a, as `rt staticlib capi` builds it.
 *
 * Each call takes a pointer to octets and their number. The pointer must not be null, also where the number is 0, and that many octets
 * must be readable behind it. Nothing is kept, written or allocated, and any octets are accepted. */
#ifndef YAMGIMLET_H
#define YAMGIMLET_H

#include <stddef.h>
#include <stdint.h>

#ifdef __cplusplus
extern "C" {
#endif

/* The first message of a stream of octets.
 *   0           it is not whole yet: read more octets and ask again
 *   3           refused: its header announces more than 2,048 octets
 *   4 to 2048   its length, header included */
uint32_t cbsp_first_length(const uint8_t *octets, size_t count);

/* A cell file: octet n, octet 4, n identities of four octets (LAC and CI, two octets each), n capabilities of one octet.
 *   0    it can be read
 *   10   it has fewer than 2 octets, or not 2 + 5n (n and the second octet are checked before this)
 *   11   n is not 1 to 64, or the second octet is not 4
 *   12   an identity stands in it twice
 *   13   a capability is not 0 (no channel), 1 (basic only) or 3 (basic and extended) */
uint32_t cbsp_check_cell_file(const uint8_t *octets, size_t count);

#ifdef __cplusplus
}
#endif

#endif
