/* libosmogsm's decoding and encoding of single messages. */
#ifndef THEIRS_H
#define THEIRS_H

#include <stdbool.h>
#include <stddef.h>
#include <stdint.h>

/* Nanoseconds, below 0 where it does not read or write the message; `why` then says so. */
struct theirs {
    double nanoseconds;
    bool differs; /* it writes other octets than it read */
    const char *why;
};

/* Whether the program was built with libosmogsm. */
bool have_theirs(void);

/* Decodes a message; of one that it refuses, the time until it does. */
struct theirs decode_time(const uint8_t *octets, size_t count);

/* Encodes the value that a message decodes to. */
struct theirs encode_time(const uint8_t *octets, size_t count);

#endif
