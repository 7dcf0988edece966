/* Rounds of calls on a controller, measured, with what they should come to. */
#ifndef EXCHANGE_H
#define EXCHANGE_H

#include "messages.h"
#include "ours.h"

struct exchange {
    struct octets recording; /* the cell file, and messages that come before */
    struct octets round;     /* the messages of a round */
    uint32_t periods;        /* the periods behind them */
    struct sums each;        /* what a round should come to */
    uint8_t *memory;         /* of a frame site; none for a drill site */
    size_t room;
};

/* No messages, over a file of so many cells and a drill site. */
void fresh(struct exchange *x, unsigned cells);

/* The message that was put last into a round should get a reply of that type and length. */
void expect(struct exchange *x, enum type type, size_t length);

/* A period behind the messages of a round, in which so many broadcasts should be done. */
void put_period(struct exchange *x, unsigned broadcasts);

/* Nanoseconds of a round. The program ends with a word where a call is refused, a reply is not as it should be, or a call allocates. */
double round_time(struct exchange *x);

/* The calls that were made so far under that check. */
uint64_t checked_calls(void);

#endif
