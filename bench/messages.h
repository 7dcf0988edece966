/* Cell files and messages of a centre, put together octet by octet, and the lengths of replies. */
#ifndef MESSAGES_H
#define MESSAGES_H

#include <stddef.h>
#include <stdint.h>

enum { LONGEST = 2048, MOST_OCTETS = 1 << 17, PAGE = 82, MESSAGE_IDENTIFIER = 0x0032 };

enum type {
    WRITE_REPLACE = 0x01,
    WRITE_REPLACE_COMPLETE = 0x02,
    WRITE_REPLACE_FAILURE = 0x03,
    KILL = 0x04,
    KILL_COMPLETE = 0x05,
    KILL_FAILURE = 0x06,
    STATUS_QUERY = 0x0a,
    STATUS_QUERY_COMPLETE = 0x0b,
    STATUS_QUERY_FAILURE = 0x0c,
    RESET = 0x10,
    RESET_COMPLETE = 0x11,
    RESET_FAILURE = 0x12,
    ERROR_INDICATION = 0x15,
    KEEP_ALIVE = 0x16,
    KEEP_ALIVE_COMPLETE = 0x17,
};

/* Octets so far, and where the message that is put together begins. */
struct octets {
    size_t count, begun;
    uint8_t at[MOST_OCTETS];
};

enum discriminator { LAC_CI = 0x01, CI = 0x02, LAC = 0x05, ALL = 0x06 };

/* Entries of a Cell List: those of the cells first, first + step, ..., so that a step of 0 repeats one, one of -1U
   goes back, and cells past the file name none. */
struct list {
    enum discriminator by;
    unsigned first, step, count;
};

/* The first so many cells by LAC and CI; all cells by the one octet. */
struct list first_cells(unsigned count);
struct list all_cells(void);

/* A file of the first so many cells, each with both channels; sixteen have one location area code. */
void put_cell_file(struct octets *o, unsigned cells);

void put_octet(struct octets *o, unsigned octet);
void put_two(struct octets *o, unsigned value);
void put_cell_list(struct octets *o, struct list list);
void begin(struct octets *o, unsigned type);
void end(struct octets *o);

/* The serial number of message 0, 1, 2, ...: each has a code of its own. */
unsigned serial_of(unsigned message);

/* `old` is the message that is replaced, or NONE. Each has the Repetition Period 1, and is broadcast until it is ended. */
enum { NONE = 0xffff };
void put_write_replace(struct octets *o, unsigned message, unsigned old, struct list list, unsigned pages);

/* KILL or MESSAGE STATUS QUERY. */
void put_reference(struct octets *o, enum type type, unsigned message, struct list list);
void put_reset(struct octets *o, struct list list);
void put_keep_alive(struct octets *o, unsigned code);

/* The lengths of the lists of a reply, none where it has no entry. Its entries have LAC and CI. */
size_t begun_size(unsigned cells);
size_t completed_size(unsigned messages);
size_t failures_size(unsigned entries);

#endif
