/* Cell files and messages of a centre. */
#include "messages.h"

#include <stdlib.h>

void put_octet(struct octets *o, unsigned octet)
{
    if (o->count == MOST_OCTETS)
        abort();
    o->at[o->count++] = (uint8_t)octet;
}

void put_two(struct octets *o, unsigned value)
{
    put_octet(o, value >> 8);
    put_octet(o, value & 0xff);
}

static unsigned lac_of(unsigned cell)
{
    return 0x0101 + cell / 16;
}

static unsigned ci_of(unsigned cell)
{
    return cell + 1;
}

void put_cell_file(struct octets *o, unsigned cells)
{
    put_octet(o, cells);
    put_octet(o, 4);
    for (unsigned i = 0; i < cells; i++) {
        put_two(o, lac_of(i));
        put_two(o, ci_of(i));
    }
    for (unsigned i = 0; i < cells; i++)
        put_octet(o, 3);
}

struct list first_cells(unsigned count)
{
    return (struct list){LAC_CI, 0, 1, count};
}

struct list all_cells(void)
{
    return (struct list){ALL, 0, 0, 0};
}

void begin(struct octets *o, unsigned type)
{
    o->begun = o->count;
    put_octet(o, type);
    put_octet(o, 0);
    put_two(o, 0);
}

void end(struct octets *o)
{
    size_t body = o->count - o->begun - 4;
    o->at[o->begun + 2] = (uint8_t)(body >> 8);
    o->at[o->begun + 3] = (uint8_t)body;
}

static void put_entry(struct octets *o, enum discriminator by, unsigned cell)
{
    if (by == LAC_CI || by == LAC)
        put_two(o, lac_of(cell));
    if (by == LAC_CI || by == CI)
        put_two(o, ci_of(cell));
}

void put_cell_list(struct octets *o, struct list list)
{
    put_octet(o, 0x04);
    put_two(o, 1 + (list.by == LAC_CI ? 4 : 2) * list.count);
    put_octet(o, list.by);
    for (unsigned i = 0; i < list.count; i++)
        put_entry(o, list.by, list.first + i * list.step);
}

unsigned serial_of(unsigned message)
{
    return 0x1000 + 16 * message;
}

static void put_identifier(struct octets *o)
{
    put_octet(o, 0x0e);
    put_two(o, MESSAGE_IDENTIFIER);
}

static void put_serial(struct octets *o, unsigned element, unsigned message)
{
    put_octet(o, element);
    put_two(o, serial_of(message));
}

void put_write_replace(struct octets *o, unsigned message, unsigned old, struct list list, unsigned pages)
{
    static const uint8_t middle[] = {0x12, 0x00, 0x05, 0x02, 0x06, 0x00, 0x01, 0x07, 0x00, 0x00, 0x13};
    begin(o, WRITE_REPLACE);
    put_identifier(o);
    put_serial(o, 0x03, message);
    if (old != NONE)
        put_serial(o, 0x02, old);
    put_cell_list(o, list);
    for (size_t i = 0; i < sizeof middle; i++)
        put_octet(o, middle[i]);
    put_octet(o, pages);
    put_two(o, 0x0c44);
    for (unsigned i = 0; i < pages; i++) {
        put_two(o, 0x0100 + PAGE);
        for (unsigned k = 0; k < PAGE; k++)
            put_octet(o, 'a' + i);
    }
    end(o);
}

void put_reference(struct octets *o, enum type type, unsigned message, struct list list)
{
    begin(o, type);
    put_identifier(o);
    put_serial(o, 0x02, message);
    put_cell_list(o, list);
    put_two(o, 0x1200);
    end(o);
}

void put_reset(struct octets *o, struct list list)
{
    begin(o, RESET);
    put_cell_list(o, list);
    end(o);
}

void put_keep_alive(struct octets *o, unsigned code)
{
    begin(o, KEEP_ALIVE);
    put_octet(o, 0x18);
    put_octet(o, code);
    end(o);
}

static size_t list_size(size_t head, size_t entry, unsigned entries)
{
    return entries == 0 ? 0 : head + entry * entries;
}

size_t begun_size(unsigned cells)
{
    return list_size(4, 4, cells);
}

size_t completed_size(unsigned messages)
{
    return list_size(4, 7, messages);
}

size_t failures_size(unsigned entries)
{
    return list_size(3, 6, entries);
}
