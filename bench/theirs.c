/* libosmogsm's decoding and encoding. Its decoder makes lists in memory, and its encoder a message buffer: both are freed again. */
#include "theirs.h"

#ifdef OSMOGSM

#include "clock.h"
#include "messages.h"

#include <stdio.h>
#include <stdlib.h>
#include <string.h>

#include <osmocom/core/msgb.h>
#include <osmocom/core/talloc.h>
#include <osmocom/gsm/cbsp.h>

bool have_theirs(void)
{
    return true;
}

static struct msgb *buffer(const uint8_t *octets, size_t count)
{
    struct msgb *msg = msgb_alloc(LONGEST + 64, "bench");
    if (!msg)
        abort();
    msg->l1h = msgb_put(msg, (unsigned)count);
    memcpy(msg->l1h, octets, count);
    msg->l2h = msg->l1h + 4;
    return msg;
}

static void decode(void *what, uint32_t rounds)
{
    for (uint32_t i = 0; i < rounds; i++)
        talloc_free(osmo_cbsp_decode(NULL, what));
}

struct theirs decode_time(const uint8_t *octets, size_t count)
{
    struct theirs theirs = {-1, false, NULL};
    struct msgb *msg = buffer(octets, count);
    struct osmo_cbsp_decoded *value = osmo_cbsp_decode(NULL, msg);
    if (!value)
        theirs.why = osmo_cbsp_errstr ? osmo_cbsp_errstr : "no reason given";
    talloc_free(value);
    theirs.nanoseconds = nanoseconds(decode, msg);
    msgb_free(msg);
    return theirs;
}

static void encode(void *what, uint32_t rounds)
{
    for (uint32_t i = 0; i < rounds; i++)
        msgb_free(osmo_cbsp_encode(NULL, what));
}

static struct osmo_cbsp_decoded *decoded(const uint8_t *octets, size_t count)
{
    struct msgb *msg = buffer(octets, count);
    struct osmo_cbsp_decoded *value = osmo_cbsp_decode(NULL, msg);
    msgb_free(msg);
    return value;
}

/* It reads a KILL COMPLETE only where it has a Cell List, which is optional: here it gets one, which the value then loses again. */
static struct osmo_cbsp_decoded *decoded_kill_complete(const uint8_t *octets, size_t count)
{
    static struct octets longer;
    longer.count = 0;
    begin(&longer, KILL_COMPLETE);
    for (size_t i = 4; i < count - 2; i++)
        put_octet(&longer, octets[i]);
    put_cell_list(&longer, first_cells(1));
    put_two(&longer, octets[count - 2] << 8 | octets[count - 1]);
    end(&longer);
    struct osmo_cbsp_decoded *value = decoded(longer.at, longer.count);
    if (value)
        INIT_LLIST_HEAD(&value->u.kill_compl.cell_list.list);
    return value;
}

static bool is_same(const struct msgb *msg, const uint8_t *octets, size_t count)
{
    return msgb_length(msg) == count && memcmp(msgb_data(msg), octets, count) == 0;
}

static struct theirs encode_value(struct osmo_cbsp_decoded *value, const uint8_t *octets, size_t count)
{
    struct theirs theirs = {-1, false, NULL};
    struct msgb *msg = osmo_cbsp_encode(NULL, value);
    if (!msg) {
        theirs.why = "the value is not encoded";
        return theirs;
    }
    theirs.differs = !is_same(msg, octets, count);
    msgb_free(msg);
    theirs.nanoseconds = nanoseconds(encode, value);
    return theirs;
}

struct theirs encode_time(const uint8_t *octets, size_t count)
{
    bool is_kill_complete = octets[0] == KILL_COMPLETE;
    struct osmo_cbsp_decoded *value = is_kill_complete ? decoded_kill_complete(octets, count) : decoded(octets, count);
    if (!value)
        return (struct theirs){-1, false, osmo_cbsp_errstr ? osmo_cbsp_errstr : "no reason given"};
    struct theirs theirs = encode_value(value, octets, count);
    talloc_free(value);
    return theirs;
}

#else

bool have_theirs(void)
{
    return false;
}

struct theirs decode_time(const uint8_t *octets, size_t count)
{
    (void)octets, (void)count;
    return (struct theirs){-1, false, "libosmogsm is not installed"};
}

struct theirs encode_time(const uint8_t *octets, size_t count)
{
    (void)octets, (void)count;
    return (struct theirs){-1, false, "libosmogsm is not installed"};
}

#endif
