/*
 * A call of the library as a value, and its result on lent octets.
 */
#ifndef CALL_H
#define CALL_H

#include <stddef.h>
#include <stdint.h>

#include "hwmp.h"
#include "lent.h"

/* One row more than a table may have, so that this length is tried too. */
enum { MOST_TABLE_OCTETS = HWMP_TABLE_OCTETS(HWMP_MAX_ROWS + 1) };
enum { MOST_TABLES_OCTETS = HWMP_MAX_POINTS * MOST_TABLE_OCTETS };
enum { MOST_OUTPUT_OCTETS = 2048 };
/* An element has up to 255 octets after ID and Length. Longer ones are tried too. */
enum { MOST_ELEMENT_OCTETS = 300 };

/* Element IDs of docs/PROTOCOL.md, 'Elements'. Each element begins with ID and Length. */
enum { RANN = 126, RREQ = 130, RREP = 131, RERR = 132 };
enum { ELEMENT_HEAD_OCTETS = 2 };

enum entry { FRESH, NEXT_HOP, FORGET, WALK, ASK, ANNOUNCE, ROOT_REQUEST, BREAK, RECEIVE, ENTRIES };

struct call {
    enum entry entry;
    const uint8_t *table; /* for a walk, all tables */
    size_t table_len;
    size_t output_len;
    uint64_t clock;
    uint32_t number; /* own number, lifetime, link metric, or count for a walk */
    uint8_t flags;
    uint8_t address[6];     /* own, neighbour, transmitter or destination; for a walk, the start */
    uint8_t destination[6]; /* for a walk */
    const uint8_t *octets;  /* element or items */
    size_t octets_len;
};

/* Everything that a call returns. Fields that the call does not have are zero. */
struct result {
    uint32_t answer;
    uint32_t frames;
    uint32_t octets;
    uint32_t hops;
    uint8_t next_hop[6];
};

/* The result of a call. Table and output are valid until the next call. */
struct made {
    struct result result;
    const uint8_t *table;
    const uint8_t *output;
};

const char *entry_name(enum entry entry);

/* Reports whether the call may write the table that it is lent. */
int writes_table(enum entry entry);

/* Reports whether the call may write frames. */
int may_send(enum entry entry);

/* Makes the call with every buffer at this side of its pages and the output filled with `fill`. */
struct made make_call(const struct call *call, enum side side, uint8_t fill);

#endif
