/*
 * One HWMP mesh point: its forwarding table, in octets that the caller provides, and the frames
 * that the point sends. docs/FIRMWARE.md explains how firmware uses these calls.
 * docs/PROTOCOL.md states the rules in full.
 *
 * Buffers: a buffer is a pointer and a length in octets. The pointer must not be NULL and
 * must lead to memory of that length, at any alignment. An address is 6 octets. A buffer that
 * the call writes must not overlap any other buffer or address of the call. Buffers and
 * addresses that the call only reads may overlap each other. The library allocates nothing and
 * keeps nothing: it uses no pointer after the call returns. Calls may run at the same time if
 * they share neither a table nor an output, and none reads a buffer that another writes.
 *
 * Answers: every call returns an answer, a number of enum hwmp_answer. The answer is
 * HWMP_ACCEPTED, a refusal or, from a walk only, HWMP_NO_ROUTE or HWMP_TOO_LONG, which are not
 * refusals. If several refusals apply, the call returns the lowest number. A refused call
 * changes no octet, and everything it returns besides the answer is zero.
 *
 * Rows: a row of the table is free, or it is held and says how to reach one destination. A held
 * row is valid or invalidated: a break or a received RERR invalidates it. A valid row is active
 * while the clock is below the row's expiry, and expired from then on. An expired or
 * invalidated row stays held, because its sequence number still refuses old elements. The
 * number of a row is unknown if the point knows the destination only as the transmitter of
 * elements about other points.
 *
 * Frames: a call that may send writes its frames into the output, from the start and without
 * gaps. A frame is a receiver address (6 octets) and an element. The receiver all ones stands
 * for every neighbour. The output after the last frame is unchanged.
 */
#ifndef HWMP_H
#define HWMP_H

#include <stddef.h>
#include <stdint.h>

#ifdef __cplusplus
extern "C" {
#endif

#define HWMP_VERSION "0.2.0"

/* ---- answers */

/* Each call below lists its refusals by these names. */
enum hwmp_answer {
    /* The call is accepted and has done everything that its comment says. */
    HWMP_ACCEPTED = 0,
    /*
     * The table's length is not HWMP_TABLE_OCTETS(R) with R from 1 to HWMP_MAX_ROWS. For a
     * walk: `count` is not 1 to HWMP_MAX_POINTS, or the buffer is not `count` tables of one
     * length HWMP_TABLE_OCTETS(R).
     */
    HWMP_TABLE_LENGTH = 1,
    /* The output is shorter than HWMP_OUTPUT_OCTETS. */
    HWMP_SHORT_OUTPUT = 2,
    /* The clock is above HWMP_MAX_CLOCK. */
    HWMP_CLOCK_TOO_LARGE = 3,
    /* The transmitter or the broken neighbour is not an individual address. */
    HWMP_BAD_NEIGHBOUR = 4,
    /* The link metric is 0. */
    HWMP_NO_LINK = 5,
    /*
     * The element has fewer than 2 octets, or its Length (the second octet) differs from the
     * number of octets after it.
     */
    HWMP_ELEMENT_LENGTH = 6,
    /* The element's ID (the first octet) is not in enum hwmp_element_id. */
    HWMP_UNKNOWN_ID = 7,
    /*
     * The element's Length does not fit its type and its number of entries, or that number is
     * out of range: 1 to 20 for a RREQ, 0 to 22 for a RREP, 1 to 25 for a RERR. For an ask: the
     * items are not 1 to HWMP_MAX_ITEMS of HWMP_ITEM_OCTETS each.
     */
    HWMP_BAD_COUNT = 8,
    /*
     * An own address, originator, source or destination is not individual. An individual
     * address has the lowest bit of its first octet clear and is not all zero. A received RREQ
     * may also name all ones as a destination.
     */
    HWMP_BAD_ADDRESS = 9,
    /*
     * Received: a destination stands twice; all ones stands with other destinations; a RREQ
     * names its originator as a destination; a unicast RREQ has several destinations or all
     * ones; a destination has HWMP_NUMBER_UNKNOWN beside a number other than 0; the destination
     * of a RREP equals its source. Ask: an address stands twice, or an item's flags are above 3.
     * Announcement or root request: the flags are not allowed. Walk: the start is not among the
     * points, or two points have the same address.
     */
    HWMP_BAD_LIST = 10,
    /* The lifetime is 0. */
    HWMP_NO_LIFETIME = 11,
    /* The received hop count is 255. */
    HWMP_TOO_MANY_HOPS = 12,
    /* The received metric plus the link metric is HWMP_UNREACHABLE or more. */
    HWMP_METRIC_TOO_LARGE = 13,
    /* A received RREP has TTL 0 or 1. */
    HWMP_LOW_TTL = 14,
    /* The octets are not a legal table. */
    HWMP_NOT_A_TABLE = 21,
    /* The clock is below the latest clock in the table (for a walk: in any of the tables). */
    HWMP_OLD_CLOCK = 22,
    /* The transmitter or the broken neighbour is the point's own address. */
    HWMP_FROM_ITSELF = 23,
    /*
     * The originator of a RANN or RREQ, or the destination of a RREP, is the point's own
     * address. Ask: an item names the own address.
     */
    HWMP_ABOUT_ITSELF = 24,
    /*
     * The received number is older than the known number of the row for the originator (RREP:
     * for the destination), or equal to it while the received metric plus the link metric is
     * not smaller than the row's metric. The row need not be active.
     */
    HWMP_STALE = 25,
    /* A RERR names no active row of known number whose next hop is the transmitter. */
    HWMP_NO_MATCH = 26,
    /* The element needs more new rows than are free. */
    HWMP_NO_ROOM = 27,
    /* There is no active row for the destination. */
    HWMP_NO_NEXT_HOP = 28,
    /* There is no held row for the destination. */
    HWMP_NOT_HELD = 29,
    /*
     * Not a refusal: the walk stopped, because a point has no active row for the destination
     * or its next hop is neither a point nor the destination.
     */
    HWMP_NO_ROUTE = 41,
    /* Not a refusal: the walk took as many hops as there are points and did not arrive. */
    HWMP_TOO_LONG = 42
};

/* ---- addresses, clocks, metrics */

#define HWMP_ADDRESS_OCTETS 6

/* All ones as an initialiser: const uint8_t everyone[HWMP_ADDRESS_OCTETS] = HWMP_ALL_ONES; */
#define HWMP_ALL_ONES {0xff, 0xff, 0xff, 0xff, 0xff, 0xff}

/* The largest clock, 2^48 - 1. Clocks and lifetimes count milliseconds. */
#define HWMP_MAX_CLOCK UINT64_C(281474976710655)

/*
 * The metric that a row of known number gets from a break, or from a RERR with a newer number.
 * A metric learnt from a RANN, RREQ or RREP is always smaller.
 */
#define HWMP_UNREACHABLE UINT32_C(4294967295)

/* ---- tables */

/* A table is a head and 1 to HWMP_MAX_ROWS rows. */
#define HWMP_HEAD_OCTETS 32
#define HWMP_ROW_OCTETS 32
#define HWMP_MAX_ROWS 128
#define HWMP_TABLE_OCTETS(rows) (HWMP_HEAD_OCTETS + HWMP_ROW_OCTETS * (size_t)(rows))

/*
 * Where a table has the point's own address, its own sequence number (4 octets) and the latest
 * clock (8 octets), both numbers with the lowest octet first. Firmware may read all three but
 * must not write them.
 */
#define HWMP_OWN_ADDRESS_AT 0
#define HWMP_OWN_NUMBER_AT 8
#define HWMP_LATEST_CLOCK_AT 16

/* The largest number of tables in a walk. */
#define HWMP_MAX_POINTS 16

/* ---- elements and frames */

/* Where an element has its ID and its Length. The Length counts the octets after itself. */
#define HWMP_ELEMENT_ID_AT 0
#define HWMP_ELEMENT_LENGTH_AT 1

/* The types of elements, by their IDs. */
enum hwmp_element_id {
    HWMP_RANN = 126,
    HWMP_RREQ = 130,
    HWMP_RREP = 131,
    HWMP_RERR = 132
};

/*
 * The longest element that the library accepts or sends: a RREP with 22 dependents or a RERR
 * with 25 destinations. hwmp_receive refuses every longer element (HWMP_ELEMENT_LENGTH,
 * HWMP_UNKNOWN_ID or HWMP_BAD_COUNT), so a driver may drop it unread.
 */
#define HWMP_MAX_ELEMENT_OCTETS 254

/*
 * The TTL of each RANN, RREQ and RREP that a point makes. Every point that forwards the element
 * lowers the TTL by one. A RANN or RREQ reaches points up to 31 hops away, where it arrives with
 * TTL 1 and is not forwarded. A RREP reaches points up to 30 hops away, because a RREP that
 * arrives with TTL 1 is refused (HWMP_LOW_TTL). The reply of a destination that is asked for
 * therefore arrives over at most 30 hops. A RERR has no TTL.
 */
#define HWMP_FIRST_TTL 31

/* The smallest output. It has room for all frames of any call. */
#define HWMP_OUTPUT_OCTETS 1560

/* Where a frame has its receiver address, its element, and the Length of its element. */
#define HWMP_FRAME_RECEIVER_AT 0
#define HWMP_FRAME_ELEMENT_AT 6
#define HWMP_FRAME_LENGTH_AT 7

/*
 * The octets of the frame that begins at the pointer `frame` to uint8_t: the receiver, the ID,
 * the Length and as many octets as the Length says. The next frame begins right after them.
 */
#define HWMP_FRAME_OCTETS(frame) \
    (HWMP_FRAME_LENGTH_AT + 1 + (size_t)(frame)[HWMP_FRAME_LENGTH_AT])

/* ---- operands of asks, announcements and root requests */

/* No flag of an item, an announcement or a root request. */
#define HWMP_NO_FLAGS 0

/* An item of an ask: flags (1 octet) and the address of a destination (6 octets). */
#define HWMP_ITEM_OCTETS 7
#define HWMP_ITEM_FLAGS_AT 0
#define HWMP_ITEM_ADDRESS_AT 1
#define HWMP_MAX_ITEMS 20

/* Flag of an item: only the destination itself may reply. */
#define HWMP_ITEM_DO 1
/* Flag of an item: a point that replies from its row also forwards the request. */
#define HWMP_ITEM_RF 2

/*
 * Flag of a RREQ's destination: the originator of the RREQ knows no number for the destination.
 * The number beside it is 0 and plays no part. hwmp_ask and hwmp_root_request set the flag; an
 * item may not have it. The other flags of a destination are those of an item.
 */
#define HWMP_NUMBER_UNKNOWN 4

/*
 * Flag of an announcement and of a root request: the point is a portal, a way out of the mesh.
 * The library passes the flag on and decides nothing by it.
 */
#define HWMP_PORTAL 1
/* Flag of a root request: every point that accepts it replies. */
#define HWMP_REPLY_WANTED 4

/* ---- results */

/* The result of hwmp_next_hop: the address is the next hop if accepted, otherwise all zero. */
struct hwmp_hop {
    uint32_t answer;
    uint8_t address[HWMP_ADDRESS_OCTETS];
};

/* The result of hwmp_walk: how the walk ended, and its hops, at most as many as points. */
struct hwmp_walked {
    uint32_t answer;
    uint32_t hops;
};

/* The result of a call that may send: how many frames it wrote, and their octets together. */
struct hwmp_outcome {
    uint32_t answer;
    uint32_t frames;
    uint32_t octets;
};

/* ---- calls */

/*
 * Writes a fresh table: this own address, this own sequence number, and all rows free. The
 * octets need not be a table before the call, which overwrites all of them. A point needs a
 * fresh table once: docs/FIRMWARE.md, 'Restart', says what a second one costs. Begin with
 * number 0, for the reasons in docs/FIRMWARE.md, 'Sequence numbers over weeks'. The point steps
 * its number before it numbers an element, so its first element has the number after this one.
 * Refusals: HWMP_TABLE_LENGTH, HWMP_BAD_ADDRESS.
 */
uint32_t hwmp_fresh(uint8_t *table, size_t table_len, const uint8_t own[HWMP_ADDRESS_OCTETS],
                    uint32_t number);

/*
 * Returns the next hop towards a destination. Its row must be active: valid, and the clock is
 * below the row's expiry. The call changes nothing and does not store the clock. For the
 * point's own address it answers HWMP_NO_NEXT_HOP.
 * Refusals: HWMP_TABLE_LENGTH, HWMP_CLOCK_TOO_LARGE, HWMP_BAD_ADDRESS, HWMP_NOT_A_TABLE,
 * HWMP_OLD_CLOCK, HWMP_NO_NEXT_HOP.
 */
struct hwmp_hop hwmp_next_hop(const uint8_t *table, size_t table_len, uint64_t clock,
                              const uint8_t destination[HWMP_ADDRESS_OCTETS]);

/*
 * Frees the row of a destination, whether the row is active, expired or invalidated. The number
 * that refuses old elements is lost with the row, and loops become possible: docs/FIRMWARE.md,
 * 'Forget', says when firmware may make the call. For the point's own address it answers
 * HWMP_NOT_HELD.
 * Refusals: HWMP_TABLE_LENGTH, HWMP_BAD_ADDRESS, HWMP_NOT_A_TABLE, HWMP_NOT_HELD.
 */
uint32_t hwmp_forget(uint8_t *table, size_t table_len,
                     const uint8_t destination[HWMP_ADDRESS_OCTETS]);

/*
 * Walks from a start to a destination, along rows that are active at the clock. The buffer has
 * the tables of `count` points side by side, all of one length. The call is for tests and
 * tools. It changes nothing and does not store the clock.
 * Answers:
 *   HWMP_ACCEPTED  the walk met the destination, which need not be one of the points
 *   HWMP_NO_ROUTE  a point has no active row for the destination, or its next hop is neither a
 *                  point nor the destination (that hop is not counted)
 *   HWMP_TOO_LONG  the walk took as many hops as there are points and did not arrive
 * All three bring the hops walked. A walk that starts at the destination has 0 hops.
 * Refusals: HWMP_TABLE_LENGTH, HWMP_CLOCK_TOO_LARGE, HWMP_BAD_ADDRESS (the destination),
 * HWMP_BAD_LIST, HWMP_NOT_A_TABLE, HWMP_OLD_CLOCK. For HWMP_BAD_LIST a point's address is the
 * first 6 octets of its table, even where the octets are not a legal table.
 */
struct hwmp_walked hwmp_walk(const uint8_t *tables, size_t tables_len, uint32_t count,
                             uint64_t clock, const uint8_t start[HWMP_ADDRESS_OCTETS],
                             const uint8_t destination[HWMP_ADDRESS_OCTETS]);

/*
 * Asks for 1 to HWMP_MAX_ITEMS destinations: sends one RREQ to all ones, with the point's next
 * sequence number and next request ID, and stores both in the table. Each destination goes with
 * the number of its row if that is known, otherwise with 0 and HWMP_NUMBER_UNKNOWN. No row
 * changes. The lifetime, in milliseconds, is that of the rows that the RREQ and the replies to it
 * bring.
 * Refusals: HWMP_TABLE_LENGTH, HWMP_SHORT_OUTPUT, HWMP_BAD_COUNT, HWMP_BAD_ADDRESS,
 * HWMP_BAD_LIST, HWMP_NO_LIFETIME, HWMP_NOT_A_TABLE, HWMP_ABOUT_ITSELF.
 */
struct hwmp_outcome hwmp_ask(uint8_t *table, size_t table_len, uint8_t *output,
                             size_t output_len, uint32_t lifetime, const uint8_t *items,
                             size_t items_len);

/*
 * Announces the point: sends one RANN to all ones, with the point's next sequence number, and
 * stores that number in the table. The flags are HWMP_NO_FLAGS or HWMP_PORTAL. The lifetime, in
 * milliseconds, is that of the rows that the RANN brings.
 * Refusals: HWMP_TABLE_LENGTH, HWMP_SHORT_OUTPUT, HWMP_BAD_LIST (the flags),
 * HWMP_NO_LIFETIME, HWMP_NOT_A_TABLE.
 */
struct hwmp_outcome hwmp_announce(uint8_t *table, size_t table_len, uint8_t *output,
                                  size_t output_len, uint8_t flags, uint32_t lifetime);

/*
 * Sends a root request: one RREQ to all ones that asks for every point, with the point's next
 * sequence number and next request ID, and stores both in the table. The flags are
 * HWMP_NO_FLAGS, HWMP_PORTAL, HWMP_REPLY_WANTED, or HWMP_PORTAL | HWMP_REPLY_WANTED. The
 * lifetime, in milliseconds, is that of the rows that the RREQ and the replies to it bring.
 * Refusals: HWMP_TABLE_LENGTH, HWMP_SHORT_OUTPUT, HWMP_BAD_LIST (the flags),
 * HWMP_NO_LIFETIME, HWMP_NOT_A_TABLE.
 */
struct hwmp_outcome hwmp_root_request(uint8_t *table, size_t table_len, uint8_t *output,
                                      size_t output_len, uint8_t flags, uint32_t lifetime);

/*
 * Reports that a neighbour can no longer be reached. The call invalidates every active row
 * whose next hop is the neighbour. An invalidated row stays held. If the number of an
 * invalidated row is known, the number steps up by one and the row's metric becomes
 * HWMP_UNREACHABLE, so that the point refuses older news of the row's destination from now on.
 * The point sends the destinations of the rows that the call invalidates to all ones, in table
 * order and 25 to a RERR. Each destination goes with its stepped number, or with 0 if its
 * number is unknown. If the call invalidates no row, there is no frame. An accepted call stores
 * the clock in any case.
 * Refusals: HWMP_TABLE_LENGTH, HWMP_SHORT_OUTPUT, HWMP_CLOCK_TOO_LARGE, HWMP_BAD_NEIGHBOUR,
 * HWMP_NOT_A_TABLE, HWMP_OLD_CLOCK, HWMP_FROM_ITSELF.
 */
struct hwmp_outcome hwmp_break(uint8_t *table, size_t table_len, uint8_t *output,
                               size_t output_len, uint64_t clock,
                               const uint8_t neighbour[HWMP_ADDRESS_OCTETS]);

/*
 * Receives an element that a neighbour, the transmitter, sent over a link of this metric. The
 * caller must hand over the element without the receiver address of its frame.
 *
 * Learning. A RANN, RREQ or RREP tells of a path through the transmitter. The path leads to the
 * subject of the element: the originator of a RANN or RREQ, the destination of a RREP. The point
 * makes the subject's row, or renews it. If the transmitter is not the subject, the point may
 * also make or renew the transmitter's row. It makes the row if none is held. It renews an
 * active row if the link metric is below the row's metric. It renews a row that is not active
 * if the row's number is unknown or the link metric is at most the row's metric. A row that is
 * made or renewed gets the clock plus the element's lifetime as its expiry, but a row that was
 * active keeps a later expiry.
 *
 * Replies. The point replies to a RREQ with RREPs to the transmitter. It replies for itself if
 * it is a destination, or if all ones is the destination and a reply is wanted. It replies for
 * another destination without DO if it has an active row of known number, and the number is not
 * older than the requested number or the destination has HWMP_NUMBER_UNKNOWN. For each reply for
 * itself the point takes its next sequence number and stores it in the table. If the RREQ names
 * the point with a newer number and without HWMP_NUMBER_UNKNOWN, the point takes the number after
 * the named number.
 *
 * Forwarding. A forwarded RREQ keeps all ones, each destination that the point did not reply
 * for, and each destination that it replied for from a row and that has RF (DO is then set, and
 * the other flags stay). If no destination is left, the point does not forward the RREQ. The
 * RREQ goes to all ones, or if unicast to the next hop of its destination. A RANN goes to all
 * ones. A RREQ and a RANN need TTL 2 or more to be forwarded. A RREP goes to the next hop of
 * its source, unless the source is this point. Where a next hop is needed and no row is active,
 * nothing is sent. In a forwarded RANN, RREQ or RREP the hop count is one higher, the TTL one
 * lower, and the link metric added to the metric.
 *
 * Errors. A RERR invalidates each active row of known number that it names and whose next hop
 * is the transmitter. If the received number is newer than the row's number, the row takes the
 * received number and the metric HWMP_UNREACHABLE. The point sends the RERR to all ones with the
 * destinations of the rows that it invalidated, and with the numbers and flags as received.
 *
 * An accepted call stores the clock.
 * Refusals: all from HWMP_TABLE_LENGTH (1) to HWMP_NO_ROOM (27). Only a RREP gets HWMP_LOW_TTL
 * and only a RERR gets HWMP_NO_MATCH. A RANN never gets HWMP_BAD_LIST. A RERR never gets
 * HWMP_NO_LIFETIME, HWMP_TOO_MANY_HOPS, HWMP_METRIC_TOO_LARGE, HWMP_ABOUT_ITSELF, HWMP_STALE or
 * HWMP_NO_ROOM.
 */
struct hwmp_outcome hwmp_receive(uint8_t *table, size_t table_len, uint8_t *output,
                                 size_t output_len, uint64_t clock,
                                 const uint8_t transmitter[HWMP_ADDRESS_OCTETS],
                                 uint32_t link_metric, const uint8_t *element,
                                 size_t element_len);

#ifdef __cplusplus
}
#endif

#endif
