/*
 * One box of a mesh: a point's table and buffers, and the main loop over them. The loop is for
 * firmware with a radio, a millisecond clock and no operating system. Firmware can use
 * main_loop.c as it is. main_loop_mesh.c stands in for the hardware of three boxes.
 */
#ifndef MAIN_LOOP_H
#define MAIN_LOOP_H

#include <stdbool.h>
#include <stddef.h>
#include <stdint.h>

#include "hwmp.h"

enum {
    /* A row for every other box of a mesh of 16 boxes: HWMP_NO_ROOM then never comes. */
    BOX_ROWS = 15,
    BOX_SCAN_OCTETS = 32,
    /* The most elements, the most broken neighbours and the most scans in one turn. */
    BOX_PER_TURN = 16,
    /* The most destinations that the box asks for within one holdoff. */
    BOX_ASKED = 4,
    BOX_HOLDOFF_MS = 1500,
    /* Must be longer than two announcement periods, so that one announcement may be lost. */
    BOX_LIFETIME_MS = 10000,
    /* The period of what a box never sends. */
    BOX_NEVER = 0,
    /* Every answer that the loop can get is below this. */
    BOX_ANSWERS = HWMP_NOT_HELD + 1
};

/* How a turn went, from good to bad. Firmware must act on every state but BOX_WELL. */
enum box_state {
    BOX_WELL,
    BOX_TABLE_FULL,      /* there are more other boxes than the table has rows */
    BOX_CLOCK_WENT_BACK, /* the box receives and forwards nothing until the clock is right */
    /*
     * Memory or firmware is at fault. From box_turn: start the box again. From box_start: the
     * kept table is lost (docs/FIRMWARE.md, 'Restart', options 2 and 3), or the own address or
     * the clock is wrong.
     */
    BOX_DAMAGED
};

/* The hardware, which main_loop.c only hands on. */
struct board;

struct box_config {
    uint8_t own[HWMP_ADDRESS_OCTETS];
    /* The own sequence number of a box that starts for the first time. It should be 0. */
    uint32_t first_number;
    /*
     * Periods in milliseconds, or BOX_NEVER. A box with a period counts as a portal: its
     * announcements and root requests carry HWMP_PORTAL.
     */
    uint32_t announcement_period;
    uint32_t root_request_period;
};

/*
 * An element that the radio received, and the metric of its link at that moment: what it costs
 * to send to the transmitter. The metric is at least 1, and larger is worse.
 */
struct box_heard {
    uint8_t transmitter[HWMP_ADDRESS_OCTETS];
    uint32_t link_metric;
    size_t element_len;
    uint8_t element[HWMP_MAX_ELEMENT_OCTETS];
};

/*
 * A scan, which is what the mesh carries. Its TTL bounds its way: within the premise of demand
 * 3 the tables have no loop at any moment, but they may change while the scan is under way.
 */
struct box_scan {
    uint8_t destination[HWMP_ADDRESS_OCTETS];
    uint8_t ttl;
    uint8_t octets[BOX_SCAN_OCTETS];
};

/* A destination, and the clock until which the box does not ask for it again. */
struct box_asked {
    uint8_t destination[HWMP_ADDRESS_OCTETS];
    uint64_t until;
};

struct box {
    struct box_config config;
    struct board *board;
    uint8_t table[HWMP_TABLE_OCTETS(BOX_ROWS)];
    uint8_t output[HWMP_OUTPUT_OCTETS];
    struct box_heard heard;
    struct box_asked asked[BOX_ASKED];
    uint64_t announcement_due;
    uint64_t root_request_due;
    /* How often the box got each answer since it started. */
    uint32_t answers[BOX_ANSWERS];
    enum box_state state;
};

/*
 * Starts a box, or starts it again with the table that it kept. Makes a fresh table only if no
 * table was kept: docs/FIRMWARE.md, 'Restart', says what a second fresh table costs.
 */
enum box_state box_start(struct box *box, const struct box_config *config, struct board *board);

/* Makes one turn of the loop. Returns the worst state that it met. */
enum box_state box_turn(struct box *box);

/* Returns the latest clock in the table. A clock that lost its time can go on from there. */
uint64_t box_latest_clock(const struct box *box);

/* ---- What the firmware provides. None of these may call the library on the box's table. */

/*
 * Returns the clock. While the box runs, the clock must never go back. After a restart it must
 * not be below the latest clock in the table (box_latest_clock). The clocks of different boxes
 * need not agree.
 */
uint64_t clock_ms(struct board *board);

/*
 * Takes the oldest element received. Returns false if there is none. The firmware must drop a
 * frame whose receiver is neither the own address nor all ones, and an element that is longer
 * than HWMP_MAX_ELEMENT_OCTETS.
 */
bool radio_receive(struct board *board, struct box_heard *heard);

/* Sends an element to a neighbour, or to every neighbour if the receiver is all ones. */
void radio_send(struct board *board, const uint8_t receiver[HWMP_ADDRESS_OCTETS],
                const uint8_t *element, size_t element_len);

/*
 * Takes a neighbour that the radio has given up sending to. Returns false if there is none.
 * The firmware must report each failure once.
 */
bool radio_gave_up(struct board *board, uint8_t neighbour[HWMP_ADDRESS_OCTETS]);

/* Takes the oldest scan, received or made by this box. Returns false if there is none. */
bool scan_receive(struct board *board, struct box_scan *scan);
/* Sends a scan to a neighbour. */
void scan_send(struct board *board, const uint8_t next_hop[HWMP_ADDRESS_OCTETS],
               const struct box_scan *scan);
/* Takes a scan for this box. */
void scan_arrived(struct board *board, const struct box_scan *scan);

/*
 * Keeps the table over a restart, whole: if power fails meanwhile, the table kept before is
 * still there.
 */
void memory_keep(struct board *board, const uint8_t *table, size_t table_len);
/*
 * Brings back the last table kept. Returns false only if no table was ever kept, because
 * box_start then makes a fresh table. If a table was kept but cannot be read, fills the table
 * with zeros and returns true: box_start then reports BOX_DAMAGED. If the kept table is shorter,
 * fills the rest with zeros, which are free rows.
 */
bool memory_recall(struct board *board, uint8_t *table, size_t table_len);

#endif
