/*
 * Three points in a line. The first asks for the last. The request and its reply give rows to
 * all three. The program keeps each frame with its sender and delivers it by hand.
 * Build: cc -std=c11 -Iinclude examples/receive.c crates/hwmp/out/libhwmp.a -o receive
 */
#include <inttypes.h>
#include <stdio.h>
#include <stdlib.h>
#include <string.h>

#include "hwmp.h"

enum { FIRST, MIDDLE, LAST, POINTS };

enum { ROWS = 16, FRAMES = 8, FIRST_NUMBER = 0 };

/* Link metrics. */
enum { NO_LINK = 0, SHORT_LINK = 10, LONG_LINK = 20 };

/* Milliseconds: all elements arrive at the start, and the rows expire a lifetime later. */
enum { START_MS = 0, LIFETIME_MS = 1000 };

/* The frames that this program keeps, in the order in which they are sent. */
enum { REQUEST, FORWARDED_REQUEST, REPLY, FORWARDED_REPLY };

static uint8_t tables[POINTS][HWMP_TABLE_OCTETS(ROWS)];
static const uint8_t addresses[POINTS][HWMP_ADDRESS_OCTETS] = {
    {2, 0, 0, 0, 0, 1},
    {2, 0, 0, 0, 0, 2},
    {2, 0, 0, 0, 0, 3},
};

/* The metric of the link between two points. */
static const uint32_t links[POINTS][POINTS] = {
    {NO_LINK, SHORT_LINK, NO_LINK},
    {SHORT_LINK, NO_LINK, LONG_LINK},
    {NO_LINK, LONG_LINK, NO_LINK},
};

/* A frame without its receiver address. A real radio needs that address to send the frame. */
struct frame {
    size_t from;
    size_t element_len;
    uint8_t element[HWMP_MAX_ELEMENT_OCTETS];
};
static struct frame frames[FRAMES];
static size_t frame_count;

static uint8_t output[HWMP_OUTPUT_OCTETS];

/* Splits the output into frames and keeps them. */
static void keep_frames(size_t from, struct hwmp_outcome outcome)
{
    const uint8_t *next = output;

    for (uint32_t i = 0; i < outcome.frames && frame_count < FRAMES; i++) {
        struct frame *frame = &frames[frame_count++];

        frame->from = from;
        frame->element_len = HWMP_FRAME_OCTETS(next) - HWMP_FRAME_ELEMENT_AT;
        memcpy(frame->element, next + HWMP_FRAME_ELEMENT_AT, frame->element_len);
        next += HWMP_FRAME_OCTETS(next);
    }
}

static void print_outcome(struct hwmp_outcome outcome)
{
    printf("%" PRIu32 ", %" PRIu32 " frames\n", outcome.answer, outcome.frames);
}

static void ask(size_t from, size_t for_point)
{
    uint8_t item[HWMP_ITEM_OCTETS];
    struct hwmp_outcome outcome;

    item[HWMP_ITEM_FLAGS_AT] = HWMP_ITEM_DO;
    memcpy(item + HWMP_ITEM_ADDRESS_AT, addresses[for_point], HWMP_ADDRESS_OCTETS);
    outcome = hwmp_ask(tables[from], sizeof tables[from], output, sizeof output, LIFETIME_MS,
                       item, sizeof item);
    printf("point %zu asks for point %zu: ", from, for_point);
    print_outcome(outcome);
    keep_frames(from, outcome);
}

static void deliver(size_t number, size_t to)
{
    const struct frame *frame = &frames[number];
    size_t from = frame->from;
    struct hwmp_outcome outcome;

    outcome = hwmp_receive(tables[to], sizeof tables[to], output, sizeof output, START_MS,
                           addresses[from], links[from][to], frame->element, frame->element_len);
    printf("frame %zu from point %zu to point %zu: ", number, from, to);
    print_outcome(outcome);
    keep_frames(to, outcome);
}

static void print_next_hop(size_t from, size_t to, uint64_t clock)
{
    struct hwmp_hop hop = hwmp_next_hop(tables[from], sizeof tables[from], clock, addresses[to]);

    printf("point %zu to point %zu: %" PRIu32 ", next hop", from, to, hop.answer);
    for (size_t i = 0; i < sizeof hop.address; i++)
        printf(" %02x", hop.address[i]);
    printf("\n");
}

int main(void)
{
    for (size_t i = 0; i < POINTS; i++)
        if (hwmp_fresh(tables[i], sizeof tables[i], addresses[i], FIRST_NUMBER) != HWMP_ACCEPTED)
            return EXIT_FAILURE;

    ask(FIRST, LAST);
    print_next_hop(FIRST, LAST, START_MS); /* HWMP_NO_NEXT_HOP: no row yet */
    deliver(REQUEST, MIDDLE);              /* the middle point forwards the request */
    deliver(FORWARDED_REQUEST, LAST);      /* the last point replies */
    deliver(REPLY, MIDDLE);                /* the middle point forwards the reply */
    deliver(FORWARDED_REPLY, FIRST);       /* the first point has its row */

    print_next_hop(FIRST, LAST, START_MS);
    print_next_hop(MIDDLE, LAST, START_MS);
    print_next_hop(LAST, FIRST, START_MS);
    print_next_hop(FIRST, LAST, START_MS + LIFETIME_MS); /* HWMP_NO_NEXT_HOP: expired */

    deliver(FORWARDED_REPLY, FIRST); /* HWMP_STALE: the first point has heard it already */
    deliver(FORWARDED_REPLY, LAST);  /* HWMP_ABOUT_ITSELF: a path to the last point itself */
    return 0;
}
