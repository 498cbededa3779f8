/*
 * A point that sends: it asks, announces itself, sends a root request and then loses a
 * neighbour. The program prints each frame as a receiver and the octets of an element.
 * Build: cc -std=c11 -Iinclude examples/frames.c crates/hwmp/out/libhwmp.a -o frames
 */
#include <inttypes.h>
#include <stdbool.h>
#include <stdio.h>
#include <stdlib.h>
#include <string.h>

#include "hwmp.h"

/*
 * The point that sends, two neighbours, a point that the first neighbour leads to, and a point
 * that nobody has heard of.
 */
enum { SELF, NEIGHBOUR, OTHER, FAR, UNHEARD, POINTS };

enum { ROWS = 4, LINK_METRIC = 10 };

/* The items of an ask, by their places. */
enum { FIRST_ITEM, SECOND_ITEM, ITEMS };

enum { LIFETIME_MS = 5000, NO_LIFETIME_MS = 0 };

/* The clock at which the point learns its rows, and the clocks of its breaks. */
enum { LEARN_MS = 500, BREAK_MS = 1000, SECOND_BREAK_MS = 1001 };

static const uint8_t addresses[POINTS][HWMP_ADDRESS_OCTETS] = {
    {2, 0, 0, 0, 0, 1}, {2, 0, 0, 0, 0, 2}, {2, 0, 0, 0, 0, 3}, {2, 0, 0, 0, 0, 9},
    {2, 0, 0, 0, 0, 10}};

/*
 * Own numbers in the fresh tables. The first element of a point has the number after it. The
 * numbers differ so that they can be told apart in the frames. Firmware begins at 0.
 */
enum { SELF_NUMBER = 100, OTHERS_NUMBER = 6 };
static const uint32_t first_numbers[POINTS] = {SELF_NUMBER, OTHERS_NUMBER, OTHERS_NUMBER,
                                               OTHERS_NUMBER, OTHERS_NUMBER};

static uint8_t tables[POINTS][HWMP_TABLE_OCTETS(ROWS)];
static uint8_t output[HWMP_OUTPUT_OCTETS];

/* ---- how the point learns its rows */

static bool announced(size_t point)
{
    return hwmp_announce(tables[point], sizeof tables[point], output, sizeof output,
                         HWMP_NO_FLAGS, LIFETIME_MS)
               .answer == HWMP_ACCEPTED;
}

/* Hands the element of the one frame in the output to another point. */
static bool delivered(size_t from, size_t to)
{
    uint8_t element[HWMP_MAX_ELEMENT_OCTETS];
    size_t element_len = HWMP_FRAME_OCTETS(output) - HWMP_FRAME_ELEMENT_AT;

    memcpy(element, output + HWMP_FRAME_ELEMENT_AT, element_len);
    return hwmp_receive(tables[to], sizeof tables[to], output, sizeof output, LEARN_MS,
                        addresses[from], LINK_METRIC, element, element_len)
               .answer == HWMP_ACCEPTED;
}

/* Lets all other points but UNHEARD announce themselves. NEIGHBOUR forwards FAR's announcement. */
static bool rows_learnt(void)
{
    for (size_t i = 0; i < POINTS; i++)
        if (hwmp_fresh(tables[i], sizeof tables[i], addresses[i], first_numbers[i]) !=
            HWMP_ACCEPTED)
            return false;
    return announced(FAR) && delivered(FAR, NEIGHBOUR) && delivered(NEIGHBOUR, SELF) &&
           announced(NEIGHBOUR) && delivered(NEIGHBOUR, SELF) && announced(OTHER) &&
           delivered(OTHER, SELF);
}

/* ---- what the point sends */

static void print_octets(const uint8_t *octets, size_t count)
{
    for (size_t i = 0; i < count; i++)
        printf(" %02x", octets[i]);
}

static void print_outcome(const char *what, struct hwmp_outcome outcome)
{
    const uint8_t *frame = output;

    printf("%s: %" PRIu32 ", %" PRIu32 " frames, %" PRIu32 " octets\n", what, outcome.answer,
           outcome.frames, outcome.octets);
    for (uint32_t i = 0; i < outcome.frames; i++) {
        printf("  to");
        print_octets(frame + HWMP_FRAME_RECEIVER_AT, HWMP_ADDRESS_OCTETS);
        printf(":");
        print_octets(frame + HWMP_FRAME_ELEMENT_AT,
                     HWMP_FRAME_OCTETS(frame) - HWMP_FRAME_ELEMENT_AT);
        printf("\n");
        frame += HWMP_FRAME_OCTETS(frame);
    }
}

static void put_item(uint8_t *items, size_t place, uint8_t flags, size_t point)
{
    uint8_t *item = items + HWMP_ITEM_OCTETS * place;

    item[HWMP_ITEM_FLAGS_AT] = flags;
    memcpy(item + HWMP_ITEM_ADDRESS_AT, addresses[point], HWMP_ADDRESS_OCTETS);
}

static void try_ask(const char *what, uint32_t lifetime, const uint8_t *items, size_t items_len)
{
    print_outcome(what, hwmp_ask(tables[SELF], sizeof tables[SELF], output, sizeof output,
                                 lifetime, items, items_len));
}

static void try_root_request(const char *what, size_t output_len, uint8_t flags)
{
    print_outcome(what, hwmp_root_request(tables[SELF], sizeof tables[SELF], output, output_len,
                                          flags, LIFETIME_MS));
}

static void try_break(const char *what, uint64_t clock, size_t point)
{
    print_outcome(what, hwmp_break(tables[SELF], sizeof tables[SELF], output, sizeof output,
                                   clock, addresses[point]));
}

static void ask(void)
{
    uint8_t items[ITEMS * HWMP_ITEM_OCTETS];

    put_item(items, FIRST_ITEM, HWMP_NO_FLAGS, FAR);
    put_item(items, SECOND_ITEM, HWMP_ITEM_DO | HWMP_ITEM_RF, OTHER);
    try_ask("ask for two", LIFETIME_MS, items, sizeof items);
    /* Sends flags HWMP_ITEM_DO | HWMP_NUMBER_UNKNOWN and number 0. */
    put_item(items, FIRST_ITEM, HWMP_ITEM_DO, UNHEARD);
    try_ask("ask for one never heard of", LIFETIME_MS, items, HWMP_ITEM_OCTETS);
    put_item(items, FIRST_ITEM, HWMP_NO_FLAGS, FAR);
    /* HWMP_BAD_COUNT, then HWMP_NO_LIFETIME */
    try_ask("ask, an item cut short", LIFETIME_MS, items, sizeof items - 1);
    try_ask("ask, lifetime 0", NO_LIFETIME_MS, items, sizeof items);
    /* HWMP_BAD_LIST */
    put_item(items, SECOND_ITEM, HWMP_NO_FLAGS, FAR);
    try_ask("ask, an address twice", LIFETIME_MS, items, sizeof items);
    /* HWMP_ABOUT_ITSELF */
    put_item(items, SECOND_ITEM, HWMP_NO_FLAGS, SELF);
    try_ask("ask, the own address", LIFETIME_MS, items, sizeof items);
}

static void break_off(void)
{
    /* HWMP_FROM_ITSELF */
    try_break("break, the own address", BREAK_MS, SELF);
    try_break("break", BREAK_MS, NEIGHBOUR);
    /* Accepted without a frame: no active row leads through the neighbour any more. */
    try_break("break once more", SECOND_BREAK_MS, NEIGHBOUR);
    /* HWMP_OLD_CLOCK */
    try_break("break, the clock gone back", BREAK_MS, NEIGHBOUR);
}

int main(void)
{
    if (!rows_learnt())
        return EXIT_FAILURE;
    ask();
    print_outcome("announce", hwmp_announce(tables[SELF], sizeof tables[SELF], output,
                                            sizeof output, HWMP_PORTAL, LIFETIME_MS));
    try_root_request("root request", sizeof output, HWMP_REPLY_WANTED);
    /* HWMP_SHORT_OUTPUT */
    try_root_request("root request, output too short", sizeof output - 1, HWMP_NO_FLAGS);
    break_off();
    return 0;
}
