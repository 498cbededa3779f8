/*
 * Why a point must keep its rows. Three points in a line know the way to the last. The middle
 * point asks for the last point once more, and the first point replies. A middle point that has
 * kept its rows refuses the reply (HWMP_STALE). A middle point that has forgotten the last
 * point, or has made a second fresh table, accepts the reply, and a loop appears.
 * Build: cc -std=c11 -Iinclude examples/forget.c crates/hwmp/out/libhwmp.a -o forget
 */
#include <inttypes.h>
#include <stdio.h>
#include <string.h>

#include "hwmp.h"

enum { FIRST, MIDDLE, LAST, POINTS };

enum { ROWS = 4, LINK_METRIC = 10, START_MS = 0, LIFETIME_MS = 1000 };

/* Own numbers: at first, and after the second fresh table. */
enum { FIRST_NUMBER = 0, FAR_AHEAD = 1000000 };

#define TABLE_OCTETS HWMP_TABLE_OCTETS(ROWS)

static const uint8_t points[POINTS][HWMP_ADDRESS_OCTETS] = {
    {2, 0, 0, 0, 0, 1}, {2, 0, 0, 0, 0, 2}, {2, 0, 0, 0, 0, 3}};

/* The tables of all points side by side, as a walk takes them. */
static uint8_t tables[POINTS * TABLE_OCTETS];
static uint8_t output[HWMP_OUTPUT_OCTETS];

static uint8_t *table_of(size_t point)
{
    return tables + point * TABLE_OCTETS;
}

/* Hands the element of the one frame in the output to a point. */
static uint32_t deliver(size_t from, size_t to)
{
    uint8_t element[HWMP_MAX_ELEMENT_OCTETS];
    size_t element_len = HWMP_FRAME_OCTETS(output) - HWMP_FRAME_ELEMENT_AT;

    memcpy(element, output + HWMP_FRAME_ELEMENT_AT, element_len);
    return hwmp_receive(table_of(to), TABLE_OCTETS, output, sizeof output, START_MS,
                        points[from], LINK_METRIC, element, element_len)
        .answer;
}

/*
 * Makes fresh tables. Then the last point announces itself, and the middle point forwards the
 * announcement to the first.
 */
static void learn_the_way(void)
{
    for (size_t i = 0; i < POINTS; i++)
        hwmp_fresh(table_of(i), TABLE_OCTETS, points[i], FIRST_NUMBER);
    hwmp_announce(table_of(LAST), TABLE_OCTETS, output, sizeof output, HWMP_NO_FLAGS,
                  LIFETIME_MS);
    deliver(LAST, MIDDLE);
    deliver(MIDDLE, FIRST);
}

/* Lets the middle point ask for the last and hear the reply of the first, then walks. */
static void ask_and_walk(const char *what)
{
    uint8_t item[HWMP_ITEM_OCTETS];
    struct hwmp_walked walked;

    item[HWMP_ITEM_FLAGS_AT] = HWMP_NO_FLAGS;
    memcpy(item + HWMP_ITEM_ADDRESS_AT, points[LAST], HWMP_ADDRESS_OCTETS);
    hwmp_ask(table_of(MIDDLE), TABLE_OCTETS, output, sizeof output, LIFETIME_MS, item,
             sizeof item);
    deliver(MIDDLE, FIRST);
    printf("%s: the reply gets %" PRIu32, what, deliver(FIRST, MIDDLE));
    walked = hwmp_walk(tables, sizeof tables, POINTS, START_MS, points[FIRST], points[LAST]);
    printf(", the walk %" PRIu32 " after %" PRIu32 " hops\n", walked.answer, walked.hops);
}

int main(void)
{
    learn_the_way();
    ask_and_walk("all rows kept"); /* HWMP_STALE, and the walk arrives */

    learn_the_way();
    hwmp_forget(table_of(MIDDLE), TABLE_OCTETS, points[LAST]);
    ask_and_walk("the last point forgotten"); /* HWMP_ACCEPTED, and HWMP_TOO_LONG: a loop */

    learn_the_way();
    hwmp_fresh(table_of(MIDDLE), TABLE_OCTETS, points[MIDDLE], FAR_AHEAD);
    ask_and_walk("a second fresh table"); /* HWMP_ACCEPTED, and HWMP_TOO_LONG: a loop */
    return 0;
}
