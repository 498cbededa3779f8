/*
 * Walks over the tables of three points in a line. The first two learn of the last one from its
 * announcement. Then the link between the last two breaks.
 * Build: cc -std=c11 -Iinclude examples/walk.c crates/hwmp/out/libhwmp.a -o walk
 */
#include <inttypes.h>
#include <stdio.h>
#include <stdlib.h>
#include <string.h>

#include "hwmp.h"

enum { FIRST, MIDDLE, LAST, POINTS };

enum { ROWS = 4, FIRST_NUMBER = 0, LINK_METRIC = 10, NO_TABLES = 0 };

/* Milliseconds. The rows expire a lifetime after the start. */
enum { START_MS = 0, LIFETIME_MS = 1000, EXPIRED_MS = START_MS + LIFETIME_MS };

#define TABLE_OCTETS HWMP_TABLE_OCTETS(ROWS)

static const uint8_t points[POINTS][HWMP_ADDRESS_OCTETS] = {
    {2, 0, 0, 0, 0, 1}, {2, 0, 0, 0, 0, 2}, {2, 0, 0, 0, 0, 3}};
static const uint8_t stranger[HWMP_ADDRESS_OCTETS] = {2, 0, 0, 0, 0, 9};

/* The tables of all points side by side, as a walk takes them. */
static uint8_t tables[POINTS * TABLE_OCTETS];
static uint8_t output[HWMP_OUTPUT_OCTETS];

static uint8_t *table_of(size_t point)
{
    return tables + point * TABLE_OCTETS;
}

/* Hands the element of the one frame in the output to a point. */
static void deliver(size_t from, size_t to)
{
    uint8_t element[HWMP_MAX_ELEMENT_OCTETS];
    size_t element_len = HWMP_FRAME_OCTETS(output) - HWMP_FRAME_ELEMENT_AT;

    memcpy(element, output + HWMP_FRAME_ELEMENT_AT, element_len);
    printf("point %zu hears point %zu: %" PRIu32 "\n", to, from,
           hwmp_receive(table_of(to), TABLE_OCTETS, output, sizeof output, START_MS,
                        points[from], LINK_METRIC, element, element_len)
               .answer);
}

static void walk(const char *what, uint32_t count, uint64_t clock,
                 const uint8_t start[HWMP_ADDRESS_OCTETS],
                 const uint8_t destination[HWMP_ADDRESS_OCTETS])
{
    struct hwmp_walked walked =
        hwmp_walk(tables, count * TABLE_OCTETS, count, clock, start, destination);

    printf("%s: %" PRIu32 ", %" PRIu32 " hops\n", what, walked.answer, walked.hops);
}

int main(void)
{
    for (size_t i = 0; i < POINTS; i++)
        if (hwmp_fresh(table_of(i), TABLE_OCTETS, points[i], FIRST_NUMBER) != HWMP_ACCEPTED)
            return EXIT_FAILURE;
    /* HWMP_NO_ROUTE */
    walk("before any announcement", POINTS, START_MS, points[FIRST], points[LAST]);

    hwmp_announce(table_of(LAST), TABLE_OCTETS, output, sizeof output, HWMP_NO_FLAGS,
                  LIFETIME_MS);
    deliver(LAST, MIDDLE);
    deliver(MIDDLE, FIRST);
    walk("from the first to the last", POINTS, START_MS, points[FIRST], points[LAST]);
    walk("from the last to itself", POINTS, START_MS, points[LAST], points[LAST]);
    /* The last table is left out. The walk ends at its address all the same. */
    walk("to one that is no point here", POINTS - 1, START_MS, points[FIRST], points[LAST]);
    /* HWMP_NO_ROUTE */
    walk("to one that nobody knows", POINTS, START_MS, points[FIRST], stranger);
    walk("when the rows have expired", POINTS, EXPIRED_MS, points[FIRST], points[LAST]);

    /* HWMP_NO_ROUTE after one hop: the middle point has no active row any more. */
    hwmp_break(table_of(MIDDLE), TABLE_OCTETS, output, sizeof output, START_MS, points[LAST]);
    walk("after the break", POINTS, START_MS, points[FIRST], points[LAST]);

    /* HWMP_BAD_LIST and HWMP_TABLE_LENGTH */
    walk("from one that is no point", POINTS, START_MS, stranger, points[LAST]);
    walk("over no tables", NO_TABLES, START_MS, points[FIRST], points[LAST]);
    return 0;
}
