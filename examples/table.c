/*
 * A first program: makes a table of 4 rows, finds a next hop in it and forgets a destination.
 * Build: cc -std=c11 -Iinclude examples/table.c crates/hwmp/out/libhwmp.a -o table
 */
#include <inttypes.h>
#include <stdio.h>
#include <string.h>

#include "hwmp.h"

enum { ROWS = 4, OCTET_BITS = 8 };

/* Any number will do in this program. Firmware begins at 0. */
enum { FIRST_NUMBER = 100 };

/* Where the fields of a row stand: docs/FIRMWARE.md, 'The octets of a table'. */
enum {
    STATUS_AT = 0,
    NUMBER_KNOWN_AT = 1,
    HOP_COUNT_AT = 2,
    DESTINATION_AT = 4,
    NEXT_HOP_AT = 10,
    NUMBER_AT = 16,
    METRIC_AT = 20,
    EXPIRY_AT = 24
};

enum { STATUS_VALID = 1, NUMBER_IS_KNOWN = 1 };
enum { NUMBER_OCTETS = 4, METRIC_OCTETS = 4, EXPIRY_OCTETS = 8 };

/* The row that this program writes. */
enum { ROW_NUMBER = 7, ROW_METRIC = 30, ROW_HOP_COUNT = 2 };

/* Milliseconds: a clock at which the row is active, and the clock at which it expires. */
enum { CLOCK_MS = 1000, EXPIRY_MS = 6000 };

static const uint8_t own[HWMP_ADDRESS_OCTETS] = {2, 0, 0, 0, 0, 1};
static const uint8_t neighbour[HWMP_ADDRESS_OCTETS] = {2, 0, 0, 0, 0, 2};
static const uint8_t destination[HWMP_ADDRESS_OCTETS] = {2, 0, 0, 0, 0, 9};
/* The lowest bit of the first octet is set: a group address, not an individual one. */
static const uint8_t group[HWMP_ADDRESS_OCTETS] = {3, 0, 0, 0, 0, 1};

static uint8_t table[HWMP_TABLE_OCTETS(ROWS)];

static void print_address(const uint8_t address[HWMP_ADDRESS_OCTETS])
{
    for (size_t i = 0; i < HWMP_ADDRESS_OCTETS; i++)
        printf(i == 0 ? "%02x" : ":%02x", address[i]);
}

/* Writes a number as the table has it: lowest octet first, on every processor. */
static void put_number(uint8_t *at, size_t octets, uint64_t number)
{
    for (size_t i = 0; i < octets; i++)
        at[i] = (uint8_t)(number >> (OCTET_BITS * i));
}

/*
 * Writes a valid row of known number into the first place of the table, whose rows are free.
 * Firmware must not write rows: they come from received elements, as in receive.c.
 */
static void write_first_row(void)
{
    uint8_t *row = table + HWMP_HEAD_OCTETS;

    row[STATUS_AT] = STATUS_VALID;
    row[NUMBER_KNOWN_AT] = NUMBER_IS_KNOWN;
    row[HOP_COUNT_AT] = ROW_HOP_COUNT;
    memcpy(row + DESTINATION_AT, destination, HWMP_ADDRESS_OCTETS);
    memcpy(row + NEXT_HOP_AT, neighbour, HWMP_ADDRESS_OCTETS);
    put_number(row + NUMBER_AT, NUMBER_OCTETS, ROW_NUMBER);
    put_number(row + METRIC_AT, METRIC_OCTETS, ROW_METRIC);
    put_number(row + EXPIRY_AT, EXPIRY_OCTETS, EXPIRY_MS);

    printf("row written: ");
    print_address(destination);
    printf(" via ");
    print_address(neighbour);
    printf(" until clock %d\n", EXPIRY_MS);
}

static void try_fresh(const char *what, size_t table_len,
                      const uint8_t address[HWMP_ADDRESS_OCTETS])
{
    printf("fresh, %s: %" PRIu32 "\n", what,
           hwmp_fresh(table, table_len, address, FIRST_NUMBER));
}

static void try_next_hop(uint64_t clock)
{
    struct hwmp_hop hop = hwmp_next_hop(table, sizeof table, clock, destination);

    printf("next hop at clock %" PRIu64 ": %" PRIu32 ", ", clock, hop.answer);
    print_address(hop.address);
    printf("\n");
}

static void try_forget(const char *what, const uint8_t address[HWMP_ADDRESS_OCTETS])
{
    printf("forget %s: %" PRIu32 "\n", what, hwmp_forget(table, sizeof table, address));
}

int main(void)
{
    /* HWMP_TABLE_LENGTH twice, then HWMP_BAD_ADDRESS */
    try_fresh("no row at all", HWMP_HEAD_OCTETS, own);
    try_fresh("a row cut short", sizeof table - 1, own);
    try_fresh("a group address as own", sizeof table, group);
    /* HWMP_NOT_A_TABLE: the octets are all zero */
    try_next_hop(CLOCK_MS);
    try_fresh("4 rows", sizeof table, own);

    /* HWMP_NO_NEXT_HOP: no row is held yet */
    try_next_hop(CLOCK_MS);
    write_first_row();
    try_next_hop(CLOCK_MS);
    try_next_hop(EXPIRY_MS - 1);
    /* HWMP_NO_NEXT_HOP: the row has expired, but it is still held */
    try_next_hop(EXPIRY_MS);

    /* HWMP_BAD_ADDRESS */
    try_forget("a group address", group);
    try_forget("the destination", destination);
    /* HWMP_NOT_HELD, then HWMP_NO_NEXT_HOP */
    try_forget("it once more", destination);
    try_next_hop(CLOCK_MS);
    return 0;
}
