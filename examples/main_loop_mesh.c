/*
 * Stands in for the hardware below main_loop.c: three boxes in one process, a clock that
 * counts turns, and a radio between the boxes. Box 0 sends a scan to box 2 every second.
 * Meanwhile box 2 is put up late, an octet of box 1's table is damaged, boxes 1 and 2 lose
 * their link and get it back, and box 1 loses its power and its clock. The program prints what
 * the boxes send, which scans arrive, and which answers each box got from the library.
 */
#include <assert.h>
#include <inttypes.h>
#include <stdio.h>
#include <stdlib.h>
#include <string.h>

#include "main_loop.h"

enum { BOX_0, BOX_1, BOX_2, BOXES };

enum {
    TURN_MS = 10,
    SCAN_EVERY_MS = 1000,
    SCAN_TTL = 8,
    /* Where a scan of this program has its number. */
    SCAN_NUMBER_AT = 0,
    /* A frame or scan that meets a full queue is lost, as on a real radio. */
    QUEUE = 8,
    /* What a clock that lost its power begins with. */
    CLOCK_RESET = 0,
    /* The run is short. In the field these periods and BOX_LIFETIME_MS can be longer. */
    ANNOUNCE_EVERY_MS = 4000,
    ROOT_REQUEST_EVERY_MS = 10000
};

/* When things happen. */
enum {
    START_MS = 0,
    BOX_2_UP_MS = 1500,
    DAMAGE_MS = 2500,
    LINK_LOST_MS = 5500,
    LINK_BACK_MS = 9500,
    POWER_LOST_MS = 10500,
    END_MS = 12500
};

/* Link metrics: between boxes 0 and 1, between boxes 1 and 2, and between boxes 0 and 2. */
enum { NO_LINK = 0, FIRST_LINK = 10, GOOD_LINK = 20, BAD_LINK = 200 };

/* The bit that the damage flips in the status of box 1's first row. */
enum { DAMAGED_BIT = 0x80 };

static const uint8_t all_ones[HWMP_ADDRESS_OCTETS] = HWMP_ALL_ONES;

/* All boxes begin with own number 0. Box 2 is a portal and the root. */
static const struct box_config configs[BOXES] = {
    {.own = {2, 0, 0, 0, 0, 1}},
    {.own = {2, 0, 0, 0, 0, 2}},
    {.own = {2, 0, 0, 0, 0, 3},
     .announcement_period = ANNOUNCE_EVERY_MS,
     .root_request_period = ROOT_REQUEST_EVERY_MS},
};

struct board {
    struct box_heard heard[QUEUE];
    size_t heard_first, heard_count;
    struct box_scan scans[QUEUE];
    size_t scans_first, scans_count;
    bool gave_up[BOXES];
    /* The box got its power at powered_at. Its clock had the value clock_base then. */
    uint64_t clock_base, powered_at;
    bool is_kept;
    size_t kept_len;
    uint8_t kept[HWMP_TABLE_OCTETS(BOX_ROWS)];
};

static struct board boards[BOXES];
static struct box boxes[BOXES];
static uint64_t now_ms;

/* The metric of the link between two boxes at the moment. */
static uint32_t links[BOXES][BOXES];

static void set_link(size_t a, size_t b, uint32_t metric)
{
    links[a][b] = metric;
    links[b][a] = metric;
}

static size_t number_of(const struct board *board)
{
    return (size_t)(board - boards);
}

/* Returns the number of the box that has the address, or BOXES if there is none. */
static size_t box_at(const uint8_t address[HWMP_ADDRESS_OCTETS])
{
    size_t i = 0;

    while (i < BOXES && memcmp(configs[i].own, address, HWMP_ADDRESS_OCTETS) != 0)
        i++;
    return i;
}

/* ---- clock and memory */

uint64_t clock_ms(struct board *board)
{
    return board->clock_base + (now_ms - board->powered_at);
}

void memory_keep(struct board *board, const uint8_t *table, size_t table_len)
{
    assert(table_len <= sizeof board->kept);
    memcpy(board->kept, table, table_len);
    board->kept_len = table_len;
    board->is_kept = true;
}

/* A longer table has rows that do not fit. It counts as one that cannot be read. */
bool memory_recall(struct board *board, uint8_t *table, size_t table_len)
{
    if (!board->is_kept)
        return false;
    memset(table, 0, table_len);
    if (board->kept_len <= table_len)
        memcpy(table, board->kept, board->kept_len);
    return true;
}

/* ---- radio: elements */

/* Returns the name of an element's type. */
static const char *name_of(const uint8_t *element)
{
    switch (element[HWMP_ELEMENT_ID_AT]) {
    case HWMP_RANN:
        return "RANN";
    case HWMP_RREQ:
        return "RREQ";
    case HWMP_RREP:
        return "RREP";
    default:
        return "RERR";
    }
}

static void queue_element(size_t from, size_t to, const uint8_t *element, size_t element_len)
{
    struct board *board = &boards[to];
    struct box_heard *heard;

    if (board->heard_count == QUEUE || element_len > sizeof heard->element)
        return;
    heard = &board->heard[(board->heard_first + board->heard_count++) % QUEUE];
    memcpy(heard->transmitter, configs[from].own, HWMP_ADDRESS_OCTETS);
    heard->link_metric = links[from][to];
    heard->element_len = element_len;
    memcpy(heard->element, element, element_len);
}

static void send_to_all(size_t from, const uint8_t *element, size_t element_len)
{
    printf("%5" PRIu64 " ms: box %zu sends %s to all\n", now_ms, from, name_of(element));
    for (size_t to = 0; to < BOXES; to++)
        if (links[from][to] != NO_LINK)
            queue_element(from, to, element, element_len);
}

/* Reports whether a box is in reach. If it is not, the radio gives up on it. */
static bool reaches(struct board *board, size_t to)
{
    if (to == BOXES)
        return false;
    if (links[number_of(board)][to] != NO_LINK)
        return true;
    board->gave_up[to] = true;
    return false;
}

void radio_send(struct board *board, const uint8_t receiver[HWMP_ADDRESS_OCTETS],
                const uint8_t *element, size_t element_len)
{
    size_t from = number_of(board);
    size_t to = box_at(receiver);

    if (memcmp(receiver, all_ones, HWMP_ADDRESS_OCTETS) == 0) {
        send_to_all(from, element, element_len);
        return;
    }
    printf("%5" PRIu64 " ms: box %zu sends %s to box %zu\n", now_ms, from, name_of(element),
           to);
    if (reaches(board, to))
        queue_element(from, to, element, element_len);
}

bool radio_receive(struct board *board, struct box_heard *heard)
{
    if (board->heard_count == 0)
        return false;
    *heard = board->heard[board->heard_first];
    board->heard_first = (board->heard_first + 1) % QUEUE;
    board->heard_count--;
    return true;
}

bool radio_gave_up(struct board *board, uint8_t neighbour[HWMP_ADDRESS_OCTETS])
{
    for (size_t i = 0; i < BOXES; i++) {
        if (!board->gave_up[i])
            continue;
        board->gave_up[i] = false;
        memcpy(neighbour, configs[i].own, HWMP_ADDRESS_OCTETS);
        printf("%5" PRIu64 " ms: box %zu gives up on box %zu\n", now_ms, number_of(board), i);
        return true;
    }
    return false;
}

/* ---- radio: scans */

static void queue_scan(struct board *board, const struct box_scan *scan)
{
    if (board->scans_count == QUEUE)
        return;
    board->scans[(board->scans_first + board->scans_count++) % QUEUE] = *scan;
}

void scan_send(struct board *board, const uint8_t next_hop[HWMP_ADDRESS_OCTETS],
               const struct box_scan *scan)
{
    size_t to = box_at(next_hop);

    printf("%5" PRIu64 " ms: box %zu sends scan %d to box %zu\n", now_ms, number_of(board),
           scan->octets[SCAN_NUMBER_AT], to);
    if (reaches(board, to))
        queue_scan(&boards[to], scan);
}

bool scan_receive(struct board *board, struct box_scan *scan)
{
    if (board->scans_count == 0)
        return false;
    *scan = board->scans[board->scans_first];
    board->scans_first = (board->scans_first + 1) % QUEUE;
    board->scans_count--;
    return true;
}

void scan_arrived(struct board *board, const struct box_scan *scan)
{
    printf("%5" PRIu64 " ms: scan %d is at box %zu, hops: %d\n", now_ms,
           scan->octets[SCAN_NUMBER_AT], number_of(board), SCAN_TTL - scan->ttl);
}

/* ---- the run */

/* Gives box 0 a scan for box 2. */
static void make_scan(void)
{
    struct box_scan scan = {.ttl = SCAN_TTL};

    memcpy(scan.destination, configs[BOX_2].own, HWMP_ADDRESS_OCTETS);
    scan.octets[SCAN_NUMBER_AT] = (uint8_t)(now_ms / SCAN_EVERY_MS);
    queue_scan(&boards[BOX_0], &scan);
}

/* Lets the clock of a box that lost its time go on from the latest clock in its table. */
static void set_clock(size_t i)
{
    printf("%5" PRIu64 " ms: box %zu has its clock go on from its table\n", now_ms, i);
    boards[i].clock_base = box_latest_clock(&boxes[i]);
    boards[i].powered_at = now_ms;
}

/* Starts a box, or starts it again. Returns false if it cannot start. */
static bool start(size_t i)
{
    enum box_state state = box_start(&boxes[i], &configs[i], &boards[i]);

    if (state == BOX_CLOCK_WENT_BACK) {
        set_clock(i);
        state = box_start(&boxes[i], &configs[i], &boards[i]);
    }
    return state == BOX_WELL;
}

static void happen(const char *what)
{
    printf("%5" PRIu64 " ms: -- %s\n", now_ms, what);
}

/* Does to the mesh what happens now. Returns false if a box cannot start again after it. */
static bool events(void)
{
    switch (now_ms) {
    case START_MS:
        set_link(BOX_0, BOX_1, FIRST_LINK);
        return true;
    case BOX_2_UP_MS:
        happen("box 2 is put up: a good link to box 1, a bad one to box 0");
        set_link(BOX_1, BOX_2, GOOD_LINK);
        set_link(BOX_0, BOX_2, BAD_LINK);
        return true;
    case DAMAGE_MS:
        happen("an octet of box 1's table is damaged");
        boxes[BOX_1].table[HWMP_HEAD_OCTETS] ^= DAMAGED_BIT;
        return true;
    case LINK_LOST_MS:
        happen("the good link is lost");
        set_link(BOX_1, BOX_2, NO_LINK);
        return true;
    case LINK_BACK_MS:
        happen("the good link is back");
        set_link(BOX_1, BOX_2, GOOD_LINK);
        return true;
    case POWER_LOST_MS:
        happen("box 1 loses its power, and its clock counts from 0 again");
        boards[BOX_1].clock_base = CLOCK_RESET;
        boards[BOX_1].powered_at = now_ms;
        return start(BOX_1);
    default:
        return true;
    }
}

/* Does what firmware must do about the state of a turn. Returns false if it did not help. */
static bool see_to(size_t i, enum box_state state)
{
    switch (state) {
    case BOX_WELL:
        return true;
    case BOX_TABLE_FULL:
        printf("%5" PRIu64 " ms: box %zu needs more rows\n", now_ms, i);
        return true;
    case BOX_CLOCK_WENT_BACK:
        set_clock(i);
        return true;
    case BOX_DAMAGED:
        printf("%5" PRIu64 " ms: box %zu starts again with the table it kept\n", now_ms, i);
        return start(i);
    }
    return false;
}

static bool turn_all(void)
{
    for (size_t i = 0; i < BOXES; i++)
        if (!see_to(i, box_turn(&boxes[i])))
            return false;
    return true;
}

static void print_answers(size_t i)
{
    printf("answers to box %zu since it started:", i);
    for (size_t answer = 0; answer < BOX_ANSWERS; answer++)
        if (boxes[i].answers[answer] != 0)
            printf(" %zu (%" PRIu32 " times)", answer, boxes[i].answers[answer]);
    printf("\n");
}

int main(void)
{
    for (size_t i = 0; i < BOXES; i++)
        if (!start(i))
            return EXIT_FAILURE;
    for (now_ms = START_MS; now_ms < END_MS; now_ms += TURN_MS) {
        if (!events())
            return EXIT_FAILURE;
        if (now_ms % SCAN_EVERY_MS == 0)
            make_scan();
        if (!turn_all())
            return EXIT_FAILURE;
    }
    for (size_t i = 0; i < BOXES; i++)
        print_answers(i);
    return 0;
}
