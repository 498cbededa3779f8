/*
 * The main loop of a box. It allocates nothing, never blocks and does a bounded amount of work
 * in each turn.
 * Build: cc -std=c11 -Iinclude examples/main_loop.c examples/main_loop_mesh.c \
 *            crates/hwmp/out/libhwmp.a -o main_loop
 */
#include "main_loop.h"

#include <string.h>

/* The latest clock in a table: its octets, and the bits of each. */
enum { CLOCK_OCTETS = 8, OCTET_BITS = 8 };

/* The TTL of a scan that may not take another hop. */
enum { NO_HOP_LEFT = 0 };

/* ---- answers */

/*
 * Returns what an answer means for the box. Most refusals are ordinary traffic: the element is
 * old, came back to its originator, has no hop left, names no row of ours, or is no element at
 * all. The table has not changed, and the box has nothing to do.
 */
static enum box_state state_after(uint32_t answer)
{
    switch (answer) {
    case HWMP_TABLE_LENGTH:
    case HWMP_SHORT_OUTPUT:
    case HWMP_CLOCK_TOO_LARGE:
    case HWMP_NOT_A_TABLE:
        return BOX_DAMAGED;
    case HWMP_OLD_CLOCK:
        return BOX_CLOCK_WENT_BACK;
    case HWMP_NO_ROOM:
        return BOX_TABLE_FULL;
    default:
        return BOX_WELL;
    }
}

/* Counts an answer, and keeps the worst state of this turn. */
static void count(struct box *box, uint32_t answer)
{
    enum box_state state = state_after(answer);

    if (answer < BOX_ANSWERS)
        box->answers[answer]++;
    if (state > box->state)
        box->state = state;
}

/* Splits the output into frames and sends each to its receiver. */
static void send_frames(const struct box *box, struct hwmp_outcome outcome)
{
    const uint8_t *frame = box->output;

    for (uint32_t i = 0; i < outcome.frames; i++) {
        size_t frame_len = HWMP_FRAME_OCTETS(frame);

        radio_send(box->board, frame + HWMP_FRAME_RECEIVER_AT, frame + HWMP_FRAME_ELEMENT_AT,
                   frame_len - HWMP_FRAME_ELEMENT_AT);
        frame += frame_len;
    }
}

/*
 * Counts the answer of a call. If the call was accepted, keeps the table and then sends the
 * frames. The order matters: a frame may be lost, but no box may hear a sequence number that
 * this box does not know after a restart.
 */
static void settle(struct box *box, struct hwmp_outcome outcome)
{
    count(box, outcome.answer);
    if (outcome.answer != HWMP_ACCEPTED)
        return;
    memory_keep(box->board, box->table, sizeof box->table);
    send_frames(box, outcome);
}

/* ---- what the radio reports */

static void report_breaks(struct box *box, uint64_t now)
{
    uint8_t neighbour[HWMP_ADDRESS_OCTETS];

    for (int i = 0; i < BOX_PER_TURN && radio_gave_up(box->board, neighbour); i++)
        settle(box, hwmp_break(box->table, sizeof box->table, box->output, sizeof box->output,
                               now, neighbour));
}

static void receive_elements(struct box *box, uint64_t now)
{
    struct box_heard *heard = &box->heard;

    for (int i = 0; i < BOX_PER_TURN && radio_receive(box->board, heard); i++)
        settle(box, hwmp_receive(box->table, sizeof box->table, box->output, sizeof box->output,
                                 now, heard->transmitter, heard->link_metric, heard->element,
                                 heard->element_len));
}

/* ---- what is due */

/* Reports whether something is due, and sets when it is due next. */
static bool is_due(uint64_t *due, uint32_t period, uint64_t now)
{
    if (period == BOX_NEVER || now < *due)
        return false;
    *due = now + period;
    return true;
}

static void announce_if_due(struct box *box, uint64_t now)
{
    if (is_due(&box->announcement_due, box->config.announcement_period, now))
        settle(box, hwmp_announce(box->table, sizeof box->table, box->output,
                                  sizeof box->output, HWMP_PORTAL, BOX_LIFETIME_MS));
}

static void request_as_root_if_due(struct box *box, uint64_t now)
{
    if (is_due(&box->root_request_due, box->config.root_request_period, now))
        settle(box, hwmp_root_request(box->table, sizeof box->table, box->output,
                                      sizeof box->output, HWMP_PORTAL | HWMP_REPLY_WANTED,
                                      BOX_LIFETIME_MS));
}

/* ---- scans */

/*
 * Returns the place that notes the holdoff of a destination. If none notes it, returns a place
 * whose holdoff is over. If no holdoff is over, returns NULL.
 */
static struct box_asked *place_for(struct box *box, const uint8_t *destination, uint64_t now)
{
    struct box_asked *over = NULL;

    for (size_t i = 0; i < BOX_ASKED; i++) {
        struct box_asked *asked = &box->asked[i];

        if (memcmp(asked->destination, destination, HWMP_ADDRESS_OCTETS) == 0)
            return asked;
        if (asked->until <= now)
            over = asked;
    }
    return over;
}

/*
 * Asks for a destination, but only once within a holdoff: many scans may lack the row, and each
 * request goes through the whole mesh. RF lets a point on the way reply at once and still
 * forward the request. Without RF the request could end at a neighbour whose row is still
 * active with a number that this box knows already. The box would refuse the neighbour's reply
 * (HWMP_STALE), and the destination would never reply with a newer number.
 */
static void ask_unless_held_off(struct box *box, const uint8_t *destination, uint64_t now)
{
    uint8_t item[HWMP_ITEM_OCTETS];
    struct box_asked *asked = place_for(box, destination, now);

    if (asked == NULL || asked->until > now)
        return;
    memcpy(asked->destination, destination, HWMP_ADDRESS_OCTETS);
    asked->until = now + BOX_HOLDOFF_MS;
    item[HWMP_ITEM_FLAGS_AT] = HWMP_ITEM_RF;
    memcpy(item + HWMP_ITEM_ADDRESS_AT, destination, HWMP_ADDRESS_OCTETS);
    settle(box, hwmp_ask(box->table, sizeof box->table, box->output, sizeof box->output,
                         BOX_LIFETIME_MS, item, sizeof item));
}

/*
 * Sends a scan to the next hop of its destination. Without an active row the box drops the scan
 * and asks for the destination, so that a later scan finds the row.
 */
static void forward(struct box *box, struct box_scan *scan, uint64_t now)
{
    struct hwmp_hop hop =
        hwmp_next_hop(box->table, sizeof box->table, now, scan->destination);

    count(box, hop.answer);
    if (hop.answer == HWMP_NO_NEXT_HOP)
        ask_unless_held_off(box, scan->destination, now);
    if (hop.answer != HWMP_ACCEPTED || scan->ttl == NO_HOP_LEFT)
        return;
    scan->ttl--;
    scan_send(box->board, hop.address, scan);
}

static void take_scans(struct box *box, uint64_t now)
{
    struct box_scan scan;

    for (int i = 0; i < BOX_PER_TURN && scan_receive(box->board, &scan); i++) {
        if (memcmp(scan.destination, box->config.own, HWMP_ADDRESS_OCTETS) == 0)
            scan_arrived(box->board, &scan);
        else
            forward(box, &scan, now);
    }
}

/* ---- the loop */

/* The table has the lowest octet first, on every processor. */
uint64_t box_latest_clock(const struct box *box)
{
    uint64_t clock = 0;

    for (size_t i = 0; i < CLOCK_OCTETS; i++)
        clock |= (uint64_t)box->table[HWMP_LATEST_CLOCK_AT + i] << (OCTET_BITS * i);
    return clock;
}

/* The turn takes breaks first, so that no scan goes to a neighbour that is known to be lost. */
enum box_state box_turn(struct box *box)
{
    uint64_t now = clock_ms(box->board);

    box->state = BOX_WELL;
    report_breaks(box, now);
    receive_elements(box, now);
    announce_if_due(box, now);
    request_as_root_if_due(box, now);
    take_scans(box, now);
    return box->state;
}

/*
 * Judges the table that was kept, through a next hop for the own address. No table has a row
 * for its own address, so the answer for a sound table is HWMP_NO_NEXT_HOP.
 */
static enum box_state state_of_kept(const struct box *box, uint64_t now)
{
    const uint8_t *own = box->config.own;
    uint32_t answer = hwmp_next_hop(box->table, sizeof box->table, now, own).answer;

    if (answer == HWMP_OLD_CLOCK)
        return BOX_CLOCK_WENT_BACK;
    if (answer != HWMP_NO_NEXT_HOP ||
        memcmp(box->table + HWMP_OWN_ADDRESS_AT, own, HWMP_ADDRESS_OCTETS) != 0)
        return BOX_DAMAGED;
    return BOX_WELL;
}

static enum box_state make_fresh(struct box *box)
{
    if (hwmp_fresh(box->table, sizeof box->table, box->config.own, box->config.first_number) !=
        HWMP_ACCEPTED)
        return BOX_DAMAGED;
    memory_keep(box->board, box->table, sizeof box->table);
    return BOX_WELL;
}

enum box_state box_start(struct box *box, const struct box_config *config, struct board *board)
{
    uint64_t now = clock_ms(board);

    memset(box, 0, sizeof *box);
    box->config = *config;
    box->board = board;
    box->announcement_due = now + config->announcement_period;
    box->root_request_due = now + config->root_request_period;
    if (memory_recall(board, box->table, sizeof box->table))
        return state_of_kept(box, now);
    return make_fresh(box);
}
