#include "call.h"

#include <string.h>

/* The pages in which each buffer is lent. */
static struct lent table_room, output_room; /* which the library may write */
static struct lent tables_room, address_room, destination_room, octets_room;

/* A call's buffers as the library sees them. */
struct buffers {
    uint8_t *table; /* in pages that may only be read, if the call may only read */
    uint8_t *output;
    const uint8_t *address;
    const uint8_t *destination;
    const uint8_t *octets;
};

const char *entry_name(enum entry entry)
{
    static const char *const names[ENTRIES] = {
        [FRESH] = "hwmp_fresh",     [NEXT_HOP] = "hwmp_next_hop",
        [FORGET] = "hwmp_forget",   [WALK] = "hwmp_walk",
        [ASK] = "hwmp_ask",         [ANNOUNCE] = "hwmp_announce",
        [BREAK] = "hwmp_break",     [ROOT_REQUEST] = "hwmp_root_request",
        [RECEIVE] = "hwmp_receive",
    };

    return names[entry];
}

int writes_table(enum entry entry)
{
    return entry != NEXT_HOP && entry != WALK;
}

int may_send(enum entry entry)
{
    return entry >= ASK;
}

static void make_rooms(void)
{
    if (table_room.room != 0)
        return;
    table_room = lent_to_write(MOST_TABLE_OCTETS);
    output_room = lent_to_write(MOST_OUTPUT_OCTETS);
    tables_room = lent_to_read(MOST_TABLES_OCTETS);
    octets_room = lent_to_read(MOST_ELEMENT_OCTETS);
    address_room = lent_to_read(HWMP_ADDRESS_OCTETS);
    destination_room = lent_to_read(HWMP_ADDRESS_OCTETS);
}

static struct buffers lend_all(const struct call *call, enum side side, uint8_t fill)
{
    const struct lent *table = writes_table(call->entry) ? &table_room : &tables_room;
    uint8_t filled[MOST_OUTPUT_OCTETS];

    make_rooms();
    memset(filled, fill, sizeof filled);
    return (struct buffers){
        .table = lend(table, side, call->table, call->table_len),
        .output = lend(&output_room, side, filled, call->output_len),
        .address = lend(&address_room, side, call->address, sizeof call->address),
        .destination = lend(&destination_room, side, call->destination, sizeof call->destination),
        .octets = lend(&octets_room, side, call->octets, call->octets_len),
    };
}

static struct result from_answer(uint32_t answer)
{
    return (struct result){.answer = answer};
}

static struct result from_outcome(struct hwmp_outcome outcome)
{
    return (struct result){
        .answer = outcome.answer, .frames = outcome.frames, .octets = outcome.octets};
}

static struct result from_walked(struct hwmp_walked walked)
{
    return (struct result){.answer = walked.answer, .hops = walked.hops};
}

static struct result from_hop(struct hwmp_hop hop)
{
    struct result result = {.answer = hop.answer};

    memcpy(result.next_hop, hop.address, sizeof hop.address);
    return result;
}

static struct result enter(const struct call *call, const struct buffers *lent)
{
    switch (call->entry) {
    case FRESH:
        return from_answer(hwmp_fresh(lent->table, call->table_len, lent->address, call->number));
    case FORGET:
        return from_answer(hwmp_forget(lent->table, call->table_len, lent->address));
    case NEXT_HOP:
        return from_hop(hwmp_next_hop(lent->table, call->table_len, call->clock, lent->address));
    case WALK:
        return from_walked(hwmp_walk(lent->table, call->table_len, call->number, call->clock,
                                     lent->address, lent->destination));
    case ASK:
        return from_outcome(hwmp_ask(lent->table, call->table_len, lent->output, call->output_len,
                                     call->number, lent->octets, call->octets_len));
    case ANNOUNCE:
        return from_outcome(hwmp_announce(lent->table, call->table_len, lent->output,
                                          call->output_len, call->flags, call->number));
    case ROOT_REQUEST:
        return from_outcome(hwmp_root_request(lent->table, call->table_len, lent->output,
                                              call->output_len, call->flags, call->number));
    case BREAK:
        return from_outcome(hwmp_break(lent->table, call->table_len, lent->output, call->output_len,
                                       call->clock, lent->address));
    default:
        return from_outcome(hwmp_receive(lent->table, call->table_len, lent->output,
                                         call->output_len, call->clock, lent->address, call->number,
                                         lent->octets, call->octets_len));
    }
}

struct made make_call(const struct call *call, enum side side, uint8_t fill)
{
    struct buffers lent = lend_all(call, side, fill);

    return (struct made){.result = enter(call, &lent), .table = lent.table, .output = lent.output};
}
