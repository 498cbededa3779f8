/*
 * Stands between harness and library (--wrap) and does one thing wrong, which HWMP_DAMAGE names.
 * tests/fuzz/run lists the damages, each with the finding that must follow. Without a name
 * nothing is wrong.
 */
#include <stdlib.h>
#include <string.h>

#include "hwmp.h"
#include "requests.h"

static volatile uint8_t octet_read;

static int is(const char *damage)
{
    const char *chosen = getenv("HWMP_DAMAGE");

    return chosen != NULL && strcmp(chosen, damage) == 0;
}

static void write_to(const uint8_t *place)
{
    *(volatile uint8_t *)place ^= 1;
}

/* Returns 1 and 0 in turn. */
static uint8_t next_turn(void)
{
    static uint8_t turn;

    turn ^= 1;
    return turn;
}

/* Changes each destination of an element, if it is a RREQ. */
static void change_destinations(uint8_t *element, size_t length, void (*change)(uint8_t *))
{
    uint8_t count = count_destinations(element, length);

    for (uint8_t i = 0; i < count; i++)
        change(element + destination_at(i));
}

/* Changes each destination of the requests that were sent. */
static void change_sent(uint8_t *output, const struct hwmp_outcome *outcome,
                        void (*change)(uint8_t *))
{
    uint8_t *frame = output;

    for (uint32_t i = 0; i < outcome->frames; i++) {
        change_destinations(frame + HWMP_FRAME_ELEMENT_AT,
                            HWMP_FRAME_OCTETS(frame) - HWMP_FRAME_ELEMENT_AT, change);
        frame += HWMP_FRAME_OCTETS(frame);
    }
}

static void mark_a_0(uint8_t *destination)
{
    static const uint8_t zero[4];

    if (memcmp(destination + NUMBER_AT, zero, sizeof zero) == 0)
        destination[FLAGS_AT] |= HWMP_NUMBER_UNKNOWN;
}

static void unmark(uint8_t *destination)
{
    destination[FLAGS_AT] &= (uint8_t)~HWMP_NUMBER_UNKNOWN;
}

static void number_if_marked(uint8_t *destination, uint32_t number)
{
    if ((destination[FLAGS_AT] & HWMP_NUMBER_UNKNOWN) != 0)
        memcpy(destination + NUMBER_AT, &number, sizeof number);
}

static void give_a_number(uint8_t *destination)
{
    number_if_marked(destination, 7);
}

static void take_the_number(uint8_t *destination)
{
    number_if_marked(destination, 0);
}

static void fill_in(uint8_t *destination)
{
    give_a_number(destination);
    unmark(destination);
}

__typeof__(hwmp_fresh) __real_hwmp_fresh, __wrap_hwmp_fresh;

uint32_t __wrap_hwmp_fresh(uint8_t *table, size_t table_len, const uint8_t *own, uint32_t number)
{
    if (is("reads a seventh octet of an address"))
        octet_read = own[6];
    if (is("writes an address"))
        write_to(own);
    return __real_hwmp_fresh(table, table_len, own, number);
}

__typeof__(hwmp_next_hop) __real_hwmp_next_hop, __wrap_hwmp_next_hop;

struct hwmp_hop __wrap_hwmp_next_hop(const uint8_t *table, size_t table_len, uint64_t clock,
                                     const uint8_t *destination)
{
    struct hwmp_hop hop = __real_hwmp_next_hop(table, table_len, clock, destination);

    if (is("writes the table in a next hop"))
        write_to(table);
    if (is("gives an address beside a refusal") && hop.answer == HWMP_NO_NEXT_HOP)
        memcpy(hop.address, destination, 6);
    if (is("gives a group address as next hop") && hop.answer == HWMP_ACCEPTED)
        hop.address[0] |= 1;
    if (is("gives the point itself as next hop") && hop.answer == HWMP_ACCEPTED)
        memcpy(hop.address, table, 6);
    if (is("finds a next hop by turns") && hop.answer == HWMP_ACCEPTED && next_turn())
        hop = (struct hwmp_hop){.answer = HWMP_NO_NEXT_HOP};
    return hop;
}

__typeof__(hwmp_forget) __real_hwmp_forget, __wrap_hwmp_forget;

uint32_t __wrap_hwmp_forget(uint8_t *table, size_t table_len, const uint8_t *destination)
{
    if (is("forgets nothing") &&
        __real_hwmp_next_hop(table, table_len, 0, destination).answer == HWMP_ACCEPTED)
        return HWMP_ACCEPTED;
    return __real_hwmp_forget(table, table_len, destination);
}

__typeof__(hwmp_walk) __real_hwmp_walk, __wrap_hwmp_walk;

struct hwmp_walked __wrap_hwmp_walk(const uint8_t *tables, size_t tables_len, uint32_t count,
                                    uint64_t clock, const uint8_t *start,
                                    const uint8_t *destination)
{
    struct hwmp_walked walked =
        __real_hwmp_walk(tables, tables_len, count, clock, start, destination);

    if (is("reads behind the tables"))
        octet_read = tables[tables_len];
    if (is("walks more hops than points") && walked.answer == HWMP_ACCEPTED)
        walked.hops = count + 1;
    if (is("gives up early") && walked.answer == HWMP_TOO_LONG)
        walked.hops--;
    if (is("counts hops beside a refusal") && walked.answer == HWMP_BAD_LIST)
        walked.hops = 1;
    return walked;
}

__typeof__(hwmp_ask) __real_hwmp_ask, __wrap_hwmp_ask;

struct hwmp_outcome __wrap_hwmp_ask(uint8_t *table, size_t table_len, uint8_t *output,
                                    size_t output_len, uint32_t lifetime, const uint8_t *items,
                                    size_t items_len)
{
    struct hwmp_outcome outcome =
        __real_hwmp_ask(table, table_len, output, output_len, lifetime, items, items_len);

    if (is("reads behind the items"))
        octet_read = items[items_len];
    if (is("answers 12 to an ask") && outcome.answer == HWMP_NO_LIFETIME)
        outcome.answer = HWMP_TOO_MANY_HOPS;
    if (is("marks a known 0"))
        change_sent(output, &outcome, mark_a_0);
    if (is("marks no unknown number"))
        change_sent(output, &outcome, unmark);
    if (is("sends a marked number"))
        change_sent(output, &outcome, give_a_number);
    return outcome;
}

__typeof__(hwmp_announce) __real_hwmp_announce, __wrap_hwmp_announce;

struct hwmp_outcome __wrap_hwmp_announce(uint8_t *table, size_t table_len, uint8_t *output,
                                         size_t output_len, uint8_t flags, uint32_t lifetime)
{
    struct hwmp_outcome outcome =
        __real_hwmp_announce(table, table_len, output, output_len, flags, lifetime);

    if (is("announces twice") && outcome.answer == HWMP_ACCEPTED) {
        memcpy(output + outcome.octets, output, outcome.octets);
        outcome.frames = 2;
        outcome.octets *= 2;
    }
    return outcome;
}

__typeof__(hwmp_root_request) __real_hwmp_root_request, __wrap_hwmp_root_request;

struct hwmp_outcome __wrap_hwmp_root_request(uint8_t *table, size_t table_len, uint8_t *output,
                                             size_t output_len, uint8_t flags, uint32_t lifetime)
{
    struct hwmp_outcome outcome =
        __real_hwmp_root_request(table, table_len, output, output_len, flags, lifetime);

    if (is("asks one neighbour only") && outcome.answer == HWMP_ACCEPTED)
        output[0] = 2;
    if (is("asks for everyone without a mark"))
        change_sent(output, &outcome, unmark);
    return outcome;
}

__typeof__(hwmp_break) __real_hwmp_break, __wrap_hwmp_break;

struct hwmp_outcome __wrap_hwmp_break(uint8_t *table, size_t table_len, uint8_t *output,
                                      size_t output_len, uint64_t clock, const uint8_t *neighbour)
{
    struct hwmp_outcome outcome =
        __real_hwmp_break(table, table_len, output, output_len, clock, neighbour);

    if (is("does not end") && outcome.frames == 6)
        for (;;)
            next_turn();
    if (is("says more octets than there may be") && outcome.frames == 6)
        outcome.octets += HWMP_OUTPUT_OCTETS;
    return outcome;
}

/* The damages to a receive that was refused. */
static void damage_refused(struct hwmp_outcome *outcome, uint8_t *table, size_t table_len,
                           uint8_t *output, size_t output_len)
{
    if (is("changes the table and refuses") && table_len != 0)
        write_to(table + table_len - 1);
    if (is("changes the output and refuses") && output_len != 0)
        write_to(output + output_len - 1);
    if (is("counts a frame beside a refusal"))
        outcome->frames = 1;
    if (is("counts an octet beside a refusal"))
        outcome->octets = 1;
    if (is("answers 15") && outcome->answer == HWMP_LOW_TTL)
        outcome->answer = 15;
    if (is("answers 64") && outcome->answer == HWMP_LOW_TTL)
        outcome->answer = 64;
    if (is("answers 14 to all elements") && outcome->answer == HWMP_TOO_MANY_HOPS)
        outcome->answer = HWMP_LOW_TTL;
    if (is("answers 26 to all elements") && outcome->answer == HWMP_STALE)
        outcome->answer = HWMP_NO_MATCH;
    if (is("answers 25 to an error") && outcome->answer == HWMP_NO_MATCH)
        outcome->answer = HWMP_STALE;
}

/* The damages to a receive that was accepted. */
static void damage_accepted(struct hwmp_outcome *outcome, uint8_t *table, uint8_t *output,
                            size_t output_len)
{
    if (is("leaves no table"))
        table[7] = 1;
    if (is("leaves what the output held") && outcome->octets < output_len)
        table[8] = output[output_len - 1];
    if (outcome->frames == 0)
        return;
    if (is("writes behind its frames") && outcome->octets < output_len)
        write_to(output + outcome->octets);
    if (is("says an octet too many"))
        outcome->octets++;
    if (is("says a frame too few"))
        outcome->frames--;
    if (is("says a frame too many"))
        outcome->frames++;
    if (is("sends to nobody"))
        memset(output, 0, 6);
    if (is("sends an unknown type"))
        output[6] = 1;
    if (is("sends by turns"))
        output[8] ^= next_turn();
    if (is("forwards no mark"))
        change_sent(output, outcome, unmark);
    if (is("forwards a number instead of a mark"))
        change_sent(output, outcome, fill_in);
}

/* Writes what is received instead, and reports whether it differs. */
static int damage_received(uint8_t *received, const uint8_t *table, size_t table_len,
                           const uint8_t *element, size_t element_len)
{
    uint8_t count = count_destinations(element, element_len);

    memcpy(received, element, element_len);
    if (is("accepts a marked number"))
        change_destinations(received, element_len, take_the_number);
    for (uint8_t i = 0; is("compares a marked 0") && table_len >= 6 && i < count; i++)
        if (memcmp(received + destination_at(i) + ADDRESS_AT, table, 6) == 0)
            unmark(received + destination_at(i));
    return memcmp(received, element, element_len) != 0;
}

__typeof__(hwmp_receive) __real_hwmp_receive, __wrap_hwmp_receive;

struct hwmp_outcome __wrap_hwmp_receive(uint8_t *table, size_t table_len, uint8_t *output,
                                        size_t output_len, uint64_t clock,
                                        const uint8_t *transmitter, uint32_t link_metric,
                                        const uint8_t *element, size_t element_len)
{
    uint8_t received[MOST_ELEMENT_OCTETS];
    int differs = damage_received(received, table, table_len, element, element_len);
    struct hwmp_outcome outcome =
        __real_hwmp_receive(table, table_len, output, output_len, clock, transmitter, link_metric,
                            differs ? received : element, element_len);

    if (is("writes behind the table"))
        write_to(table + table_len);
    if (is("writes before the table"))
        write_to(table - 1);
    if (is("writes behind the output"))
        write_to(output + output_len);
    if (is("writes before the output"))
        write_to(output - 1);
    if (is("reads before the element"))
        octet_read = element[-1];
    if (is("reads behind the element"))
        octet_read = element[element_len];
    if (is("writes the element") && element_len != 0)
        write_to(element);
    if (outcome.answer == HWMP_ACCEPTED)
        damage_accepted(&outcome, table, output, output_len);
    else
        damage_refused(&outcome, table, table_len, output, output_len);
    return outcome;
}
