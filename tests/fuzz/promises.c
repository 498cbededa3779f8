#include "promises.h"

#include <inttypes.h>
#include <stdio.h>
#include <stdlib.h>
#include <string.h>

#include "requests.h"

/* Two fills of the output that differ in every bit, so that at least one of them shows a write. */
enum { FIRST_FILL = 0xaa, SECOND_FILL = 0x55 };

#define BIT(n) (UINT64_C(1) << (n))
/* Answers by their names without HWMP_: one answer, and all from the first to the last. */
#define ANSWER(name) BIT(HWMP_##name)
#define ANSWERS(first, last) (BIT(HWMP_##last + 1) - BIT(HWMP_##first))

static _Noreturn void found(const struct call *call, const struct result *result, const char *what)
{
    fprintf(stderr,
            "finding: %s: %s (answer %" PRIu32 ", frames %" PRIu32 ", octets %" PRIu32
            ", hops %" PRIu32 ")\n",
            entry_name(call->entry), what, result->answer, result->frames, result->octets,
            result->hops);
    abort();
}

uint64_t listed_answers(enum entry entry)
{
    static const uint64_t listed[ENTRIES] = {
        [FRESH] = ANSWERS(ACCEPTED, TABLE_LENGTH) | ANSWER(BAD_ADDRESS),
        [NEXT_HOP] = ANSWERS(ACCEPTED, TABLE_LENGTH) | ANSWER(CLOCK_TOO_LARGE) |
                     ANSWER(BAD_ADDRESS) | ANSWERS(NOT_A_TABLE, OLD_CLOCK) | ANSWER(NO_NEXT_HOP),
        [FORGET] = ANSWERS(ACCEPTED, TABLE_LENGTH) | ANSWER(BAD_ADDRESS) | ANSWER(NOT_A_TABLE) |
                   ANSWER(NOT_HELD),
        [WALK] = ANSWERS(ACCEPTED, TABLE_LENGTH) | ANSWER(CLOCK_TOO_LARGE) |
                 ANSWERS(BAD_ADDRESS, BAD_LIST) | ANSWERS(NOT_A_TABLE, OLD_CLOCK) |
                 ANSWERS(NO_ROUTE, TOO_LONG),
        [ASK] = ANSWERS(ACCEPTED, SHORT_OUTPUT) | ANSWERS(BAD_COUNT, NO_LIFETIME) |
                ANSWER(NOT_A_TABLE) | ANSWER(ABOUT_ITSELF),
        [ANNOUNCE] = ANSWERS(ACCEPTED, SHORT_OUTPUT) | ANSWERS(BAD_LIST, NO_LIFETIME) |
                     ANSWER(NOT_A_TABLE),
        [ROOT_REQUEST] = ANSWERS(ACCEPTED, SHORT_OUTPUT) | ANSWERS(BAD_LIST, NO_LIFETIME) |
                         ANSWER(NOT_A_TABLE),
        [BREAK] = ANSWERS(ACCEPTED, BAD_NEIGHBOUR) | ANSWERS(NOT_A_TABLE, FROM_ITSELF),
        [RECEIVE] = ANSWERS(ACCEPTED, LOW_TTL) | ANSWERS(NOT_A_TABLE, NO_ROOM),
    };

    return listed[entry];
}

/* Some answers of a receive belong to one type of element. */
static uint64_t listed_for(const struct call *call)
{
    uint64_t listed = listed_answers(call->entry);

    if (call->entry != RECEIVE || call->octets_len == 0)
        return listed;
    if (call->octets[0] != RREP)
        listed &= ~ANSWER(LOW_TTL);
    if (call->octets[0] != RERR)
        return listed & ~ANSWER(NO_MATCH);
    return listed & ~(ANSWERS(NO_LIFETIME, METRIC_TOO_LARGE) | ANSWERS(ABOUT_ITSELF, STALE) |
                      ANSWER(NO_ROOM));
}

static int is_refusal(const struct call *call, const struct result *result)
{
    if (call->entry != WALK)
        return result->answer != HWMP_ACCEPTED;
    return result->answer != HWMP_ACCEPTED && result->answer != HWMP_NO_ROUTE &&
           result->answer != HWMP_TOO_LONG;
}

/* Compares each octet with the one before it, which is faster than comparing each with the value. */
static int are_all(const uint8_t *octets, size_t count, uint8_t value)
{
    return count == 0 || (octets[0] == value && memcmp(octets, octets + 1, count - 1) == 0);
}

static int is_individual(const uint8_t address[6])
{
    return (address[0] & 1) == 0 && !are_all(address, 6, 0);
}

static void check_answer(const struct call *call, const struct result *result)
{
    if (result->answer > 63 || (listed_for(call) & BIT(result->answer)) == 0)
        found(call, result, "the answer is not listed for this call");
}

static void check_refusal(const struct call *call, const struct made *made, uint8_t fill)
{
    const struct result *result = &made->result;

    if (result->frames != 0 || result->octets != 0 || result->hops != 0 ||
        !are_all(result->next_hop, 6, 0))
        found(call, result, "what stands beside a refusal is not zero");
    if (memcmp(made->table, call->table, call->table_len) != 0)
        found(call, result, "a refusal changed the table");
    if (!are_all(made->output, call->output_len, fill))
        found(call, result, "a refusal changed the output");
}

/* Checks one frame from this place of the output on, and returns the place after it. */
static size_t check_frame(const struct call *call, const struct made *made, size_t at)
{
    const struct result *result = &made->result;
    const uint8_t *receiver = made->output + at;
    size_t element = at + HWMP_ADDRESS_OCTETS;

    if (element + ELEMENT_HEAD_OCTETS > result->octets)
        found(call, result, "the octets written do not hold the frames");
    if (!are_all(receiver, 6, 0xff) && !is_individual(receiver))
        found(call, result, "a receiver is neither all ones nor an individual address");
    return element + ELEMENT_HEAD_OCTETS + made->output[element + 1];
}

static void check_output(const struct call *call, const struct made *made, uint8_t fill)
{
    const struct result *result = &made->result;
    size_t at = 0;

    if (result->octets > HWMP_OUTPUT_OCTETS)
        found(call, result, "more octets were written than all frames of a call may have");
    for (uint32_t i = 0; i < result->frames; i++)
        at = check_frame(call, made, at);
    if (at != result->octets)
        found(call, result, "the octets written do not hold the frames");
    if (!are_all(made->output + at, call->output_len - at, fill))
        found(call, result, "output beyond the frames was changed");
}

/* Ask, announce and root request send one frame to all ones. A break sends any number, to all ones. */
static void check_receivers(const struct call *call, const struct made *made)
{
    const struct result *result = &made->result;

    if (call->entry != RECEIVE && call->entry != BREAK && result->frames != 1)
        found(call, result, "the call did not send one frame");
    if (call->entry != RECEIVE && result->frames != 0 && !are_all(made->output, 6, 0xff))
        found(call, result, "the frame does not go to all neighbours");
}

static void check_requests(const struct call *call, const struct made *made)
{
    const char *wrong = wrong_request(call, made);

    if (wrong != NULL)
        found(call, &made->result, wrong);
}

static void check_walked(const struct call *call, const struct result *result)
{
    if (result->hops > call->number)
        found(call, result, "more hops than points");
    if (result->answer == HWMP_TOO_LONG && result->hops != call->number)
        found(call, result, "42 after fewer hops than points");
}

static void check_next_hop(const struct call *call, const struct result *result)
{
    if (!is_individual(result->next_hop))
        found(call, result, "the next hop is not an individual address");
    if (memcmp(result->next_hop, call->table, 6) == 0)
        found(call, result, "the next hop is the point itself");
}

static void check_accepted(const struct call *call, const struct made *made, uint8_t fill)
{
    if (may_send(call->entry)) {
        check_output(call, made, fill);
        check_receivers(call, made);
        check_requests(call, made);
    }
    if (call->entry == WALK)
        check_walked(call, &made->result);
    if (call->entry == NEXT_HOP)
        check_next_hop(call, &made->result);
}

static struct made make_once(const struct call *call, enum side side, uint8_t fill)
{
    struct made made = make_call(call, side, fill);

    check_answer(call, &made.result);
    if (is_refusal(call, &made.result))
        check_refusal(call, &made, fill);
    else
        check_accepted(call, &made, fill);
    return made;
}

static int are_same(const struct result *a, const struct result *b)
{
    return a->answer == b->answer && a->frames == b->frames && a->octets == b->octets &&
           a->hops == b->hops && memcmp(a->next_hop, b->next_hop, 6) == 0;
}

/* Compares a call with the same call made elsewhere in memory and with another output. */
static void check_repeats(const struct call *call, const struct made *first,
                          const struct made *second)
{
    if (!are_same(&first->result, &second->result))
        found(call, &first->result, "the same call returns something else");
    if (memcmp(first->table, second->table, call->table_len) != 0)
        found(call, &first->result, "the same call leaves another table");
    if (memcmp(first->output, second->output, first->result.octets) != 0)
        found(call, &first->result, "the same call writes other frames");
}

/* Asks for a next hop at the last clock, so that no refusal of the clock hides HWMP_NOT_A_TABLE. */
static void check_stays_a_table(const struct call *call, const struct result *result,
                                const uint8_t *table)
{
    struct call next_hop = {.entry = NEXT_HOP,
                            .table = table,
                            .table_len = call->table_len,
                            .clock = HWMP_MAX_CLOCK,
                            .address = {2, 0, 0, 0, 0, 1}};
    uint32_t answer = make_once(&next_hop, AT_END, FIRST_FILL).result.answer;

    if (answer != HWMP_ACCEPTED && answer != HWMP_NO_NEXT_HOP)
        found(call, result, "an accepted call left no table");
}

static void check_forgotten(const struct call *call, const struct result *result,
                            const uint8_t *table)
{
    struct call again = *call;

    again.table = table;
    if (make_once(&again, AT_END, FIRST_FILL).result.answer != HWMP_NOT_HELD)
        found(call, result, "the row was not forgotten");
}

/* Every element sent must pass the checks up to HWMP_BAD_COUNT at an unrelated point. */
static void check_reads_back(const struct call *call, const struct result *result,
                             const uint8_t *frames)
{
    static uint8_t reader[HWMP_TABLE_OCTETS(2)];
    struct call receive = {.entry = RECEIVE,
                           .table = reader,
                           .table_len = sizeof reader,
                           .output_len = HWMP_OUTPUT_OCTETS,
                           .number = 1,
                           .address = {2, 0, 0, 0, 0xff, 1}};
    const uint8_t *next = frames;

    hwmp_fresh(reader, sizeof reader, (const uint8_t[6]){2, 0, 0, 0, 0xff, 2}, 0);
    for (uint32_t i = 0; i < result->frames; i++) {
        receive.octets = next + HWMP_ADDRESS_OCTETS;
        receive.octets_len = ELEMENT_HEAD_OCTETS + (size_t)receive.octets[1];
        next = receive.octets + receive.octets_len;

        uint32_t answer = make_once(&receive, AT_END, FIRST_FILL).result.answer;
        if (answer >= HWMP_TABLE_LENGTH && answer <= HWMP_BAD_COUNT)
            found(call, result, "another point cannot read a frame that was sent");
    }
}

struct made make_checked(const struct call *call)
{
    static uint8_t table[MOST_TABLES_OCTETS];
    static uint8_t output[MOST_OUTPUT_OCTETS];
    struct made first = make_once(call, AT_END, FIRST_FILL);
    struct made second;

    memcpy(table, first.table, call->table_len);
    memcpy(output, first.output, call->output_len);
    first.table = table;
    first.output = output;
    second = make_once(call, AT_START, SECOND_FILL);
    check_repeats(call, &first, &second);

    if (is_refusal(call, &first.result))
        return first;
    check_reads_back(call, &first.result, output);
    if (writes_table(call->entry))
        check_stays_a_table(call, &first.result, table);
    if (call->entry == FORGET)
        check_forgotten(call, &first.result, table);
    return first;
}
