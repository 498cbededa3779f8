#include "figures.h"

#include <inttypes.h>
#include <stdio.h>
#include <stdlib.h>
#include <string.h>

#include "promises.h"

enum { ANSWER_NUMBERS = 64 };

/*
 * libFuzzer keeps an input that sets a counter which no other input set. Counters are only set,
 * not counted up, and tell little apart: the more inputs libFuzzer keeps, the fewer changes of
 * each it tries.
 */
__attribute__((section("__libfuzzer_extra_counters"))) static uint8_t counters[1 << 16];

static uint64_t inputs, seen[ENTRIES][ANSWER_NUMBERS];

/* Whether each call is printed. */
static int is_traced;

enum noted { ANSWERED, SENT, LISTED, WALKED, ROW_CHANGED, ROWS_CHANGED, ROWS_HELD };

static void note(enum noted noted, uint64_t what)
{
    uint64_t mixed = (what * 16 + noted + 1) * UINT64_C(0x9e3779b97f4a7c15);

    counters[mixed >> 48] = 1;
}

/* Tells small counts apart one by one, and larger ones by their magnitude. */
static uint64_t magnitude(uint64_t count)
{
    uint64_t bits = 4;

    if (count < 5)
        return count;
    for (; count > 4; count /= 2)
        bits++;
    return bits;
}

/* Returns a number for the call and, if it receives an element of known type, the element's ID. */
static uint64_t what_is_called(const struct call *call)
{
    int has_id = call->entry == RECEIVE && call->octets_len != 0;
    uint8_t id = has_id ? call->octets[0] : 0;
    int is_known = id == RANN || (id >= RREQ && id <= RERR);

    return (uint64_t)call->entry * 256 + (is_known ? id : 0);
}

/* Returns which fields of a row differ, a bit each (docs/PROTOCOL.md, 'Table'). */
static uint64_t fields_changed(const uint8_t *old, const uint8_t *new)
{
    static const uint8_t widths[] = {1, 1, 1, 1, 6, 6, 4, 4, 8};
    uint64_t changed = 0;
    size_t at = 0;

    for (size_t i = 0; i < sizeof widths; at += widths[i++])
        changed = changed * 2 + (memcmp(old + at, new + at, widths[i]) != 0);
    return changed;
}

static void note_changes(const struct call *call, const uint8_t *table)
{
    uint64_t changed = 0, held = 0;

    for (size_t at = HWMP_HEAD_OCTETS; at < call->table_len; at += HWMP_ROW_OCTETS) {
        const uint8_t *old = call->table + at, *new = table + at;
        uint64_t fields = fields_changed(old, new);

        held += *new != 0;
        if (fields == 0)
            continue;
        changed++;
        note(ROW_CHANGED, ((what_is_called(call) * 512 + fields) * 4 + *old) * 4 + *new);
    }
    note(ROWS_CHANGED, what_is_called(call) * 16 + magnitude(changed));
    note(ROWS_HELD, magnitude(held));
}

static void note_frames(const struct call *call, const struct made *made)
{
    uint64_t kinds = 0;
    size_t at = 0;

    for (uint32_t i = 0; i < made->result.frames; i++) {
        const uint8_t *frame = made->output + at;

        kinds |= UINT64_C(1) << (frame[6] & 7);
        note(SENT, ((what_is_called(call) * 256 + frame[6]) * 2 + (frame[0] & 1)) * 16 +
                       magnitude(frame[7] / 10));
        at += 8 + (size_t)frame[7];
    }
    note(SENT, (what_is_called(call) * 256 + kinds) * 16 + magnitude(made->result.frames));
}

static void note_accepted(const struct call *call, const struct made *made)
{
    note(LISTED, what_is_called(call) * 512 + call->octets_len);
    if (may_send(call->entry))
        note_frames(call, made);
    if (writes_table(call->entry))
        note_changes(call, made->table);
}

static void print_figures(void)
{
    uint64_t calls = 0, pairs = 0, listed = 0, by_number[ANSWER_NUMBERS] = {0};

    for (int entry = 0; entry < ENTRIES; entry++)
        for (int answer = 0; answer < ANSWER_NUMBERS; answer++) {
            calls += seen[entry][answer];
            by_number[answer] += seen[entry][answer];
            pairs += seen[entry][answer] != 0;
            listed += listed_answers((enum entry)entry) >> answer & 1;
        }
    printf("%" PRIu64 " inputs, %" PRIu64 " calls, each made twice\n", inputs, calls);
    printf("%" PRIu64 " of %" PRIu64 " pairs of call and listed answer seen\n", pairs, listed);
    printf("answers by number:");
    for (int answer = 0; answer < ANSWER_NUMBERS; answer++)
        if (by_number[answer] != 0)
            printf(" %d:%" PRIu64, answer, by_number[answer]);
    printf("\n");
}

void note_input(void)
{
    if (inputs++ != 0)
        return;
    atexit(print_figures);
    is_traced = getenv("HWMP_TRACE") != NULL;
}

void note_call(const struct call *call, const struct made *made)
{
    const struct result *result = &made->result;

    if (is_traced)
        fprintf(stderr, "%s: answer %" PRIu32 ", frames %" PRIu32 ", hops %" PRIu32 "\n",
                entry_name(call->entry), result->answer, result->frames, result->hops);
    seen[call->entry][result->answer]++;
    note(ANSWERED, what_is_called(call) * ANSWER_NUMBERS + result->answer);
    if (call->entry == WALK)
        note(WALKED, (result->answer * 32 + magnitude(call->number)) * 32 + result->hops);
    if (result->answer == HWMP_ACCEPTED)
        note_accepted(call, made);
}
