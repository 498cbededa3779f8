#include "requests.h"

#include <string.h>

/* Where a RREQ has its count, and its destinations after it. */
enum { COUNT_AT = 27, LIST_AT = 28 };

/* Where a row has its fields. */
enum { STATUS_AT = 0, KNOWN_AT = 1, ROW_DESTINATION_AT = 4, ROW_NUMBER_AT = 16 };

static uint32_t number_at(const uint8_t *octets)
{
    return octets[0] | (uint32_t)octets[1] << 8 | (uint32_t)octets[2] << 16 |
           (uint32_t)octets[3] << 24;
}

static int is_marked(const uint8_t *destination)
{
    return (destination[FLAGS_AT] & HWMP_NUMBER_UNKNOWN) != 0;
}

uint8_t count_destinations(const uint8_t *element, size_t length)
{
    if (length < LIST_AT || element[0] != RREQ)
        return 0;
    return length == destination_at(element[COUNT_AT]) ? element[COUNT_AT] : 0;
}

size_t destination_at(uint8_t place)
{
    return LIST_AT + (size_t)place * DESTINATION_OCTETS;
}

/* Returns the destination with this address among those of an element, or NULL. */
static const uint8_t *find(const uint8_t *element, size_t length, const uint8_t address[6])
{
    uint8_t count = count_destinations(element, length);

    for (uint8_t i = 0; i < count; i++)
        if (memcmp(element + destination_at(i) + ADDRESS_AT, address, 6) == 0)
            return element + destination_at(i);
    return NULL;
}

static int has_marked_number(const uint8_t *element, size_t length)
{
    uint8_t count = count_destinations(element, length);

    for (uint8_t i = 0; i < count; i++) {
        const uint8_t *destination = element + destination_at(i);

        if (is_marked(destination) && number_at(destination + NUMBER_AT) != 0)
            return 1;
    }
    return 0;
}

/* Returns the row for this address if its number is known, otherwise NULL. */
static const uint8_t *known_row(const struct call *call, const uint8_t address[6])
{
    for (size_t at = HWMP_HEAD_OCTETS; at < call->table_len; at += HWMP_ROW_OCTETS) {
        const uint8_t *row = call->table + at;

        if (row[STATUS_AT] != 0 && row[KNOWN_AT] != 0 &&
            memcmp(row + ROW_DESTINATION_AT, address, 6) == 0)
            return row;
    }
    return NULL;
}

/* The destination has what its item says, and the number of the row or the mark. */
static int is_asked_right(const struct call *call, const uint8_t *destination, uint8_t place)
{
    const uint8_t *item = call->octets + (size_t)place * HWMP_ITEM_OCTETS;
    const uint8_t *row = known_row(call, item + HWMP_ITEM_ADDRESS_AT);
    uint8_t flags = item[HWMP_ITEM_FLAGS_AT] | (row == NULL ? HWMP_NUMBER_UNKNOWN : 0);
    uint32_t number = row == NULL ? 0 : number_at(row + ROW_NUMBER_AT);

    return destination[FLAGS_AT] == flags &&
           memcmp(destination + ADDRESS_AT, item + HWMP_ITEM_ADDRESS_AT, 6) == 0 &&
           number_at(destination + NUMBER_AT) == number;
}

static int is_for_everyone(const uint8_t *destination)
{
    static const uint8_t everyone[DESTINATION_OCTETS] = {
        HWMP_ITEM_DO | HWMP_ITEM_RF | HWMP_NUMBER_UNKNOWN, 0xff, 0xff, 0xff, 0xff, 0xff, 0xff};

    return memcmp(destination, everyone, sizeof everyone) == 0;
}

/* A forwarded destination is as it was received, unless the point sets DO. */
static int is_forwarded_right(const struct call *call, const uint8_t *destination)
{
    const uint8_t *received = find(call->octets, call->octets_len, destination + ADDRESS_AT);

    if (received == NULL)
        return 0;
    return (destination[FLAGS_AT] == received[FLAGS_AT] ||
            destination[FLAGS_AT] == (received[FLAGS_AT] | HWMP_ITEM_DO)) &&
           memcmp(destination + NUMBER_AT, received + NUMBER_AT, 4) == 0;
}

static const char *wrong_destination(const struct call *call, const uint8_t *destination,
                                     uint8_t place)
{
    if (call->entry == ASK && !is_asked_right(call, destination, place))
        return "an ask has other flags or numbers than its items and its rows";
    if (call->entry == ROOT_REQUEST && !is_for_everyone(destination))
        return "a root request does not ask for all ones without a number";
    if (call->entry == RECEIVE && !is_forwarded_right(call, destination))
        return "a destination was forwarded with other flags or another number";
    return NULL;
}

static const char *wrong_sent(const struct call *call, const uint8_t *element, size_t length)
{
    uint8_t count = count_destinations(element, length);

    if (has_marked_number(element, length))
        return "a marked number was sent";
    for (uint8_t i = 0; i < count; i++) {
        const char *wrong = wrong_destination(call, element + destination_at(i), i);

        if (wrong != NULL)
            return wrong;
    }
    return NULL;
}

static const char *wrong_received(const struct call *call, const uint8_t *table)
{
    const uint8_t *own = find(call->octets, call->octets_len, table + HWMP_OWN_ADDRESS_AT);
    uint32_t before = number_at(call->table + HWMP_OWN_NUMBER_AT);
    uint32_t after = number_at(table + HWMP_OWN_NUMBER_AT);

    if (has_marked_number(call->octets, call->octets_len))
        return "a marked number was accepted";
    if (own != NULL && is_marked(own) && after != before + 1)
        return "a marked 0 did more to the own number than a step";
    return NULL;
}

const char *wrong_request(const struct call *call, const struct made *made)
{
    const char *wrong = call->entry == RECEIVE ? wrong_received(call, made->table) : NULL;
    const uint8_t *frame = made->output;

    for (uint32_t i = 0; i < made->result.frames && wrong == NULL; i++) {
        wrong = wrong_sent(call, frame + HWMP_FRAME_ELEMENT_AT,
                           HWMP_FRAME_OCTETS(frame) - HWMP_FRAME_ELEMENT_AT);
        frame += HWMP_FRAME_OCTETS(frame);
    }
    return wrong;
}
