#include "input.h"

#include <string.h>

uint8_t take_octet(struct input *input)
{
    return input->next == input->end ? 0 : *input->next++;
}

void take_octets(struct input *input, uint8_t *octets, size_t count)
{
    for (size_t i = 0; i < count; i++)
        octets[i] = take_octet(input);
}

uint64_t take_plain(struct input *input, size_t octets)
{
    uint64_t number = 0;

    for (size_t i = 0; i < octets; i++)
        number |= (uint64_t)take_octet(input) << 8 * i;
    return number;
}

uint32_t take_number(struct input *input)
{
    uint8_t chosen = take_octet(input);

    if (chosen < 224)
        return chosen;
    if (chosen < 240)
        return UINT32_C(0x80000000) - 8 + (chosen - 224);
    if (chosen < 248)
        return UINT32_MAX - 7 + (chosen - 240);
    return (uint32_t)take_plain(input, 4);
}

struct input take_step(struct input *input)
{
    size_t length = take_plain(input, STEP_HEAD_OCTETS) % (MOST_STEP_OCTETS + 1);
    size_t left = (size_t)(input->end - input->next);
    struct input step = {.next = input->next};

    input->next += length < left ? length : left;
    step.end = input->next;
    return step;
}

static void put_address(uint8_t address[6], uint8_t first, uint8_t second, uint8_t last)
{
    const uint8_t octets[6] = {first, second, 0, 0, 0, last};

    memcpy(address, octets, sizeof octets);
}

static void make_up_address(struct input *input, uint8_t address[6])
{
    const uint8_t octets[6] = {2, 0, 0, 0, 1, input->made_up++};

    memcpy(address, octets, sizeof octets);
}

void take_address(struct input *input, uint8_t address[6])
{
    uint8_t chosen;

    if (input->next == input->end) {
        make_up_address(input, address);
        return;
    }
    chosen = take_octet(input);
    if (chosen < 192)
        put_address(address, 2, 0, chosen);
    else if (chosen == 192)
        memset(address, 0xff, 6);
    else if (chosen == 193)
        memset(address, 0, 6);
    else if (chosen == 194)
        put_address(address, 1, 0, 1);
    else if (chosen >= 208 && chosen < 224)
        put_address(address, (2 + 2042) & 0xff, (2 + 2042) >> 8, chosen - 208);
    else if (chosen == 255)
        take_octets(input, address, 6);
    else
        put_address(address, 2, 0, chosen & 15);
}

static size_t put_number(uint8_t *octets, uint32_t number)
{
    for (size_t i = 0; i < 4; i++)
        octets[i] = (uint8_t)(number >> 8 * i);
    return 4;
}

static size_t take_field(struct input *input, char field, uint8_t *octets)
{
    switch (field) {
    case 'A':
        take_address(input, octets);
        return 6;
    case 'n':
        return put_number(octets, take_number(input));
    case 'e':
        put_number(octets, take_number(input));
        return 4 + put_number(octets + 4, 0);
    case 'o':
        *octets = take_octet(input);
        return 1;
    default:
        *octets = 0;
        return 1;
    }
}

size_t take_fields(struct input *input, const char *fields, uint8_t *octets)
{
    size_t taken = 0;

    for (const char *field = fields; *field != '\0'; field++)
        taken += take_field(input, *field, octets + taken);
    return taken;
}
