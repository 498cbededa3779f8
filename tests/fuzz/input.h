/*
 * The octets of an input. An input is steps, each with its length before it in two octets, lowest
 * first. The octets of a step are taken as operands. Beyond its end every octet is 0, and every
 * address is a new one: 02:00:00:00:01 and an octet that counts up. A list may therefore have any
 * count.
 *
 * An address is given by an octet:
 * - below 192: 02:00:00:00:00 and that octet, which for 0 to 15 is the address of a point;
 * - 192: all ones; 193: all zero; 194: a group address;
 * - 208 to 223: an address that shares its mark with point 0 to 15, where marks show destinations
 *   that stand twice (its number is 2042 higher, which changes no bit that the mark is made of);
 * - 255: the six octets that follow;
 * - others: the address of a point by the lowest four bits.
 *
 * A number is an octet below 224. 224 to 239 stand for numbers about 2^31, 240 to 247 for the last
 * ones below 2^32. Others stand for the four octets that follow, lowest first.
 */
#ifndef INPUT_H
#define INPUT_H

#include <stddef.h>
#include <stdint.h>

enum { MOST_STEPS = 64, STEP_HEAD_OCTETS = 2, MOST_STEP_OCTETS = 600 };

struct input {
    const uint8_t *next;
    const uint8_t *end;
    uint8_t made_up; /* how many addresses were made up beyond the end */
};

/* Returns the next step, or as much of it as there is. */
struct input take_step(struct input *input);

uint8_t take_octet(struct input *input);
uint32_t take_number(struct input *input);
void take_address(struct input *input, uint8_t address[6]);

/* Takes `count` octets as they are. */
void take_octets(struct input *input, uint8_t *octets, size_t count);

/* Takes that many octets as a number, lowest first. */
uint64_t take_plain(struct input *input, size_t octets);

/*
 * Takes fields of an element or a table and writes them one after another: o an octet, A an
 * address, n a number, e a number in eight octets, 0 a zero octet. Returns how many octets it wrote.
 */
size_t take_fields(struct input *input, const char *fields, uint8_t *octets);

#endif
