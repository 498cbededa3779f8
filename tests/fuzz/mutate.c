/*
 * How libFuzzer changes an input: step by step (input.h), so that a change of one step leaves the
 * steps after it as they are.
 */
#include <string.h>

#include "input.h"

size_t LLVMFuzzerMutate(uint8_t *octets, size_t count, size_t most);
size_t LLVMFuzzerCustomMutator(uint8_t *octets, size_t count, size_t most, unsigned int seed);
size_t LLVMFuzzerCustomCrossOver(const uint8_t *first, size_t first_count, const uint8_t *second,
                                 size_t second_count, uint8_t *crossed, size_t most,
                                 unsigned int seed);

/* Where each step begins and, as one more place, where the last one ends. */
struct places {
    size_t at[MOST_STEPS + 1];
    size_t steps;
};

static struct places find_steps(const uint8_t *octets, size_t count)
{
    struct input input = {.next = octets, .end = octets + count};
    struct places places = {.steps = 0};

    while (places.steps < MOST_STEPS && input.next != input.end) {
        places.at[places.steps++] = (size_t)(input.next - octets);
        take_step(&input);
    }
    places.at[places.steps] = (size_t)(input.next - octets);
    return places;
}

/* Returns a number below the limit and advances the seed. */
static size_t choose(unsigned int *seed, size_t limit)
{
    *seed = *seed * 1664525 + 1013904223;
    return (*seed >> 8) % limit;
}

struct change {
    size_t from, to; /* the octets that are replaced */
    uint8_t octets[STEP_HEAD_OCTETS + MOST_STEP_OCTETS];
    size_t count;
};

static size_t apply(const struct change *change, uint8_t *octets, size_t count, size_t most)
{
    size_t changed = count - (change->to - change->from) + change->count;

    if (changed > most)
        return count;
    memmove(octets + change->from + change->count, octets + change->to, count - change->to);
    memcpy(octets + change->from, change->octets, change->count);
    return changed;
}

/* Lets libFuzzer change the step without its length, and then sets the length. */
static void change_step(struct change *change)
{
    uint8_t *operands = change->octets + STEP_HEAD_OCTETS;
    size_t count = change->count < STEP_HEAD_OCTETS ? 0 : change->count - STEP_HEAD_OCTETS;
    size_t changed = LLVMFuzzerMutate(operands, count, MOST_STEP_OCTETS);

    change->octets[0] = (uint8_t)changed;
    change->octets[1] = (uint8_t)(changed >> 8);
    change->count = STEP_HEAD_OCTETS + changed;
}

/* Sets one of the first operands to a small number: points, counts, types and flags stand there. */
static void set_operand(struct change *change, unsigned int *seed)
{
    size_t operands = change->count < STEP_HEAD_OCTETS ? 0 : change->count - STEP_HEAD_OCTETS;
    size_t first = operands < 16 ? operands : 16;

    if (first != 0)
        change->octets[STEP_HEAD_OCTETS + choose(seed, first)] = (uint8_t)choose(seed, 32);
}

size_t LLVMFuzzerCustomMutator(uint8_t *octets, size_t count, size_t most, unsigned int seed)
{
    struct places places = find_steps(octets, count);
    struct change change;
    size_t step;

    if (places.steps == 0)
        return LLVMFuzzerMutate(octets, count, most);
    step = choose(&seed, places.steps);
    change.from = places.at[step];
    change.to = places.at[step + 1];
    change.count = change.to - change.from;
    memcpy(change.octets, octets + change.from, change.count);
    switch (choose(&seed, 8)) {
    case 0: /* leave the step out */
        change.count = 0;
        break;
    case 1: /* play it a second time, somewhere */
        change.from = change.to = places.at[choose(&seed, places.steps + 1)];
        break;
    case 2:
    case 3:
    case 4:
        set_operand(&change, &seed);
        break;
    default:
        change_step(&change);
    }
    return apply(&change, octets, count, most);
}

/* Joins the first steps of one input and the last steps of another. */
size_t LLVMFuzzerCustomCrossOver(const uint8_t *first, size_t first_count, const uint8_t *second,
                                 size_t second_count, uint8_t *crossed, size_t most,
                                 unsigned int seed)
{
    struct places before = find_steps(first, first_count);
    struct places behind = find_steps(second, second_count);
    size_t kept = before.at[choose(&seed, before.steps + 1)];
    size_t from = behind.at[choose(&seed, behind.steps + 1)];
    size_t added = second_count - from;

    if (kept + added > most)
        added = 0;
    if (kept > most)
        kept = most;
    memcpy(crossed, first, kept);
    memcpy(crossed + kept, second + from, added);
    return kept + added;
}
