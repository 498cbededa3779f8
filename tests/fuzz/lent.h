/*
 * Octets lent right next to memory that may not be touched. A call that reads or writes beyond
 * the octets ends the run with a signal instead of going unseen.
 */
#ifndef LENT_H
#define LENT_H

#include <stddef.h>
#include <stdint.h>

/* Which end of the lent octets touches the untouchable memory. */
enum side { AT_START, AT_END };

/*
 * The same pages at two places. The harness writes to `ours`. The library gets `theirs`, which
 * lies between two untouchable spans. Pages that are read-only for the library therefore need no
 * change of protection for each call.
 */
struct lent {
    uint8_t *ours;
    uint8_t *theirs;
    size_t room;
};

/* Makes room for that many octets, which the library may only read, or read and write. */
struct lent lent_to_read(size_t octets);
struct lent lent_to_write(size_t octets);

/* Copies the octets into the room and returns the place at which the library sees them. */
uint8_t *lend(const struct lent *lent, enum side side, const uint8_t *octets, size_t count);

#endif
