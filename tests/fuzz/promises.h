/*
 * Checks what include/hwmp.h promises for every call, whatever its operands. The tests in
 * tests/tests compare everything else that a call does to rows and frames with a separate
 * implementation.
 */
#ifndef PROMISES_H
#define PROMISES_H

#include "call.h"

/*
 * Makes the call twice, with the buffers at either side of their pages, and ends the process if a
 * promise is broken. The result is valid until the next call.
 */
struct made make_checked(const struct call *call);

/* Returns the answers that a call may give: bit n for answer n. */
uint64_t listed_answers(enum entry entry);

#endif
