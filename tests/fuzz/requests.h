/*
 * Checks what include/hwmp.h promises about the destinations of requests: their flags, and the
 * mark of a number that is not known.
 */
#ifndef REQUESTS_H
#define REQUESTS_H

#include "call.h"

/* Where a destination of a RREQ has its fields (docs/PROTOCOL.md, 'Elements'). */
enum { DESTINATION_OCTETS = 11 };
enum { FLAGS_AT = 0, ADDRESS_AT = 1, NUMBER_AT = 7 };

/* Returns how many destinations the element has. What is not a whole RREQ has none. */
uint8_t count_destinations(const uint8_t *element, size_t length);

/* Returns where a RREQ has the destination with this number, counted from 0. */
size_t destination_at(uint8_t place);

/*
 * Returns what is wrong with the requests that an accepted call received or sent, or NULL. The
 * frames must fill the octets that the call reports.
 */
const char *wrong_request(const struct call *call, const struct made *made);

#endif
