/*
 * What was seen: figures for the reader, and counters by which the fuzzer tells inputs apart.
 * The archive is not instrumented, so only answers and changes can guide the fuzzer.
 */
#ifndef FIGURES_H
#define FIGURES_H

#include "call.h"

void note_input(void);

void note_call(const struct call *call, const struct made *made);

#endif
