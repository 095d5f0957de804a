/* What a recording function says of a call, in this order; record.c defines these.
 * Assumes the header alone. */
#ifndef RECORD_H
#define RECORD_H

#include "oatcastle.h"

void record_call(unsigned place);
void record_number(uint64_t value);
void record_lent(unsigned slot, const void *at, uint64_t count, unsigned size, int counted);
void record_answered(uint32_t number);
void record_left(unsigned slot, const void *at, uint64_t size, int read_alone);

#endif
