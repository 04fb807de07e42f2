/* An ordinary vector clock of eight counts, for the size of one comparison without phases. */
#ifndef VECTORS_H
#define VECTORS_H

#include <stdint.h>

enum { VECTOR_DESKS = 8 };

/* Answers 1 before, 2 after, 3 same or 4 concurrent, as compare does. */
uint8_t vectors_compare(const uint32_t *first, const uint32_t *second);

#endif
