#include "vectors.h"

#include "book.h"

uint8_t vectors_compare(const uint32_t *first, const uint32_t *second)
{
    int smaller = 0, larger = 0;
    for (int desk = 0; desk < VECTOR_DESKS; desk++) {
        if (first[desk] < second[desk])
            smaller = 1;
        if (first[desk] > second[desk])
            larger = 1;
    }
    if (smaller)
        return larger ? CONCURRENT : BEFORE;
    return larger ? AFTER : SAME;
}
