/* Makes the calls of gulambitok.h that standard input asks for, each on memory of its own, and
 * writes what it answered and left. second/raw.py asks.
 *
 * A call is three bytes, its place in the header and how many numbers and buffers it is given; then
 * its numbers; then for each buffer its length, and the bytes lent with GUARD bytes on both sides.
 * Numbers and lengths are 64 bits as x86-64 has them; a list of limits or slots is a buffer of such
 * numbers, at the place of its pointer among the buffers. The answer is its number in one byte, then
 * the bytes of each buffer and its guards. It is flushed, so that a call that ends the program is
 * known. What does not read as a call ends it with 2.
 */
#include "gulambitok.h"

#include <stdio.h>
#include <stdlib.h>

/* The guard is a whole count of numbers, so that a list begins where one may stand. */
enum { GUARD = 24, NUMBERS = 7, BUFFERS = 5 };

struct lent {
    size_t length;
    uint8_t *memory;
};

static void take(void *bytes, size_t count)
{
    if (fread(bytes, 1, count, stdin) != count)
        exit(2);
}

static void take_lent(struct lent *lent)
{
    take(&lent->length, sizeof lent->length);
    lent->memory = malloc(lent->length + 2 * GUARD);
    if (!lent->memory)
        exit(2);
    take(lent->memory, lent->length + 2 * GUARD);
}

#define LENT(i) lent[i].memory + GUARD, lent[i].length
#define LIST(i) (const size_t *)(const void *)(lent[i].memory + GUARD), lent[i].length / sizeof(size_t)
#define SETUP(i) n[0], n[1], LIST(i), n[2], n[3], n[4], n[5]

static uint8_t call(uint8_t place, const size_t *n, const struct lent *lent)
{
    switch (place) {
    case 0: return gulambitok_start(LENT(0), SETUP(1));
    case 1: return gulambitok_local(LENT(0), n[0], n[1], LENT(1), LENT(2));
    case 2: return gulambitok_send(LENT(0), n[0], n[1], n[2], LENT(1), LENT(2), LENT(3));
    case 3: return gulambitok_receive(LENT(0), n[0], n[1], n[2], LENT(1), LENT(2), LENT(3));
    case 4: return gulambitok_reset(LENT(0), n[0], n[1], LENT(1), LENT(2));
    case 5: return gulambitok_drop(LENT(0), n[0]);
    case 6: return gulambitok_discard(LENT(0), n[0]);
    case 7: return gulambitok_before(LENT(0), n[0], n[1], LENT(1));
    case 8: return gulambitok_compare(LENT(0), n[0], n[1], LENT(1));
    case 9: return gulambitok_picture(LENT(0), LIST(1), LENT(2), LENT(3));
    case 10: return gulambitok_show(LENT(0), n[0], LENT(1));
    case 11: return gulambitok_write(LENT(0), n[0], LENT(1));
    case 12: return gulambitok_label_before(SETUP(0), LENT(1), LENT(2), LENT(3));
    case 13: return gulambitok_label_compare(SETUP(0), LENT(1), LENT(2), LENT(3));
    case 14: return gulambitok_label_newest(SETUP(0), LENT(1), LENT(2), LENT(3));
    case 15: return gulambitok_office_start(LENT(0), LENT(1), SETUP(2));
    case 16: return gulambitok_office_local(LENT(0), LENT(1), n[0], n[1], LENT(2), LENT(3));
    case 17: return gulambitok_office_send(LENT(0), LENT(1), n[0], n[1], n[2], LENT(2), LENT(3), LENT(4));
    case 18: return gulambitok_office_receive(LENT(0), LENT(1), n[0], n[1], n[2], LENT(2), LENT(3), LENT(4));
    case 19: return gulambitok_office_reset(LENT(0), LENT(1), n[0], n[1], LENT(2), LENT(3));
    case 20: return gulambitok_office_drop(LENT(0), LENT(1), n[0]);
    case 21: return gulambitok_office_discard(LENT(0), LENT(1), n[0]);
    case 22: return gulambitok_may(SETUP(0), LENT(1), n[6], LENT(2));
    }
    exit(2);
}

static void answer(const uint8_t shape[3])
{
    size_t n[NUMBERS] = {0};
    struct lent lent[BUFFERS] = {{0, NULL}};
    if (shape[1] > NUMBERS || shape[2] > BUFFERS)
        exit(2);
    take(n, shape[1] * sizeof *n);
    for (int i = 0; i < shape[2]; i++)
        take_lent(&lent[i]);
    putchar(call(shape[0], n, lent));
    for (int i = 0; i < shape[2]; i++) {
        fwrite(lent[i].memory, 1, lent[i].length + 2 * GUARD, stdout);
        free(lent[i].memory);
    }
    fflush(stdout);
}

int main(void)
{
    uint8_t shape[3];
    while (fread(shape, sizeof shape, 1, stdin) == 1)
        answer(shape);
    return 0;
}
