/* The session of examples/session.in, made from C and printed as the listing prints it. */
#include "gulambitok.h"

#include <stdio.h>

enum { DESKS = 2 };

static uint8_t book[GULAMBITOK_BOOK_BYTES];
static uint8_t stamp[GULAMBITOK_STAMP_BYTES];

/* One for each desk. */
static const size_t limits[DESKS] = {3, 3};

static const char *const relations[] = {
    [GULAMBITOK_BEFORE] = "before", [GULAMBITOK_AFTER] = "after", [GULAMBITOK_SAME] = "same",
    [GULAMBITOK_CONCURRENT] = "concurrent", [GULAMBITOK_CROSSED] = "crossed"
};

/* The number comes first: on a refusal nothing else was written. */
static int done(uint8_t answer)
{
    printf("%03d", answer);
    return answer == GULAMBITOK_DONE;
}

/* Only a send has a place, only a receive what it learnt, and only a kept event a slot. */
static void print_event(uint8_t answer, const uint8_t *place, const uint8_t *learnt, const uint8_t *slot)
{
    if (done(answer)) {
        if (place)
            printf(" %03d", *place);
        printf(" %03d", stamp[GULAMBITOK_STAMP_OWNER_AT]);
        for (int desk = 0; desk < stamp[GULAMBITOK_STAMP_DESKS_AT]; desk++) {
            const uint8_t *pair = stamp + GULAMBITOK_STAMP_ROW_AT + 2 * desk;
            printf(" %03d.%03d", pair[0], pair[1]);
        }
        if (learnt)
            printf(" %03d", *learnt);
        if (slot)
            printf(" %03d", *slot);
    }
    puts("");
}

int main(void)
{
    uint8_t place = 0, learnt = 0, first = 0, second = 0, relation = 0;

    done(gulambitok_start(book, sizeof book, DESKS, 3, limits, DESKS, 1, 1, 1, 1));
    puts("");
    print_event(gulambitok_local(book, sizeof book, 0, 1, stamp, sizeof stamp, &first, 1),
                NULL, NULL, &first);
    print_event(gulambitok_send(book, sizeof book, 0, 1, 0, stamp, sizeof stamp, &place, 1, NULL, 0),
                &place, NULL, NULL);
    print_event(gulambitok_receive(book, sizeof book, 1, place, 1, stamp, sizeof stamp, &learnt, 1,
                                   &second, 1),
                NULL, &learnt, &second);
    if (done(gulambitok_compare(book, sizeof book, first, second, &relation, 1)))
        printf(" %s", relations[relation]);
    puts("");
    for (int turn = 0; turn < 2; turn++)
        print_event(gulambitok_reset(book, sizeof book, 0, 0, stamp, sizeof stamp, NULL, 0),
                    NULL, NULL, NULL);
    return 0;
}
