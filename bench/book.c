/* The portal book of docs/RULES.md in plain C: every call checks the whole book first. */
#include "book.h"

#include <string.h>

/* The limits are no part of it: a book has them in its seats, a caller in a list. */
struct setup {
    size_t desks, phases, seat_lag, shelf_lag, back, ahead;
};

/* A kept stamp or a stamp record, once it has been found. */
struct event {
    size_t owner;
    const uint8_t *row;
};

/* One above the last two of eight desks. */
enum { NO_PAIR = SEATS * SEATS };

/* Where no summary stands beside the book, none can be of the wrong length. */
enum { BOOK_ALONE = 1 };

static const uint8_t header_mark[2] = {0x42, 0x4B};
static const uint8_t seat_mark[2] = {0x53, 0x45};
static const uint8_t mail_mark[2] = {0x4D, 0x41};
static const uint8_t shelf_mark[2] = {0x53, 0x48};
static const uint8_t stamp_mark[2] = {0x53, 0x54};
static const uint8_t summary_mark[2] = {0x53, 0x55};

static int in_range(size_t number, size_t low, size_t high)
{
    return low <= number && number <= high;
}

/* The ranges come first: they keep the sums below from coming round. */
static int setup_permitted(const struct setup *s)
{
    return in_range(s->desks, 2, 8) && in_range(s->phases, 3, FULL_RING)
        && in_range(s->seat_lag, 1, 127) && in_range(s->shelf_lag, 1, 255)
        && in_range(s->back, 1, 127) && in_range(s->ahead, 1, 127)
        && s->shelf_lag >= s->seat_lag && s->phases >= 2 * s->seat_lag + 1
        && s->phases >= s->shelf_lag + 1 && s->phases >= s->back + s->ahead;
}

static int limit_permitted(size_t limit)
{
    return in_range(limit, 2, 255);
}

/* One for each desk, and no more. */
static int limits_permitted(const struct setup *s, const size_t *limits, size_t limits_len)
{
    if (limits_len != s->desks)
        return 0;
    for (size_t desk = 0; desk < limits_len; desk++)
        if (!limit_permitted(limits[desk]))
            return 0;
    return 1;
}

/* A byte has no room for 256 phases: 0 stands for them. */
static struct setup setup_of(const uint8_t *book)
{
    size_t phases = book[3] ? book[3] : FULL_RING;
    return (struct setup){book[2], phases, book[5], book[6], book[7], book[8]};
}

static int has_mark(const uint8_t *record, const uint8_t mark[2])
{
    return record[0] == mark[0] && record[1] == mark[1];
}

static int all_zero(const uint8_t *bytes, size_t count)
{
    for (size_t i = 0; i < count; i++)
        if (bytes[i] != 0)
            return 0;
    return 1;
}

/* P is added after the subtraction, where own is below: the sum wraps back. On the book that takes fewer instructions than P first. */
static size_t lag(size_t own, size_t phase, size_t phases)
{
    size_t behind = own - phase;
    if (own < phase)
        behind += phases;
    return behind;
}

/* Of a book or a const book alike, so the place is given as an offset. */
static size_t seat_at(size_t desk)
{
    return SEATS_AT + RECORD_BYTES * desk;
}

static size_t place_at(size_t place)
{
    return MAIL_AT + RECORD_BYTES * place;
}

static size_t slot_at(size_t slot)
{
    return SHELF_AT + RECORD_BYTES * slot;
}

/* The desk's phase as its own seat has it, from which lags are counted. */
static size_t own_phase(const uint8_t *book, size_t desk)
{
    return book[seat_at(desk) + ROW_AT + 2 * desk];
}

/* The desk's limit as its own seat has it: a clock is held to it in whosever row it stands. */
static size_t own_limit(const uint8_t *book, size_t desk)
{
    return book[seat_at(desk) + LIMIT_AT];
}

static int pairs_in_range(const struct setup *s, const size_t *limits, const uint8_t *row)
{
    for (size_t desk = 0; desk < s->desks; desk++)
        if (row[2 * desk] >= s->phases || row[2 * desk + 1] >= limits[desk])
            return 0;
    return all_zero(row + 2 * s->desks, ROW_BYTES - 2 * s->desks);
}

static int row_sound(const uint8_t *book, const struct setup *s, const uint8_t *row, size_t most)
{
    for (size_t desk = 0; desk < s->desks; desk++) {
        size_t phase = row[2 * desk];
        if (phase >= s->phases || row[2 * desk + 1] >= own_limit(book, desk))
            return 0;
        if (lag(own_phase(book, desk), phase, s->phases) > most)
            return 0;
    }
    return all_zero(row + 2 * s->desks, ROW_BYTES - 2 * s->desks);
}

/* A seat not started must have a zero row, and that row's lags count too. */
static int seat_sound(const uint8_t *book, const struct setup *s, size_t desk)
{
    const uint8_t *seat = book + seat_at(desk);
    if (!has_mark(seat, seat_mark) || seat[2] > 1)
        return 0;
    if (seat[2] == 0 && !all_zero(seat + ROW_AT, ROW_BYTES))
        return 0;
    if (desk >= s->desks)
        return seat[2] == 0 && seat[LIMIT_AT] == 0;
    return limit_permitted(seat[LIMIT_AT]) && row_sound(book, s, seat + ROW_AT, s->seat_lag);
}

static int place_sound(const uint8_t *book, const struct setup *s, size_t place)
{
    const uint8_t *mail = book + place_at(place);
    if (!has_mark(mail, mail_mark))
        return 0;
    if (mail[2] == 0)
        return all_zero(mail + 3, RECORD_BYTES - 3);
    return mail[2] <= s->desks && in_range(mail[3], 1, s->desks) && mail[2] != mail[3]
        && row_sound(book, s, mail + ROW_AT, 2 * s->seat_lag);
}

static int slot_sound(const uint8_t *book, const struct setup *s, size_t slot)
{
    const uint8_t *kept = book + slot_at(slot);
    if (!has_mark(kept, shelf_mark))
        return 0;
    if (kept[2] == 0)
        return all_zero(kept + 3, RECORD_BYTES - 3);
    return kept[2] <= s->desks && kept[3] == 0
        && row_sound(book, s, kept + ROW_AT, s->shelf_lag);
}

/* The whole book in one pass; the setup is handed back for the call that follows. */
static int book_sound(const uint8_t *book, size_t book_len, struct setup *s)
{
    if (book_len != BOOK_BYTES || !has_mark(book, header_mark))
        return 0;
    *s = setup_of(book);
    if (!setup_permitted(s) || book[4] != 0 || !all_zero(book + 9, SEATS_AT - 9))
        return 0;
    for (size_t desk = 0; desk < SEATS; desk++)
        if (!seat_sound(book, s, desk))
            return 0;
    for (size_t place = 0; place < PLACES; place++)
        if (!place_sound(book, s, place))
            return 0;
    for (size_t slot = 0; slot < SLOTS; slot++)
        if (!slot_sound(book, s, slot))
            return 0;
    return 1;
}

static int slot_used(const uint8_t *book, size_t slot)
{
    return slot < SLOTS && book[slot_at(slot) + 2] != 0;
}

static int place_used(const uint8_t *book, size_t place)
{
    return place < PLACES && book[place_at(place) + 2] != 0;
}

static size_t lowest_free_place(const uint8_t *book)
{
    size_t place = 0;
    while (place < PLACES && place_used(book, place))
        place++;
    return place;
}

static size_t lowest_free_slot(const uint8_t *book)
{
    size_t slot = 0;
    while (slot < SLOTS && slot_used(book, slot))
        slot++;
    return slot;
}

/* An event that is not kept does not ask about the shelf: for it the first slot is as good as free. */
static size_t slot_for(const uint8_t *book, size_t keep)
{
    return keep ? lowest_free_slot(book) : 0;
}

static int phase_full(const uint8_t *book, size_t desk)
{
    return book[seat_at(desk) + ROW_AT + 2 * desk + 1] == own_limit(book, desk) - 1;
}

/* An event begins: the seat is started from now on, and its own clock grows. */
static void tick(uint8_t *book, size_t desk)
{
    uint8_t *seat = book + seat_at(desk);
    seat[2] = 1;
    seat[ROW_AT + 2 * desk + 1]++;
}

static void put_stamp(uint8_t *stamp, size_t owner, size_t desks, const uint8_t *row)
{
    memcpy(stamp, stamp_mark, sizeof stamp_mark);
    stamp[2] = (uint8_t)owner;
    stamp[3] = (uint8_t)desks;
    memcpy(stamp + ROW_AT, row, ROW_BYTES);
}

static void put_seat_stamp(const uint8_t *book, size_t desk, size_t desks, uint8_t *stamp)
{
    put_stamp(stamp, desk, desks, book + seat_at(desk) + ROW_AT);
}

/* The row that an event left in its seat goes to the slot that was found for it. */
static void keep_row(uint8_t *book, size_t desk, size_t free_slot, uint8_t *slot)
{
    uint8_t *kept = book + slot_at(free_slot);
    kept[2] = (uint8_t)(desk + 1);
    memcpy(kept + ROW_AT, book + seat_at(desk) + ROW_AT, ROW_BYTES);
    *slot = (uint8_t)free_slot;
}

static int event_cramped(size_t stamp_len, size_t keep, size_t slot_len)
{
    return stamp_len < STAMP_BYTES || (keep && slot_len < 1);
}

/* A place or slot becomes free: the mark stays, eighteen zeros follow. */
static void free_record(uint8_t *record)
{
    memset(record + 2, 0, RECORD_BYTES - 2);
}

static void fresh_records(uint8_t *record, size_t count, const uint8_t mark[2])
{
    for (size_t i = 0; i < count; i++) {
        memcpy(record + RECORD_BYTES * i, mark, 2);
        free_record(record + RECORD_BYTES * i);
    }
}

static uint8_t make_start(uint8_t *book, size_t book_len, int summary_fits, size_t desks,
                          size_t phases, const size_t *limits, size_t limits_len, size_t seat_lag,
                          size_t shelf_lag, size_t back, size_t ahead)
{
    struct setup s = {desks, phases, seat_lag, shelf_lag, back, ahead};
    if (book_len != BOOK_BYTES)
        return BAD_BOOK;
    if (!setup_permitted(&s) || !limits_permitted(&s, limits, limits_len))
        return BAD_SETUP;
    if (!summary_fits)
        return BAD_SUMMARY;
    const uint8_t header[SEATS_AT] = {
        header_mark[0], header_mark[1], (uint8_t)desks, (uint8_t)phases, 0,
        (uint8_t)seat_lag, (uint8_t)shelf_lag, (uint8_t)back, (uint8_t)ahead
    };
    memcpy(book, header, sizeof header);
    fresh_records(book + SEATS_AT, SEATS, seat_mark);
    for (size_t desk = 0; desk < desks; desk++)
        book[seat_at(desk) + LIMIT_AT] = (uint8_t)limits[desk];
    fresh_records(book + MAIL_AT, PLACES, mail_mark);
    fresh_records(book + SHELF_AT, SLOTS, shelf_mark);
    return DONE;
}

uint8_t plain_start(uint8_t *book, size_t book_len, size_t desks, size_t phases,
                    const size_t *limits, size_t limits_len, size_t seat_lag, size_t shelf_lag,
                    size_t back, size_t ahead)
{
    return make_start(book, book_len, BOOK_ALONE, desks, phases, limits, limits_len, seat_lag,
                      shelf_lag, back, ahead);
}

static uint8_t make_local(uint8_t *book, size_t book_len, int summary_fits, size_t desk,
                          size_t keep, uint8_t *stamp, size_t stamp_len, uint8_t *slot,
                          size_t slot_len)
{
    struct setup s;
    if (!book_sound(book, book_len, &s))
        return BAD_BOOK;
    if (desk >= s.desks)
        return NO_DESK;
    if (phase_full(book, desk))
        return PHASE_FULL;
    size_t free_slot = slot_for(book, keep);
    if (free_slot == SLOTS)
        return SHELF_FULL;
    if (event_cramped(stamp_len, keep, slot_len))
        return NO_ROOM;
    if (!summary_fits)
        return BAD_SUMMARY;
    tick(book, desk);
    put_seat_stamp(book, desk, s.desks, stamp);
    if (keep)
        keep_row(book, desk, free_slot, slot);
    return DONE;
}

uint8_t plain_local(uint8_t *book, size_t book_len, size_t desk, size_t keep, uint8_t *stamp,
                    size_t stamp_len, uint8_t *slot, size_t slot_len)
{
    return make_local(book, book_len, BOOK_ALONE, desk, keep, stamp, stamp_len, slot, slot_len);
}

static void post(uint8_t *book, size_t place, size_t desk, size_t to)
{
    uint8_t *mail = book + place_at(place);
    mail[2] = (uint8_t)(desk + 1);
    mail[3] = (uint8_t)(to + 1);
    memcpy(mail + ROW_AT, book + seat_at(desk) + ROW_AT, ROW_BYTES);
}

static uint8_t make_send(uint8_t *book, size_t book_len, int summary_fits, size_t desk, size_t to,
                         size_t keep, uint8_t *stamp, size_t stamp_len, uint8_t *place,
                         size_t place_len, uint8_t *slot, size_t slot_len)
{
    struct setup s;
    if (!book_sound(book, book_len, &s))
        return BAD_BOOK;
    if (desk >= s.desks || to >= s.desks)
        return NO_DESK;
    if (desk == to)
        return SAME_DESK;
    if (phase_full(book, desk))
        return PHASE_FULL;
    size_t free_place = lowest_free_place(book);
    if (free_place == PLACES)
        return MAIL_FULL;
    size_t free_slot = slot_for(book, keep);
    if (free_slot == SLOTS)
        return SHELF_FULL;
    if (event_cramped(stamp_len, keep, slot_len) || place_len < 1)
        return NO_ROOM;
    if (!summary_fits)
        return BAD_SUMMARY;
    tick(book, desk);
    post(book, free_place, desk, to);
    put_seat_stamp(book, desk, s.desks, stamp);
    *place = (uint8_t)free_place;
    if (keep)
        keep_row(book, desk, free_slot, slot);
    return DONE;
}

uint8_t plain_send(uint8_t *book, size_t book_len, size_t desk, size_t to, size_t keep,
                   uint8_t *stamp, size_t stamp_len, uint8_t *place, size_t place_len,
                   uint8_t *slot, size_t slot_len)
{
    return make_send(book, book_len, BOOK_ALONE, desk, to, keep, stamp, stamp_len, place, place_len,
                     slot, slot_len);
}

/* How many entries changed. The receiver's own is never merged: it alone counts its own events. */
static uint8_t merge(uint8_t *book, const struct setup *s, size_t desk, const uint8_t *mail_row)
{
    uint8_t *row = book + seat_at(desk) + ROW_AT;
    uint8_t changed = 0;
    for (size_t other = 0; other < s->desks; other++) {
        if (other == desk)
            continue;
        size_t own = own_phase(book, other);
        size_t held_lag = lag(own, row[2 * other], s->phases);
        size_t mail_lag = lag(own, mail_row[2 * other], s->phases);
        if (mail_lag < held_lag
            || (mail_lag == held_lag && mail_row[2 * other + 1] > row[2 * other + 1])) {
            row[2 * other] = mail_row[2 * other];
            row[2 * other + 1] = mail_row[2 * other + 1];
            changed++;
        }
    }
    return changed;
}

static uint8_t make_receive(uint8_t *book, size_t book_len, int summary_fits, size_t desk,
                            size_t place, size_t keep, uint8_t *stamp, size_t stamp_len,
                            uint8_t *learnt, size_t learnt_len, uint8_t *slot, size_t slot_len)
{
    struct setup s;
    if (!book_sound(book, book_len, &s))
        return BAD_BOOK;
    if (desk >= s.desks)
        return NO_DESK;
    if (!place_used(book, place))
        return NO_PLACE;
    uint8_t *mail = book + place_at(place);
    if (mail[3] != desk + 1)
        return NOT_YOURS;
    if (phase_full(book, desk))
        return PHASE_FULL;
    size_t free_slot = slot_for(book, keep);
    if (free_slot == SLOTS)
        return SHELF_FULL;
    if (event_cramped(stamp_len, keep, slot_len) || learnt_len < 1)
        return NO_ROOM;
    if (!summary_fits)
        return BAD_SUMMARY;
    tick(book, desk);
    *learnt = merge(book, &s, desk, mail + ROW_AT);
    free_record(mail);
    put_seat_stamp(book, desk, s.desks, stamp);
    if (keep)
        keep_row(book, desk, free_slot, slot);
    return DONE;
}

uint8_t plain_receive(uint8_t *book, size_t book_len, size_t desk, size_t place, size_t keep,
                      uint8_t *stamp, size_t stamp_len, uint8_t *learnt, size_t learnt_len,
                      uint8_t *slot, size_t slot_len)
{
    return make_receive(book, book_len, BOOK_ALONE, desk, place, keep, stamp, stamp_len, learnt,
                        learnt_len, slot, slot_len);
}

/* A reset is an event too: the seat is started, and begins the next phase of the ring. */
static void turn(uint8_t *book, const struct setup *s, size_t desk)
{
    uint8_t *seat = book + seat_at(desk);
    uint8_t *pair = seat + ROW_AT + 2 * desk;
    seat[2] = 1;
    pair[0] = (uint8_t)((pair[0] + 1) % s->phases);
    pair[1] = 0;
}

/* The row's entry for the desk lags as far as it may, so one more phase is too far. */
static int row_behind(const uint8_t *book, const struct setup *s, const uint8_t *row, size_t desk,
                      size_t most)
{
    return lag(own_phase(book, desk), row[2 * desk], s->phases) == most;
}

/* DONE, or the reason why the desk may not reset. */
static uint8_t reset_behind(const uint8_t *book, const struct setup *s, size_t desk)
{
    for (size_t other = 0; other < s->desks; other++)
        if (other != desk && row_behind(book, s, book + seat_at(other) + ROW_AT, desk, s->seat_lag))
            return SEAT_BEHIND;
    for (size_t place = 0; place < PLACES; place++)
        if (place_used(book, place)
            && row_behind(book, s, book + place_at(place) + ROW_AT, desk, 2 * s->seat_lag))
            return MAIL_BEHIND;
    for (size_t slot = 0; slot < SLOTS; slot++)
        if (slot_used(book, slot)
            && row_behind(book, s, book + slot_at(slot) + ROW_AT, desk, s->shelf_lag))
            return SHELF_BEHIND;
    return DONE;
}

static uint8_t make_reset(uint8_t *book, size_t book_len, int summary_fits, size_t desk,
                          size_t keep, uint8_t *stamp, size_t stamp_len, uint8_t *slot,
                          size_t slot_len)
{
    struct setup s;
    if (!book_sound(book, book_len, &s))
        return BAD_BOOK;
    if (desk >= s.desks)
        return NO_DESK;
    size_t free_slot = slot_for(book, keep);
    if (free_slot == SLOTS)
        return SHELF_FULL;
    uint8_t behind = reset_behind(book, &s, desk);
    if (behind != DONE)
        return behind;
    if (event_cramped(stamp_len, keep, slot_len))
        return NO_ROOM;
    if (!summary_fits)
        return BAD_SUMMARY;
    turn(book, &s, desk);
    put_seat_stamp(book, desk, s.desks, stamp);
    if (keep)
        keep_row(book, desk, free_slot, slot);
    return DONE;
}

uint8_t plain_reset(uint8_t *book, size_t book_len, size_t desk, size_t keep, uint8_t *stamp,
                    size_t stamp_len, uint8_t *slot, size_t slot_len)
{
    return make_reset(book, book_len, BOOK_ALONE, desk, keep, stamp, stamp_len, slot, slot_len);
}

static uint8_t make_drop(uint8_t *book, size_t book_len, int summary_fits, size_t slot)
{
    struct setup s;
    if (!book_sound(book, book_len, &s))
        return BAD_BOOK;
    if (!slot_used(book, slot))
        return NO_PLACE;
    if (!summary_fits)
        return BAD_SUMMARY;
    free_record(book + slot_at(slot));
    return DONE;
}

uint8_t plain_drop(uint8_t *book, size_t book_len, size_t slot)
{
    return make_drop(book, book_len, BOOK_ALONE, slot);
}

static uint8_t make_discard(uint8_t *book, size_t book_len, int summary_fits, size_t place)
{
    struct setup s;
    if (!book_sound(book, book_len, &s))
        return BAD_BOOK;
    if (!place_used(book, place))
        return NO_PLACE;
    if (!summary_fits)
        return BAD_SUMMARY;
    free_record(book + place_at(place));
    return DONE;
}

uint8_t plain_discard(uint8_t *book, size_t book_len, size_t place)
{
    return make_discard(book, book_len, BOOK_ALONE, place);
}

/* The first of a desk's three lags: in seats, then in mail, then in slots. */
static size_t lags_at(size_t desk)
{
    return LAGS_AT + LAGS_BYTES * desk;
}

/* Each desk's lag in the row is noted where it is the largest so far. */
static void note_lags(const uint8_t *book, const struct setup *s, const uint8_t *row, uint8_t *largest)
{
    for (size_t desk = 0; desk < s->desks; desk++) {
        size_t behind = lag(own_phase(book, desk), row[2 * desk], s->phases);
        if (behind > largest[LAGS_BYTES * desk])
            largest[LAGS_BYTES * desk] = (uint8_t)behind;
    }
}

/* A desk's own seat need not be left out: its entry lags 0 there. */
static void put_summary(const uint8_t *book, uint8_t *summary)
{
    struct setup s = setup_of(book);
    uint8_t *lags = summary + LAGS_AT;
    memcpy(summary, summary_mark, sizeof summary_mark);
    memset(lags, 0, SUMMARY_BYTES - LAGS_AT);
    for (size_t desk = 0; desk < s.desks; desk++)
        note_lags(book, &s, book + seat_at(desk) + ROW_AT, lags);
    for (size_t place = 0; place < PLACES; place++)
        if (place_used(book, place))
            note_lags(book, &s, book + place_at(place) + ROW_AT, lags + 1);
    for (size_t slot = 0; slot < SLOTS; slot++)
        if (slot_used(book, slot))
            note_lags(book, &s, book + slot_at(slot) + ROW_AT, lags + 2);
}

/* The summary is made of the book as an accepted change left it. */
static uint8_t summed_up(uint8_t answer, const uint8_t *book, uint8_t *summary)
{
    if (answer == DONE)
        put_summary(book, summary);
    return answer;
}

static int fits(size_t summary_len)
{
    return summary_len == SUMMARY_BYTES;
}

uint8_t plain_office_start(uint8_t *book, size_t book_len, uint8_t *summary, size_t summary_len,
                           size_t desks, size_t phases, const size_t *limits, size_t limits_len,
                           size_t seat_lag, size_t shelf_lag, size_t back, size_t ahead)
{
    uint8_t answer = make_start(book, book_len, fits(summary_len), desks, phases, limits,
                                limits_len, seat_lag, shelf_lag, back, ahead);
    return summed_up(answer, book, summary);
}

uint8_t plain_office_local(uint8_t *book, size_t book_len, uint8_t *summary, size_t summary_len,
                           size_t desk, size_t keep, uint8_t *stamp, size_t stamp_len,
                           uint8_t *slot, size_t slot_len)
{
    uint8_t answer = make_local(book, book_len, fits(summary_len), desk, keep, stamp, stamp_len,
                                slot, slot_len);
    return summed_up(answer, book, summary);
}

uint8_t plain_office_send(uint8_t *book, size_t book_len, uint8_t *summary, size_t summary_len,
                          size_t desk, size_t to, size_t keep, uint8_t *stamp, size_t stamp_len,
                          uint8_t *place, size_t place_len, uint8_t *slot, size_t slot_len)
{
    uint8_t answer = make_send(book, book_len, fits(summary_len), desk, to, keep, stamp, stamp_len,
                               place, place_len, slot, slot_len);
    return summed_up(answer, book, summary);
}

uint8_t plain_office_receive(uint8_t *book, size_t book_len, uint8_t *summary, size_t summary_len,
                             size_t desk, size_t place, size_t keep, uint8_t *stamp,
                             size_t stamp_len, uint8_t *learnt, size_t learnt_len, uint8_t *slot,
                             size_t slot_len)
{
    uint8_t answer = make_receive(book, book_len, fits(summary_len), desk, place, keep, stamp,
                                  stamp_len, learnt, learnt_len, slot, slot_len);
    return summed_up(answer, book, summary);
}

uint8_t plain_office_reset(uint8_t *book, size_t book_len, uint8_t *summary, size_t summary_len,
                           size_t desk, size_t keep, uint8_t *stamp, size_t stamp_len,
                           uint8_t *slot, size_t slot_len)
{
    uint8_t answer = make_reset(book, book_len, fits(summary_len), desk, keep, stamp, stamp_len,
                                slot, slot_len);
    return summed_up(answer, book, summary);
}

uint8_t plain_office_drop(uint8_t *book, size_t book_len, uint8_t *summary, size_t summary_len,
                          size_t slot)
{
    uint8_t answer = make_drop(book, book_len, fits(summary_len), slot);
    return summed_up(answer, book, summary);
}

uint8_t plain_office_discard(uint8_t *book, size_t book_len, uint8_t *summary, size_t summary_len,
                             size_t place)
{
    uint8_t answer = make_discard(book, book_len, fits(summary_len), place);
    return summed_up(answer, book, summary);
}

static struct event kept_event(const uint8_t *book, size_t slot)
{
    const uint8_t *kept = book + slot_at(slot);
    return (struct event){kept[2] - 1u, kept + ROW_AT};
}

/* Both on the shelf: the lag of e's entry minus the lag of f's. */
static int shelf_difference(const uint8_t *book, const struct setup *s, struct event e,
                            struct event f)
{
    size_t own = own_phase(book, e.owner);
    return (int)lag(own, e.row[2 * e.owner], s->phases)
        - (int)lag(own, f.row[2 * e.owner], s->phases);
}

/* Off the book: the step forward round the ring where it is within reach, else the step back. */
static int label_difference(const struct setup *s, struct event e, struct event f)
{
    size_t forward = lag(f.row[2 * e.owner], e.row[2 * e.owner], s->phases);
    return forward < s->ahead ? (int)forward : (int)forward - (int)s->phases;
}

/* A reset, whose own clock is 0, is not before itself: it reaches one phase further back. */
static int within_reach(const struct setup *s, struct event e, int difference)
{
    int no_reset = e.row[2 * e.owner + 1] != 0;
    return difference >= no_reset - (int)s->back && difference < (int)s->ahead;
}

static int is_before(struct event e, struct event f, int difference)
{
    if (difference != 0)
        return difference > 0;
    uint8_t clock = e.row[2 * e.owner + 1], seen = f.row[2 * e.owner + 1];
    return e.owner == f.owner ? seen > clock : seen >= clock;
}

/* One owner, the same phase and neither clock larger: the clocks are equal. */
static uint8_t relation(struct event e, struct event f, int forth, int back)
{
    int before = is_before(e, f, forth), after = is_before(f, e, back);
    if (before && after)
        return CROSSED;
    if (before)
        return BEFORE;
    if (after)
        return AFTER;
    return e.owner == f.owner && forth == 0 ? SAME : CONCURRENT;
}

uint8_t plain_before(const uint8_t *book, size_t book_len, size_t first, size_t second,
                     uint8_t *answer, size_t answer_len)
{
    struct setup s;
    if (!book_sound(book, book_len, &s))
        return BAD_BOOK;
    if (!slot_used(book, first) || !slot_used(book, second))
        return NO_PLACE;
    if (answer_len < 1)
        return NO_ROOM;
    struct event e = kept_event(book, first), f = kept_event(book, second);
    int difference = shelf_difference(book, &s, e, f);
    if (!within_reach(&s, e, difference))
        return OUT_OF_REACH;
    *answer = (uint8_t)is_before(e, f, difference);
    return DONE;
}

uint8_t plain_compare(const uint8_t *book, size_t book_len, size_t first, size_t second,
                      uint8_t *answer, size_t answer_len)
{
    struct setup s;
    if (!book_sound(book, book_len, &s))
        return BAD_BOOK;
    if (!slot_used(book, first) || !slot_used(book, second))
        return NO_PLACE;
    if (answer_len < 1)
        return NO_ROOM;
    struct event e = kept_event(book, first), f = kept_event(book, second);
    int forth = shelf_difference(book, &s, e, f), back = shelf_difference(book, &s, f, e);
    if (!within_reach(&s, e, forth) || !within_reach(&s, f, back))
        return OUT_OF_REACH;
    *answer = relation(e, f, forth, back);
    return DONE;
}

static int picture_named(const uint8_t *book, const struct setup *s, const size_t *slots,
                         size_t slots_len)
{
    if (slots_len != s->desks)
        return 0;
    for (size_t desk = 0; desk < s->desks; desk++)
        if (!slot_used(book, slots[desk]))
            return 0;
    return 1;
}

static int picture_owned(const struct setup *s, const struct event *chosen)
{
    for (size_t desk = 0; desk < s->desks; desk++)
        if (chosen[desk].owner != desk)
            return 0;
    return 1;
}

/* f has seen a later event at e's desk than e itself. */
static int knows_more(struct event e, struct event f, int difference)
{
    return difference > 0
        || (difference == 0 && f.row[2 * e.owner + 1] > e.row[2 * e.owner + 1]);
}

/* Two desks as one number: the lower it is, the lower the first desk, then the second. */
static size_t pair_of(size_t desk, size_t other)
{
    return desk < other ? SEATS * desk + other : SEATS * other + desk;
}

/* Whether every way is within reach, from a stamp to itself too, where the difference is 0. One that is
 * not refuses the call, so the lowest pair at odds, or NO_PAIR, is only noted on the way. */
static int picture_within_reach(const uint8_t *book, const struct setup *s,
                                const struct event *chosen, size_t *odds)
{
    size_t lowest = NO_PAIR;
    for (size_t from = 0; from < s->desks; from++) {
        struct event e = chosen[from];
        size_t own = own_phase(book, e.owner), held = lag(own, e.row[2 * e.owner], s->phases);
        for (size_t to = 0; to < s->desks; to++) {
            struct event f = chosen[to];
            int difference = (int)held - (int)lag(own, f.row[2 * e.owner], s->phases);
            if (!within_reach(s, e, difference))
                return 0;
            if (knows_more(e, f, difference) && pair_of(from, to) < lowest)
                lowest = pair_of(from, to);
        }
    }
    *odds = lowest;
    return 1;
}

uint8_t plain_picture(const uint8_t *book, size_t book_len, const size_t *slots, size_t slots_len,
                      uint8_t *answer, size_t answer_len, uint8_t *odds, size_t odds_len)
{
    struct setup s;
    if (!book_sound(book, book_len, &s))
        return BAD_BOOK;
    if (!picture_named(book, &s, slots, slots_len))
        return NO_PLACE;
    if (answer_len < 1 || odds_len < ODDS_BYTES)
        return NO_ROOM;
    struct event chosen[SEATS];
    for (size_t desk = 0; desk < s.desks; desk++)
        chosen[desk] = kept_event(book, slots[desk]);
    size_t pair;
    if (!picture_within_reach(book, &s, chosen, &pair))
        return OUT_OF_REACH;
    if (!picture_owned(&s, chosen))
        return WRONG_OWNER;
    *answer = pair == NO_PAIR;
    if (pair != NO_PAIR) {
        odds[0] = (uint8_t)(pair / SEATS);
        odds[1] = (uint8_t)(pair % SEATS);
    }
    return DONE;
}

uint8_t plain_show(const uint8_t *book, size_t book_len, size_t slot, uint8_t *row, size_t row_len)
{
    struct setup s;
    if (!book_sound(book, book_len, &s))
        return BAD_BOOK;
    if (!slot_used(book, slot))
        return NO_PLACE;
    if (row_len < ROW_BYTES)
        return NO_ROOM;
    memcpy(row, book + slot_at(slot) + ROW_AT, ROW_BYTES);
    return DONE;
}

uint8_t plain_write(const uint8_t *book, size_t book_len, size_t slot, uint8_t *target,
                    size_t target_len)
{
    struct setup s;
    if (!book_sound(book, book_len, &s))
        return BAD_BOOK;
    if (!slot_used(book, slot))
        return NO_PLACE;
    if (target_len < STAMP_BYTES)
        return NO_ROOM;
    struct event e = kept_event(book, slot);
    put_stamp(target, e.owner, s.desks, e.row);
    return DONE;
}

static int stamp_reads(const struct setup *s, const size_t *limits, const uint8_t *stamp,
                       size_t stamp_len)
{
    return stamp_len == STAMP_BYTES && has_mark(stamp, stamp_mark) && stamp[2] < s->desks
        && stamp[3] == s->desks && pairs_in_range(s, limits, stamp + ROW_AT);
}

/* Two records as they were lent, and the setup and limits that they are to be read under. */
struct labels {
    struct setup setup;
    const size_t *limits;
    const uint8_t *first, *second;
    size_t limits_len, first_len, second_len;
};

/* The reasons that every call off the book shares; DONE where none holds. */
static uint8_t labels_refused(const struct labels *l, size_t answer_len)
{
    if (!setup_permitted(&l->setup) || !limits_permitted(&l->setup, l->limits, l->limits_len))
        return BAD_SETUP;
    if (!stamp_reads(&l->setup, l->limits, l->first, l->first_len)
        || !stamp_reads(&l->setup, l->limits, l->second, l->second_len))
        return BAD_STAMP;
    return answer_len < 1 ? NO_ROOM : DONE;
}

static struct event label_event(const uint8_t *stamp)
{
    return (struct event){stamp[2], stamp + ROW_AT};
}

static uint8_t labels_before(const struct labels *l, uint8_t *answer, size_t answer_len)
{
    uint8_t refused = labels_refused(l, answer_len);
    if (refused != DONE)
        return refused;
    struct event e = label_event(l->first), f = label_event(l->second);
    int difference = label_difference(&l->setup, e, f);
    if (!within_reach(&l->setup, e, difference))
        return OUT_OF_REACH;
    *answer = (uint8_t)is_before(e, f, difference);
    return DONE;
}

static uint8_t labels_compare(const struct labels *l, uint8_t *answer, size_t answer_len)
{
    uint8_t refused = labels_refused(l, answer_len);
    if (refused != DONE)
        return refused;
    struct event e = label_event(l->first), f = label_event(l->second);
    int forth = label_difference(&l->setup, e, f), back = label_difference(&l->setup, f, e);
    if (!within_reach(&l->setup, e, forth) || !within_reach(&l->setup, f, back))
        return OUT_OF_REACH;
    *answer = relation(e, f, forth, back);
    return DONE;
}

uint8_t plain_label_before(size_t desks, size_t phases, const size_t *limits, size_t limits_len,
                           size_t seat_lag, size_t shelf_lag, size_t back, size_t ahead,
                           const uint8_t *first, size_t first_len, const uint8_t *second,
                           size_t second_len, uint8_t *answer, size_t answer_len)
{
    struct labels l = {{desks, phases, seat_lag, shelf_lag, back, ahead}, limits, first, second,
                       limits_len, first_len, second_len};
    return labels_before(&l, answer, answer_len);
}

uint8_t plain_label_compare(size_t desks, size_t phases, const size_t *limits, size_t limits_len,
                            size_t seat_lag, size_t shelf_lag, size_t back, size_t ahead,
                            const uint8_t *first, size_t first_len, const uint8_t *second,
                            size_t second_len, uint8_t *answer, size_t answer_len)
{
    struct labels l = {{desks, phases, seat_lag, shelf_lag, back, ahead}, limits, first, second,
                       limits_len, first_len, second_len};
    return labels_compare(&l, answer, answer_len);
}

uint8_t plain_label_newest(size_t desks, size_t phases, const size_t *limits, size_t limits_len,
                           size_t seat_lag, size_t shelf_lag, size_t back, size_t ahead,
                           const uint8_t *first, size_t first_len, const uint8_t *second,
                           size_t second_len, uint8_t *answer, size_t answer_len)
{
    struct labels l = {{desks, phases, seat_lag, shelf_lag, back, ahead}, limits, first, second,
                       limits_len, first_len, second_len};
    uint8_t found, refused = labels_compare(&l, &found, answer_len);
    if (refused != DONE)
        return refused;
    if (found == AFTER || found == SAME)
        *answer = FIRST;
    else
        *answer = found == BEFORE ? SECOND : NEITHER;
    return DONE;
}

/* All 24 lags are held to their bounds, those of desks that are not there too. */
static int summary_reads(const struct setup *s, const uint8_t *summary, size_t summary_len)
{
    if (!fits(summary_len) || !has_mark(summary, summary_mark))
        return 0;
    for (size_t desk = 0; desk < SEATS; desk++) {
        const uint8_t *lags = summary + lags_at(desk);
        if (lags[0] > s->seat_lag || lags[1] > 2 * s->seat_lag || lags[2] > s->shelf_lag)
            return 0;
    }
    return 1;
}

/* What a reset would be answered: the largest lag tells whether any is as large as it may be. */
static uint8_t reset_foretold(const struct setup *s, const uint8_t *lags)
{
    if (lags[0] == s->seat_lag)
        return SEAT_BEHIND;
    if (lags[1] == 2 * s->seat_lag)
        return MAIL_BEHIND;
    return lags[2] == s->shelf_lag ? SHELF_BEHIND : DONE;
}

uint8_t plain_may(size_t desks, size_t phases, const size_t *limits, size_t limits_len,
                  size_t seat_lag, size_t shelf_lag, size_t back, size_t ahead,
                  const uint8_t *summary, size_t summary_len, size_t desk, uint8_t *answer,
                  size_t answer_len)
{
    struct setup s = {desks, phases, seat_lag, shelf_lag, back, ahead};
    if (!setup_permitted(&s) || !limits_permitted(&s, limits, limits_len))
        return BAD_SETUP;
    if (desk >= desks)
        return NO_DESK;
    if (answer_len < 1)
        return NO_ROOM;
    if (!summary_reads(&s, summary, summary_len))
        return BAD_SUMMARY;
    *answer = reset_foretold(&s, summary + lags_at(desk));
    return DONE;
}
