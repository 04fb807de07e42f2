/* The baseline: the portal book of docs/RULES.md in plain C, with the library's own calls under plain_. */
#ifndef BOOK_H
#define BOOK_H

#include <stddef.h>
#include <stdint.h>

enum answer {
    DONE, BAD_BOOK, BAD_SETUP, NO_DESK, SAME_DESK, NO_PLACE, NOT_YOURS, NO_EVENT, PHASE_FULL,
    MAIL_FULL, SHELF_FULL, SEAT_BEHIND, MAIL_BEHIND, SHELF_BEHIND, BAD_STAMP, NO_ROOM,
    OUT_OF_REACH, BAD_LINE, WRONG_OWNER, BAD_SUMMARY = 21
};

enum relation { BEFORE = 1, AFTER, SAME, CONCURRENT, CROSSED };

enum newest { NEITHER, FIRST, SECOND };

enum {
    BOOK_BYTES = 1456, RECORD_BYTES = 20, ROW_BYTES = 16, STAMP_BYTES = 20, ODDS_BYTES = 2,
    SUMMARY_BYTES = 26, LAGS_AT = 2, LAGS_BYTES = 3,
    SEATS_AT = 16, MAIL_AT = 176, SHELF_AT = 816, LIMIT_AT = 3, ROW_AT = 4,
    SEATS = 8, PLACES = 32, SLOTS = 32, FULL_RING = 256
};

uint8_t plain_start(uint8_t *book, size_t book_len, size_t desks, size_t phases,
                    const size_t *limits, size_t limits_len, size_t seat_lag, size_t shelf_lag,
                    size_t back, size_t ahead);
uint8_t plain_local(uint8_t *book, size_t book_len, size_t desk, size_t keep, uint8_t *stamp,
                    size_t stamp_len, uint8_t *slot, size_t slot_len);
uint8_t plain_send(uint8_t *book, size_t book_len, size_t desk, size_t to, size_t keep,
                   uint8_t *stamp, size_t stamp_len, uint8_t *place, size_t place_len,
                   uint8_t *slot, size_t slot_len);
uint8_t plain_receive(uint8_t *book, size_t book_len, size_t desk, size_t place, size_t keep,
                      uint8_t *stamp, size_t stamp_len, uint8_t *learnt, size_t learnt_len,
                      uint8_t *slot, size_t slot_len);
uint8_t plain_reset(uint8_t *book, size_t book_len, size_t desk, size_t keep, uint8_t *stamp,
                    size_t stamp_len, uint8_t *slot, size_t slot_len);
uint8_t plain_drop(uint8_t *book, size_t book_len, size_t slot);
uint8_t plain_discard(uint8_t *book, size_t book_len, size_t place);
uint8_t plain_office_start(uint8_t *book, size_t book_len, uint8_t *summary, size_t summary_len,
                           size_t desks, size_t phases, const size_t *limits, size_t limits_len,
                           size_t seat_lag, size_t shelf_lag, size_t back, size_t ahead);
uint8_t plain_office_local(uint8_t *book, size_t book_len, uint8_t *summary, size_t summary_len,
                           size_t desk, size_t keep, uint8_t *stamp, size_t stamp_len,
                           uint8_t *slot, size_t slot_len);
uint8_t plain_office_send(uint8_t *book, size_t book_len, uint8_t *summary, size_t summary_len,
                          size_t desk, size_t to, size_t keep, uint8_t *stamp, size_t stamp_len,
                          uint8_t *place, size_t place_len, uint8_t *slot, size_t slot_len);
uint8_t plain_office_receive(uint8_t *book, size_t book_len, uint8_t *summary, size_t summary_len,
                             size_t desk, size_t place, size_t keep, uint8_t *stamp,
                             size_t stamp_len, uint8_t *learnt, size_t learnt_len, uint8_t *slot,
                             size_t slot_len);
uint8_t plain_office_reset(uint8_t *book, size_t book_len, uint8_t *summary, size_t summary_len,
                           size_t desk, size_t keep, uint8_t *stamp, size_t stamp_len,
                           uint8_t *slot, size_t slot_len);
uint8_t plain_office_drop(uint8_t *book, size_t book_len, uint8_t *summary, size_t summary_len,
                          size_t slot);
uint8_t plain_office_discard(uint8_t *book, size_t book_len, uint8_t *summary, size_t summary_len,
                             size_t place);
uint8_t plain_before(const uint8_t *book, size_t book_len, size_t first, size_t second,
                     uint8_t *answer, size_t answer_len);
uint8_t plain_compare(const uint8_t *book, size_t book_len, size_t first, size_t second,
                      uint8_t *answer, size_t answer_len);
uint8_t plain_picture(const uint8_t *book, size_t book_len, const size_t *slots, size_t slots_len,
                      uint8_t *answer, size_t answer_len, uint8_t *odds, size_t odds_len);
uint8_t plain_show(const uint8_t *book, size_t book_len, size_t slot, uint8_t *row, size_t row_len);
uint8_t plain_write(const uint8_t *book, size_t book_len, size_t slot, uint8_t *target,
                    size_t target_len);
uint8_t plain_label_before(size_t desks, size_t phases, const size_t *limits, size_t limits_len,
                           size_t seat_lag, size_t shelf_lag, size_t back, size_t ahead,
                           const uint8_t *first, size_t first_len, const uint8_t *second,
                           size_t second_len, uint8_t *answer, size_t answer_len);
uint8_t plain_label_compare(size_t desks, size_t phases, const size_t *limits, size_t limits_len,
                            size_t seat_lag, size_t shelf_lag, size_t back, size_t ahead,
                            const uint8_t *first, size_t first_len, const uint8_t *second,
                            size_t second_len, uint8_t *answer, size_t answer_len);
uint8_t plain_label_newest(size_t desks, size_t phases, const size_t *limits, size_t limits_len,
                           size_t seat_lag, size_t shelf_lag, size_t back, size_t ahead,
                           const uint8_t *first, size_t first_len, const uint8_t *second,
                           size_t second_len, uint8_t *answer, size_t answer_len);
uint8_t plain_may(size_t desks, size_t phases, const size_t *limits, size_t limits_len,
                  size_t seat_lag, size_t shelf_lag, size_t back, size_t ahead,
                  const uint8_t *summary, size_t summary_len, size_t desk, uint8_t *answer,
                  size_t answer_len);

#endif
