/* Gulambitok: the portal book of two to eight desks, and the stamps it gives.
 *
 * Each call answers a number: 0 is done, any other is the refusal of that number below. When
 * several refusals apply the smallest is given. A refused call changes no byte of the book or of
 * any other buffer it was lent; a call that is done fills the bytes it says and no more.
 *
 * The caller need check nothing beforehand: a book may hold any bytes, a list may have any length,
 * and numbers of a setup and of desks, places and slots may be any. Two things no call can check, and
 * the caller owes them: a length is the number of bytes truly lent, or of limits or slots in a list
 * (0 may go with a null pointer), and a buffer that a call writes overlaps no other buffer and no list
 * of that call and is used by nobody else until it returns.
 *
 * The buffers stay the caller's: no call keeps a pointer, allocates or remembers anything.
 */
#ifndef GULAMBITOK_H
#define GULAMBITOK_H

#include <stddef.h>
#include <stdint.h>

#ifdef __cplusplus
extern "C" {
#endif

/* The answer numbers. */
enum {
    GULAMBITOK_DONE = 0,
    GULAMBITOK_BAD_BOOK = 1,      /* book not sound; for start, only the length counts */
    GULAMBITOK_BAD_SETUP = 2,     /* a setup number, limit or inequality fails; not D limits */
    GULAMBITOK_NO_DESK = 3,       /* a desk number is D or more */
    GULAMBITOK_SAME_DESK = 4,     /* send to oneself */
    GULAMBITOK_NO_PLACE = 5,      /* place or slot above 31, or free; for picture, not D slots */
    GULAMBITOK_NOT_YOURS = 6,     /* mail addressed to another desk */
    GULAMBITOK_NO_EVENT = 7,      /* never given */
    GULAMBITOK_PHASE_FULL = 8,    /* local, send or receive; the own clock is the desk's limit less 1 */
    GULAMBITOK_MAIL_FULL = 9,     /* send with no free place */
    GULAMBITOK_SHELF_FULL = 10,   /* a kept event with no free slot */
    GULAMBITOK_SEAT_BEHIND = 11,  /* reset; the entry for the desk lags M in another seat */
    GULAMBITOK_MAIL_BEHIND = 12,  /* reset; the entry for the desk lags 2M in a waiting row */
    GULAMBITOK_SHELF_BEHIND = 13, /* reset; the entry for the desk lags A in a kept row */
    GULAMBITOK_BAD_STAMP = 14,    /* a stamp record does not read */
    GULAMBITOK_NO_ROOM = 15,      /* a buffer is too short for what the call would write there */
    GULAMBITOK_OUT_OF_REACH = 16, /* comparison or picture beyond reach */
    GULAMBITOK_BAD_LINE = 17,     /* the program desks only */
    GULAMBITOK_WRONG_OWNER = 18,  /* picture; the slot given for a desk holds another desk's stamp */
    GULAMBITOK_BAD_SUMMARY = 21   /* a summary's length; for may, also its mark or a lag beyond its bound */
};

/* What compare writes. */
enum {
    GULAMBITOK_BEFORE = 1,
    GULAMBITOK_AFTER = 2,
    GULAMBITOK_SAME = 3,
    GULAMBITOK_CONCURRENT = 4,
    GULAMBITOK_CROSSED = 5
};

/* What newest writes. */
enum {
    GULAMBITOK_NEITHER = 0,
    GULAMBITOK_FIRST = 1,
    GULAMBITOK_SECOND = 2
};

/* Sizes in bytes, and how many of each there are. */
enum {
    GULAMBITOK_BOOK_BYTES = 1456,
    GULAMBITOK_HEADER_BYTES = 16,
    GULAMBITOK_RECORD_BYTES = 20, /* a seat, a mail place or a shelf slot */
    GULAMBITOK_ROW_BYTES = 16,    /* for each of eight desks its phase, then its clock */
    GULAMBITOK_STAMP_BYTES = 20,
    GULAMBITOK_ODDS_BYTES = 2,    /* the two desks that picture finds at odds */
    GULAMBITOK_SUMMARY_BYTES = 26,
    GULAMBITOK_SUMMARY_DESK_BYTES = 3, /* the lags of one desk */
    GULAMBITOK_SEATS = 8,
    GULAMBITOK_PLACES = 32,
    GULAMBITOK_SLOTS = 32,
    GULAMBITOK_FULL_RING = 256    /* phases, where each has its whole byte */
};

/* Offsets in the book. */
enum {
    GULAMBITOK_HEADER_AT = 0,
    GULAMBITOK_SEATS_AT = 16,
    GULAMBITOK_MAIL_AT = 176,
    GULAMBITOK_SHELF_AT = 816
};

/* Offsets in the header, after its mark 42 4B; a zero stands between P and M, and seven zeros follow
 * the last. */
enum {
    GULAMBITOK_HEADER_DESKS_AT = 2,     /* D */
    GULAMBITOK_HEADER_PHASES_AT = 3,    /* P, 0 for the full ring of 256 phases */
    GULAMBITOK_HEADER_SEAT_LAG_AT = 5,  /* M */
    GULAMBITOK_HEADER_SHELF_LAG_AT = 6, /* A */
    GULAMBITOK_HEADER_BACK_AT = 7,      /* m */
    GULAMBITOK_HEADER_AHEAD_AT = 8      /* n */
};

/* Offsets in a record of the book, after its mark: 53 45 for a seat, 4D 41 for mail, 53 48 for a
 * slot. In a book the limit of a desk stands at
 * GULAMBITOK_SEATS_AT + GULAMBITOK_RECORD_BYTES * desk + GULAMBITOK_SEAT_LIMIT_AT. */
enum {
    GULAMBITOK_SEAT_STARTED_AT = 2,   /* 0 or 1 */
    GULAMBITOK_SEAT_LIMIT_AT = 3,     /* the desk's limit, 2 to 255; 0 for desks D and above */
    GULAMBITOK_MAIL_SENDER_AT = 2,    /* sender+1, 0 when the place is free */
    GULAMBITOK_MAIL_ADDRESSEE_AT = 3, /* addressee+1 */
    GULAMBITOK_SLOT_OWNER_AT = 2,     /* owner+1, 0 when the slot is free; a zero follows */
    GULAMBITOK_ROW_AT = 4
};

/* Offsets in a stamp record, after its mark 53 54. */
enum {
    GULAMBITOK_STAMP_OWNER_AT = 2,
    GULAMBITOK_STAMP_DESKS_AT = 3,
    GULAMBITOK_STAMP_ROW_AT = 4
};

/* Offsets in a summary, after its mark 53 55: the lags of desk j begin at
 * GULAMBITOK_SUMMARY_LAGS_AT + GULAMBITOK_SUMMARY_DESK_BYTES * j. They are the largest lag of its phase
 * in the seats of other desks, in waiting mail and in used slots; 0 where there is none. */
enum {
    GULAMBITOK_SUMMARY_LAGS_AT = 2,
    GULAMBITOK_SUMMARY_SEATS_AT = 0, /* within the three of a desk */
    GULAMBITOK_SUMMARY_MAIL_AT = 1,
    GULAMBITOK_SUMMARY_SHELF_AT = 2
};

/* Start writes a fresh book under a setup: rows zero, no seat started, all places free. What the
 * book held before is lost. The setup is D desks, P phases on the ring, a list of exactly D limits,
 * M the lag permitted to a seat, A the lag permitted to a kept stamp, m and n the reach of a
 * comparison: from m-1 phases back, m from a reset, to n-1 ahead. P is from 3 to
 * GULAMBITOK_FULL_RING, where every byte is a phase; it is handed over as the number 256, and 0 is
 * refused. The i-th limit, from 2 to 255, is how many clock values desk i has in a phase; limits are
 * numbers as wide as any other, so 260 is not 4. No other call changes a limit. Refusals: 1, 2. */
uint8_t gulambitok_start(uint8_t *book, size_t book_len, size_t desks, size_t phases,
                         const size_t *limits, size_t limits_len, size_t seat_lag, size_t shelf_lag,
                         size_t back, size_t ahead);

/* Local, send, receive and reset are the events. Each takes a number for the wish to keep its
 * stamp: 0 is no, any other is yes. A kept event puts its stamp into the lowest free slot as well
 * and writes the slot in one byte; without a free slot it is refused whole. An event that is not
 * kept neither asks nor writes the slot buffer. */

/* Local at a desk: its own clock grows by 1. Writes the stamp, a record of 20 bytes.
 * Refusals: 1, 3, 8, 10, 15. */
uint8_t gulambitok_local(uint8_t *book, size_t book_len, size_t desk, size_t keep, uint8_t *stamp,
                         size_t stamp_len, uint8_t *slot, size_t slot_len);

/* Send from a desk to another: as local, then its row goes into the lowest free mail place.
 * Writes the stamp, and the place in one byte. Refusals: 1, 3, 4, 8, 9, 10, 15. */
uint8_t gulambitok_send(uint8_t *book, size_t book_len, size_t desk, size_t to, size_t keep,
                        uint8_t *stamp, size_t stamp_len, uint8_t *place, size_t place_len,
                        uint8_t *slot, size_t slot_len);

/* Receive at a desk from a place: its own clock grows by 1; for every other desk the later of the
 * two pairs is taken; the place becomes free. Any waiting mail may be taken, in any order. Writes
 * the stamp, and in one byte how many other desks' entries changed, 0 to 7; 0 where the mail told
 * nothing. Refusals: 1, 3, 5, 6, 8, 10, 15. */
uint8_t gulambitok_receive(uint8_t *book, size_t book_len, size_t desk, size_t place, size_t keep,
                           uint8_t *stamp, size_t stamp_len, uint8_t *learnt, size_t learnt_len,
                           uint8_t *slot, size_t slot_len);

/* Reset at a desk: its own phase grows by 1 modulo P and its own clock becomes 0; no other seat
 * changes. Writes the stamp. Refusals: 1, 3, 10, 11, 12, 13, 15. */
uint8_t gulambitok_reset(uint8_t *book, size_t book_len, size_t desk, size_t keep, uint8_t *stamp,
                         size_t stamp_len, uint8_t *slot, size_t slot_len);

/* Drop frees a slot; it is no event. Refusals: 1, 5. */
uint8_t gulambitok_drop(uint8_t *book, size_t book_len, size_t slot);

/* Discard frees a mail place; it is no event. Refusals: 1, 5. */
uint8_t gulambitok_discard(uint8_t *book, size_t book_len, size_t place);

/* Before, of two slots: writes 1 when the first is before the second, else 0.
 * Refusals: 1, 5, 15, 16. */
uint8_t gulambitok_before(const uint8_t *book, size_t book_len, size_t first, size_t second,
                          uint8_t *answer, size_t answer_len);

/* Compare asks both ways, of two slots: writes 1 before, 2 after, 3 same, 4 concurrent or 5
 * crossed. It needs both ways within reach. Refusals: 1, 5, 15, 16. */
uint8_t gulambitok_compare(const uint8_t *book, size_t book_len, size_t first, size_t second,
                           uint8_t *answer, size_t answer_len);

/* Picture asks whether the portal could have stood where one kept stamp for each desk shows it. It
 * is given a list of exactly D slots, the i-th for desk i; they are numbers as wide as any other, so
 * 256 is not slot 0. Two desks are at odds when the stamp of one knows of a later event at the
 * other's desk than the other's own stamp. Writes 1 when no two are, and leaves odds as it was; else
 * 0, and into odds the two desks, a byte each, the lower first: of all that are at odds those with
 * the lowest first, then the lowest second. Odds must have its two bytes either way. Every two of
 * the stamps have to be within reach of each other, both ways. Refusals: 1, 5, 15, 16, 18. */
uint8_t gulambitok_picture(const uint8_t *book, size_t book_len, const size_t *slots,
                           size_t slots_len, uint8_t *answer, size_t answer_len, uint8_t *odds,
                           size_t odds_len);

/* Show copies the sixteen row bytes of a slot. Refusals: 1, 5, 15. */
uint8_t gulambitok_show(const uint8_t *book, size_t book_len, size_t slot, uint8_t *row, size_t row_len);

/* Write fills the first 20 bytes of the target with one slot as a stamp record, and no more.
 * Refusals: 1, 5, 15. */
uint8_t gulambitok_write(const uint8_t *book, size_t book_len, size_t slot, uint8_t *target,
                         size_t target_len);

/* Before off the book, of two stamp records of exactly 20 bytes under a setup: writes 1 when the
 * first is before the second, else 0. Here and below a record reads only where each phase is below P
 * and each clock below the limit of the desk that its pair is for. A record does not say which ring
 * it is of, so P has to be that of its book. Refusals: 2, 14, 15, 16. */
uint8_t gulambitok_label_before(size_t desks, size_t phases, const size_t *limits,
                                size_t limits_len, size_t seat_lag, size_t shelf_lag, size_t back,
                                size_t ahead, const uint8_t *first, size_t first_len,
                                const uint8_t *second, size_t second_len, uint8_t *answer,
                                size_t answer_len);

/* Compare off the book asks both ways, of two stamp records under a setup: writes 1 before, 2
 * after, 3 same, 4 concurrent or 5 crossed. Refusals: 2, 14, 15, 16. */
uint8_t gulambitok_label_compare(size_t desks, size_t phases, const size_t *limits,
                                 size_t limits_len, size_t seat_lag, size_t shelf_lag, size_t back,
                                 size_t ahead, const uint8_t *first, size_t first_len,
                                 const uint8_t *second, size_t second_len, uint8_t *answer,
                                 size_t answer_len);

/* Newest of two stamp records under a setup: writes 1 when the first is after the other or they
 * are the same, 2 when the second is after the other, 0 when they are concurrent or crossed.
 * Refusals: 2, 14, 15, 16. */
uint8_t gulambitok_label_newest(size_t desks, size_t phases, const size_t *limits,
                                size_t limits_len, size_t seat_lag, size_t shelf_lag, size_t back,
                                size_t ahead, const uint8_t *first, size_t first_len,
                                const uint8_t *second, size_t second_len, uint8_t *answer,
                                size_t answer_len);

/* The office: start and every change with the book and the papers beside it: a summary. Each call
 * asks all that its call on the book alone asks, then of the papers, for the summary its length alone
 * (21). Accepted, it answers and leaves the book as that call does, and the summary is right of the
 * book afterwards, whatever it held. Refused, no byte of any buffer changes. A change by the calls on
 * the book alone leaves the summary as it was; the next accepted change through the office makes it
 * right again. */

/* Start, through the office. Refusals: 1, 2, 21. */
uint8_t gulambitok_office_start(uint8_t *book, size_t book_len, uint8_t *summary, size_t summary_len,
                                size_t desks, size_t phases, const size_t *limits, size_t limits_len,
                                size_t seat_lag, size_t shelf_lag, size_t back, size_t ahead);

/* Local, through the office. Refusals: 1, 3, 8, 10, 15, 21. */
uint8_t gulambitok_office_local(uint8_t *book, size_t book_len, uint8_t *summary, size_t summary_len,
                                size_t desk, size_t keep, uint8_t *stamp, size_t stamp_len,
                                uint8_t *slot, size_t slot_len);

/* Send, through the office. Refusals: 1, 3, 4, 8, 9, 10, 15, 21. */
uint8_t gulambitok_office_send(uint8_t *book, size_t book_len, uint8_t *summary, size_t summary_len,
                               size_t desk, size_t to, size_t keep, uint8_t *stamp, size_t stamp_len,
                               uint8_t *place, size_t place_len, uint8_t *slot, size_t slot_len);

/* Receive, through the office. Refusals: 1, 3, 5, 6, 8, 10, 15, 21. */
uint8_t gulambitok_office_receive(uint8_t *book, size_t book_len, uint8_t *summary, size_t summary_len,
                                  size_t desk, size_t place, size_t keep, uint8_t *stamp, size_t stamp_len,
                                  uint8_t *learnt, size_t learnt_len, uint8_t *slot, size_t slot_len);

/* Reset, through the office. Refusals: 1, 3, 10, 11, 12, 13, 15, 21. */
uint8_t gulambitok_office_reset(uint8_t *book, size_t book_len, uint8_t *summary, size_t summary_len,
                                size_t desk, size_t keep, uint8_t *stamp, size_t stamp_len,
                                uint8_t *slot, size_t slot_len);

/* Drop, through the office: without the stamp a lag may be lower. Refusals: 1, 5, 21. */
uint8_t gulambitok_office_drop(uint8_t *book, size_t book_len, uint8_t *summary, size_t summary_len,
                               size_t slot);

/* Discard, through the office: without the mail a lag may be lower. Refusals: 1, 5, 21. */
uint8_t gulambitok_office_discard(uint8_t *book, size_t book_len, uint8_t *summary, size_t summary_len,
                                  size_t place);

/* May a desk reset? Asked of a setup and a summary, without the book. Writes in one byte the number
 * that its reset would be answered about lags: GULAMBITOK_DONE, 11, 12 or 13. With a right summary of
 * the book and its setup that is just what a reset that is not kept is answered; a kept one may be
 * refused by 10 besides, where no slot is free. Refusals: 2, 3, 15, 21. */
uint8_t gulambitok_may(size_t desks, size_t phases, const size_t *limits, size_t limits_len,
                       size_t seat_lag, size_t shelf_lag, size_t back, size_t ahead,
                       const uint8_t *summary, size_t summary_len, size_t desk, uint8_t *answer,
                       size_t answer_len);

/* The papers beside a book, and the office's calls with them: each passes the parts on to the call of
 * the same name above. Where a further paper comes it is one more part, and the caller's code stays. */
struct gulambitok_papers {
    uint8_t *summary;
    size_t summary_len;
};

static inline uint8_t gulambitok_papers_start(uint8_t *book, size_t book_len,
                                              const struct gulambitok_papers *papers, size_t desks,
                                              size_t phases, const size_t *limits, size_t limits_len,
                                              size_t seat_lag, size_t shelf_lag, size_t back, size_t ahead)
{
    return gulambitok_office_start(book, book_len, papers->summary, papers->summary_len, desks, phases,
                                   limits, limits_len, seat_lag, shelf_lag, back, ahead);
}

static inline uint8_t gulambitok_papers_local(uint8_t *book, size_t book_len,
                                              const struct gulambitok_papers *papers, size_t desk,
                                              size_t keep, uint8_t *stamp, size_t stamp_len,
                                              uint8_t *slot, size_t slot_len)
{
    return gulambitok_office_local(book, book_len, papers->summary, papers->summary_len, desk, keep,
                                   stamp, stamp_len, slot, slot_len);
}

static inline uint8_t gulambitok_papers_send(uint8_t *book, size_t book_len,
                                             const struct gulambitok_papers *papers, size_t desk,
                                             size_t to, size_t keep, uint8_t *stamp, size_t stamp_len,
                                             uint8_t *place, size_t place_len, uint8_t *slot,
                                             size_t slot_len)
{
    return gulambitok_office_send(book, book_len, papers->summary, papers->summary_len, desk, to, keep,
                                  stamp, stamp_len, place, place_len, slot, slot_len);
}

static inline uint8_t gulambitok_papers_receive(uint8_t *book, size_t book_len,
                                                const struct gulambitok_papers *papers, size_t desk,
                                                size_t place, size_t keep, uint8_t *stamp,
                                                size_t stamp_len, uint8_t *learnt, size_t learnt_len,
                                                uint8_t *slot, size_t slot_len)
{
    return gulambitok_office_receive(book, book_len, papers->summary, papers->summary_len, desk, place,
                                     keep, stamp, stamp_len, learnt, learnt_len, slot, slot_len);
}

static inline uint8_t gulambitok_papers_reset(uint8_t *book, size_t book_len,
                                              const struct gulambitok_papers *papers, size_t desk,
                                              size_t keep, uint8_t *stamp, size_t stamp_len,
                                              uint8_t *slot, size_t slot_len)
{
    return gulambitok_office_reset(book, book_len, papers->summary, papers->summary_len, desk, keep,
                                   stamp, stamp_len, slot, slot_len);
}

static inline uint8_t gulambitok_papers_drop(uint8_t *book, size_t book_len,
                                             const struct gulambitok_papers *papers, size_t slot)
{
    return gulambitok_office_drop(book, book_len, papers->summary, papers->summary_len, slot);
}

static inline uint8_t gulambitok_papers_discard(uint8_t *book, size_t book_len,
                                                const struct gulambitok_papers *papers, size_t place)
{
    return gulambitok_office_discard(book, book_len, papers->summary, papers->summary_len, place);
}

#ifdef __cplusplus
}
#endif

#endif
