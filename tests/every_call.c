/* Makes each call of gulambitok.h, accepted and refused, so that header and archive cannot differ
 * unseen. The setup is X, of three desks with limits of their own, where nothing else is said. */
#include "gulambitok.h"

#include <stdio.h>
#include <string.h>

/* All that is lent, so that one comparison sees every byte. */
struct lent {
    uint8_t book[GULAMBITOK_BOOK_BYTES], stamp[GULAMBITOK_STAMP_BYTES + 1], place[2], slot[2];
    uint8_t learnt[2], answer[2], row[GULAMBITOK_ROW_BYTES + 1], first[GULAMBITOK_STAMP_BYTES + 1];
    uint8_t second[GULAMBITOK_STAMP_BYTES], odds[GULAMBITOK_ODDS_BYTES + 1];
    uint8_t summary[GULAMBITOK_SUMMARY_BYTES + 1];
};

static struct lent now, was;
static int wrong;

static void expect(const char *what, int held)
{
    if (!held) {
        printf("wrong: %s\n", what);
        wrong = 1;
    }
}

static void refused(const char *call, uint8_t answer, uint8_t number)
{
    expect(call, answer == number && memcmp(&now, &was, sizeof now) == 0);
}

static void done(const char *call, uint8_t answer)
{
    expect(call, answer == GULAMBITOK_DONE);
    was = now;
}

#define REFUSED(number, call) refused(#call, call, GULAMBITOK_##number)
#define DONE(call) done(#call, call)
#define EXPECT(held) expect(#held, held)
#define BOOK now.book, sizeof now.book
#define SUMMARY now.summary, GULAMBITOK_SUMMARY_BYTES
#define LIST(...) (const size_t[]){__VA_ARGS__}, sizeof (const size_t[]){__VA_ARGS__} / sizeof(size_t)
#define THREE(...) 3, 5, LIST(__VA_ARGS__), 2, 4, 2, 2
#define X THREE(4, 3, 255)
#define ROOMY THREE(40, 50, 60)
#define TWO(...) 2, 5, LIST(__VA_ARGS__), 2, 4, 2, 2
#define EIGHT 8, 5, LIST(40, 41, 42, 43, 44, 45, 46, 47), 2, 4, 2, 2

static uint8_t *limit_in(size_t seat)
{
    return now.book + GULAMBITOK_SEATS_AT + GULAMBITOK_RECORD_BYTES * seat + GULAMBITOK_SEAT_LIMIT_AT;
}

/* No call but start changes a limit, and the seats above the desks have none. */
static void limits_stand(void)
{
    const uint8_t limits[GULAMBITOK_SEATS] = {4, 3, 255};
    for (size_t seat = 0; seat < GULAMBITOK_SEATS; seat++)
        EXPECT(*limit_in(seat) == limits[seat]);
}

#define NO_LIMITS 3, 5, NULL, 0, 2, 4, 2, 2
#define OUT_OF_RANGE 3, 5, limits, 3, 2, 4, 2, 2
#define NO_LABELS NULL, 0, NULL, 0, NULL, 0
#define NO_SUMMARY NULL, 0, 3, NULL, 0

/* Cut to a byte 260 would be 4, and so would the next be if cut to 32 bits. */
static void limit_out_of_range(size_t desk)
{
    const size_t outside[] = {0, 1, 256, 260, ((size_t)1 << 32) + 4, SIZE_MAX};
    for (size_t i = 0; i < sizeof outside / sizeof *outside; i++) {
        size_t limits[] = {4, 4, 4};
        limits[desk] = outside[i];
        REFUSED(BAD_SETUP, gulambitok_start(BOOK, OUT_OF_RANGE));
        REFUSED(BAD_SETUP, gulambitok_office_start(BOOK, NULL, 0, OUT_OF_RANGE));
        REFUSED(BAD_SETUP, gulambitok_may(OUT_OF_RANGE, NO_SUMMARY));
        REFUSED(BAD_SETUP, gulambitok_label_before(OUT_OF_RANGE, NO_LABELS));
        REFUSED(BAD_SETUP, gulambitok_label_compare(OUT_OF_RANGE, NO_LABELS));
        REFUSED(BAD_SETUP, gulambitok_label_newest(OUT_OF_RANGE, NO_LABELS));
    }
}

/* Any book stays as it was where a list has other than D limits, or a number that is no limit. */
static void limits_refused(void)
{
    REFUSED(BAD_SETUP, gulambitok_start(BOOK, NO_LIMITS));
    REFUSED(BAD_SETUP, gulambitok_label_before(NO_LIMITS, NO_LABELS));
    REFUSED(BAD_SETUP, gulambitok_label_compare(NO_LIMITS, NO_LABELS));
    REFUSED(BAD_SETUP, gulambitok_label_newest(NO_LIMITS, NO_LABELS));
    REFUSED(BAD_SETUP, gulambitok_start(BOOK, 3, 5, (const size_t[]){4, 3, 255}, 0, 2, 4, 2, 2));
    REFUSED(BAD_SETUP, gulambitok_start(BOOK, THREE(4)));
    REFUSED(BAD_SETUP, gulambitok_start(BOOK, THREE(4, 3)));
    REFUSED(BAD_SETUP, gulambitok_start(BOOK, THREE(4, 3, 255, 2)));
    REFUSED(BAD_SETUP, gulambitok_start(BOOK, THREE(4, 3, 255, 0, 0, 0, 0, 0)));
    REFUSED(BAD_SETUP, gulambitok_start(BOOK, THREE(4, 3, 255, 2, 2, 2, 2, 2, 2)));
    REFUSED(BAD_SETUP, gulambitok_start(BOOK, TWO(4, 3, 255)));
    REFUSED(BAD_SETUP, gulambitok_start(BOOK, 9, 5, LIST(4, 4, 4, 4, 4, 4, 4, 4, 4), 2, 4, 2, 2));
    REFUSED(BAD_SETUP, gulambitok_label_before(THREE(4, 3), NO_LABELS));
    REFUSED(BAD_SETUP, gulambitok_label_compare(THREE(4, 3, 255, 2), NO_LABELS));
    REFUSED(BAD_SETUP, gulambitok_label_newest(THREE(4, 3), NO_LABELS));
    REFUSED(BAD_SETUP, gulambitok_may(NO_LIMITS, NO_SUMMARY));
    REFUSED(BAD_SETUP, gulambitok_may(THREE(4, 3), NO_SUMMARY));
    REFUSED(BAD_SETUP, gulambitok_may(THREE(4, 3, 255, 2), NO_SUMMARY));
    for (size_t desk = 0; desk < 3; desk++)
        limit_out_of_range(desk);
}

static void start(void)
{
    REFUSED(BAD_BOOK, gulambitok_start(now.book, sizeof now.book - 1, X));
    REFUSED(BAD_BOOK, gulambitok_start(now.book, sizeof now.book - 1, NO_LIMITS));
    REFUSED(BAD_SETUP, gulambitok_start(BOOK, 3, 4, LIST(4, 3, 255), 2, 4, 2, 2));
    REFUSED(BAD_SETUP, gulambitok_start(BOOK, 256 + 3, 5, LIST(4, 3, 255), 2, 4, 2, 2));
    REFUSED(BAD_SETUP, gulambitok_start(BOOK, 3, 5, LIST(4, 3, 255), 2, 4, 3, 3));
    limits_refused();
    REFUSED(BAD_BOOK, gulambitok_local(BOOK, 0, 1, now.stamp, 20, now.slot, 1));
    REFUSED(BAD_BOOK, gulambitok_picture(BOOK, NULL, 0, now.answer, 1, now.odds, 2));
    DONE(gulambitok_start(BOOK, EIGHT));
    DONE(gulambitok_start(BOOK, 3, 5, LIST(4, 3, 255), 2, 4, 3, 2));
    DONE(gulambitok_start(BOOK, X));
    EXPECT(memcmp(now.book, "BK\3\5\0\2\4\2\2\0\0\0\0\0\0\0SE\0\4", 20) == 0);
    limits_stand();
}

/* 256 is a wish to keep like any other number but 0. */
static void local(void)
{
    REFUSED(NO_DESK, gulambitok_local(BOOK, 256, 0, NULL, 0, NULL, 0));
    REFUSED(NO_ROOM, gulambitok_local(BOOK, 0, 0, now.stamp, 19, NULL, 0));
    REFUSED(NO_ROOM, gulambitok_local(BOOK, 0, 1, now.stamp, 19, now.slot, 1));
    REFUSED(NO_ROOM, gulambitok_local(BOOK, 0, 1, now.stamp, 20, NULL, 0));
    REFUSED(NO_ROOM, gulambitok_local(BOOK, 0, 256, now.stamp, 20, now.slot, 0));
    DONE(gulambitok_local(BOOK, 0, 0, now.stamp, 21, now.slot, 2));
    EXPECT(memcmp(now.stamp, "ST\0\3\0\1\0\0\0\0\0\0\0\0\0\0\0\0\0\0\xEE", 21) == 0);
    EXPECT(now.slot[0] == 0xEE && now.slot[1] == 0xEE && now.book[GULAMBITOK_SHELF_AT + 2] == 0);
    DONE(gulambitok_local(BOOK, 2, 256, now.stamp, 20, now.slot, 2));
    EXPECT(now.slot[0] == 0 && now.slot[1] == 0xEE);
    EXPECT(memcmp(now.book + GULAMBITOK_SHELF_AT, "SH\3\0\0\0\0\0\0\1", 10) == 0);
    DONE(gulambitok_drop(BOOK, 0));
    limits_stand();
}

static void send_and_receive(void)
{
    REFUSED(SAME_DESK, gulambitok_send(BOOK, 0, 0, 1, now.stamp, 20, now.place, 1, now.slot, 1));
    REFUSED(NO_DESK, gulambitok_send(BOOK, 3, 3, 0, now.stamp, 20, now.place, 1, NULL, 0));
    REFUSED(NO_ROOM, gulambitok_send(BOOK, 0, 1, 0, now.stamp, 20, NULL, 0, NULL, 0));
    REFUSED(NO_ROOM, gulambitok_send(BOOK, 0, 1, 0, now.stamp, 19, now.place, 1, now.slot, 1));
    REFUSED(NO_ROOM, gulambitok_send(BOOK, 0, 1, 1, now.stamp, 20, now.place, 1, NULL, 0));
    DONE(gulambitok_send(BOOK, 0, 1, 0, now.stamp, 20, now.place, 2, NULL, 0));
    EXPECT(now.place[0] == 0 && now.place[1] == 0xEE && now.stamp[5] == 2);
    REFUSED(NOT_YOURS, gulambitok_receive(BOOK, 2, 0, 0, now.stamp, 20, NULL, 0, NULL, 0));
    REFUSED(NO_PLACE, gulambitok_receive(BOOK, 1, 256, 0, now.stamp, 20, now.learnt, 1, NULL, 0));
    REFUSED(NO_ROOM, gulambitok_receive(BOOK, 1, 0, 0, now.stamp, 19, now.learnt, 1, NULL, 0));
    REFUSED(NO_ROOM, gulambitok_receive(BOOK, 1, 0, 0, now.stamp, 20, NULL, 0, NULL, 0));
    REFUSED(NO_ROOM, gulambitok_receive(BOOK, 1, 0, 1, now.stamp, 20, now.learnt, 0, now.slot, 1));
    REFUSED(NO_ROOM, gulambitok_receive(BOOK, 1, 0, 256, now.stamp, 20, now.learnt, 1, NULL, 0));
    DONE(gulambitok_send(BOOK, 0, 2, 1, now.stamp, 20, now.place, 1, now.slot, 2));
    EXPECT(now.place[0] == 1 && now.slot[0] == 0 && now.slot[1] == 0xEE && now.stamp[5] == 3);
    DONE(gulambitok_receive(BOOK, 1, 0, 1, now.stamp, 20, now.learnt, 2, now.slot, 2));
    EXPECT(memcmp(now.stamp, "ST\1\3\0\2\0\1", 8) == 0);
    EXPECT(now.learnt[0] == 1 && now.learnt[1] == 0xEE && now.slot[0] == 1 && now.slot[1] == 0xEE);
    DONE(gulambitok_discard(BOOK, 1));
    REFUSED(NO_PLACE, gulambitok_discard(BOOK, 1));
    DONE(gulambitok_send(BOOK, 1, 2, 0, now.stamp, 20, now.place, 1, NULL, 0));
    DONE(gulambitok_receive(BOOK, 2, 0, 0, now.stamp, 20, now.learnt, 2, now.slot, 2));
    EXPECT(now.learnt[0] == 2 && now.learnt[1] == 0xEE);
    EXPECT(now.slot[0] == 1 && memcmp(now.stamp, "ST\2\3\0\2\0\2\0\2", 10) == 0);
    REFUSED(PHASE_FULL, gulambitok_local(BOOK, 0, 1, NULL, 0, NULL, 0));
    REFUSED(PHASE_FULL, gulambitok_local(BOOK, 1, 1, NULL, 0, NULL, 0));
    DONE(gulambitok_local(BOOK, 2, 0, now.stamp, 20, NULL, 0));
    limits_stand();
}

/* Slot 0 is desk 0 at 0.3, slot 1 is desk 1, which has seen 0.2 alone. */
static void shelf(void)
{
    REFUSED(NO_PLACE, gulambitok_before(BOOK, 0, 31, NULL, 0));
    REFUSED(NO_ROOM, gulambitok_before(BOOK, 0, 1, NULL, 0));
    DONE(gulambitok_before(BOOK, 0, 1, now.answer, 2));
    EXPECT(now.answer[0] == 0 && now.answer[1] == 0xEE);
    REFUSED(NO_ROOM, gulambitok_compare(BOOK, 0, 1, NULL, 0));
    DONE(gulambitok_compare(BOOK, 0, 1, now.answer, 1));
    EXPECT(now.answer[0] == GULAMBITOK_CONCURRENT);
    DONE(gulambitok_before(BOOK, 1, 1, now.answer, 1));
    EXPECT(now.answer[0] == 0);
    DONE(gulambitok_compare(BOOK, 1, 1, now.answer, 1));
    EXPECT(now.answer[0] == GULAMBITOK_SAME);
    REFUSED(NO_ROOM, gulambitok_show(BOOK, 1, now.row, 15));
    DONE(gulambitok_show(BOOK, 1, now.row, 17));
    EXPECT(memcmp(now.row, "\0\2\0\1\0\0\0\0\0\0\0\0\0\0\0\0\xEE", 17) == 0);
    REFUSED(NO_ROOM, gulambitok_write(BOOK, 0, now.first, 19));
    DONE(gulambitok_write(BOOK, 0, now.first, 21));
    EXPECT(memcmp(now.first, "ST\0\3\0\3\0\0\0\0\0\0\0\0\0\0\0\0\0\0\xEE", 21) == 0);
}

/* The record of desk 0 at 0.3 beside that of its reset. */
static void reset_and_labels(void)
{
    REFUSED(NO_ROOM, gulambitok_reset(BOOK, 0, 0, now.second, 19, NULL, 0));
    REFUSED(NO_ROOM, gulambitok_reset(BOOK, 0, 1, now.second, 20, NULL, 0));
    DONE(gulambitok_reset(BOOK, 0, 0, now.second, 20, NULL, 0));
    EXPECT(memcmp(now.second, "ST\0\3\1\0\0\0", 8) == 0);
    REFUSED(BAD_SETUP, gulambitok_label_before(3, 4, LIST(4, 3, 255), 2, 4, 2, 2, NO_LABELS));
    REFUSED(BAD_SETUP, gulambitok_label_before(3, 5, LIST(4, 3, 255), 2, 4, 3, 3, NO_LABELS));
    limits_refused();
    REFUSED(BAD_STAMP, gulambitok_label_before(X, now.first, 21, now.second, 20, NULL, 0));
    REFUSED(NO_ROOM, gulambitok_label_before(X, now.first, 20, now.second, 20, NULL, 0));
    DONE(gulambitok_label_before(X, now.first, 20, now.second, 20, now.answer, 1));
    EXPECT(now.answer[0] == 1);
    REFUSED(NO_ROOM, gulambitok_label_compare(X, now.first, 20, now.second, 20, NULL, 0));
    DONE(gulambitok_label_compare(X, now.second, 20, now.first, 20, now.answer, 1));
    EXPECT(now.answer[0] == GULAMBITOK_AFTER);
    REFUSED(NO_ROOM, gulambitok_label_newest(X, now.first, 20, now.second, 20, NULL, 0));
    DONE(gulambitok_label_newest(X, now.first, 20, now.second, 20, now.answer, 2));
    EXPECT(now.answer[0] == GULAMBITOK_SECOND && now.answer[1] == 0xEE);
    DONE(gulambitok_label_newest(X, now.second, 20, now.second, 20, now.answer, 1));
    EXPECT(now.answer[0] == GULAMBITOK_FIRST);
    DONE(gulambitok_reset(BOOK, 0, 256, now.second, 20, now.slot, 2));
    EXPECT(now.slot[0] == 2 && now.slot[1] == 0xEE);
    REFUSED(SEAT_BEHIND, gulambitok_reset(BOOK, 0, 1, NULL, 0, NULL, 0));
    REFUSED(OUT_OF_REACH, gulambitok_label_newest(X, now.first, 20, now.second, 20, now.answer, 1));
    limits_stand();
}

/* Desk 0's reset to 2.0 is in slot 2, its local 2.1 goes to slot 3; slots 0 and 1 are two phases back. */
static void reset_edge(void)
{
    DONE(gulambitok_before(BOOK, 2, 0, now.answer, 1));
    EXPECT(now.answer[0] == 0);
    DONE(gulambitok_compare(BOOK, 2, 1, now.answer, 1));
    EXPECT(now.answer[0] == GULAMBITOK_CONCURRENT);
    DONE(gulambitok_label_before(X, now.second, 20, now.first, 20, now.answer, 1));
    EXPECT(now.answer[0] == 0);
    REFUSED(OUT_OF_REACH, gulambitok_before(BOOK, 0, 2, now.answer, 1));
    REFUSED(OUT_OF_REACH, gulambitok_compare(BOOK, 2, 0, now.answer, 1));
    REFUSED(OUT_OF_REACH, gulambitok_label_compare(X, now.second, 20, now.first, 20, now.answer, 1));
    DONE(gulambitok_local(BOOK, 0, 1, now.second, 20, now.slot, 1));
    EXPECT(now.slot[0] == 3);
    REFUSED(OUT_OF_REACH, gulambitok_before(BOOK, 3, 0, now.answer, 1));
    REFUSED(OUT_OF_REACH, gulambitok_compare(BOOK, 1, 3, now.answer, 1));
    REFUSED(OUT_OF_REACH, gulambitok_label_before(X, now.second, 20, now.first, 20, now.answer, 1));
    DONE(gulambitok_drop(BOOK, 0));
    REFUSED(NO_PLACE, gulambitok_drop(BOOK, 0));
}

/* Locals of one desk fill the shelf. What is refused for it is refused whole, and the mail still waits. */
static void full_shelf(void)
{
    DONE(gulambitok_start(BOOK, ROOMY));
    DONE(gulambitok_send(BOOK, 1, 2, 0, now.stamp, 20, now.place, 1, NULL, 0));
    for (int slot = 0; slot < GULAMBITOK_SLOTS; slot++) {
        DONE(gulambitok_local(BOOK, 0, 1, now.stamp, 20, now.slot, 1));
        EXPECT(now.slot[0] == slot);
    }
    REFUSED(SHELF_FULL, gulambitok_local(BOOK, 0, 1, NULL, 0, NULL, 0));
    REFUSED(SHELF_FULL, gulambitok_send(BOOK, 0, 1, 1, now.stamp, 20, now.place, 1, now.slot, 1));
    REFUSED(SHELF_FULL, gulambitok_receive(BOOK, 2, 0, 256, now.stamp, 20, NULL, 0, now.slot, 1));
    REFUSED(SHELF_FULL, gulambitok_reset(BOOK, 0, 1, now.stamp, 20, now.slot, 1));
    DONE(gulambitok_receive(BOOK, 2, 0, 0, now.stamp, 20, now.learnt, 1, NULL, 0));
    EXPECT(now.learnt[0] == 1);
    DONE(gulambitok_reset(BOOK, 0, 0, now.stamp, 20, NULL, 0));
    DONE(gulambitok_reset(BOOK, 0, 0, now.stamp, 20, NULL, 0));
    REFUSED(SHELF_FULL, gulambitok_reset(BOOK, 0, 1, now.stamp, 20, now.slot, 1));
    REFUSED(SEAT_BEHIND, gulambitok_reset(BOOK, 0, 0, now.stamp, 20, NULL, 0));
    DONE(gulambitok_drop(BOOK, 9));
    DONE(gulambitok_local(BOOK, 1, 1, now.stamp, 20, now.slot, 1));
    EXPECT(now.slot[0] == 9);
}

static void mail(size_t desk, size_t to)
{
    DONE(gulambitok_send(BOOK, desk, to, 0, now.stamp, 20, now.place, 1, NULL, 0));
}

static uint8_t learnt(size_t desk, size_t place)
{
    DONE(gulambitok_receive(BOOK, desk, place, 0, now.stamp, 20, now.learnt, 1, NULL, 0));
    return now.learnt[0];
}

/* Word goes round eight desks: each hears of one desk more, and the first of the seven others. */
static void mail_that_tells_more(void)
{
    DONE(gulambitok_start(BOOK, EIGHT));
    for (size_t desk = 0; desk < 7; desk++) {
        mail(desk, desk + 1);
        EXPECT(learnt(desk + 1, 0) == desk + 1);
    }
    mail(7, 0);
    EXPECT(learnt(0, 0) == 7);
    mail(7, 0);
    DONE(gulambitok_receive(BOOK, 0, 0, 1, now.stamp, 20, now.learnt, 1, now.slot, 1));
    EXPECT(now.learnt[0] == 1 && now.slot[0] == 0);
}

/* Mails of desk 0 at 0.1, 0.2, 0.3 and, after its reset, 1.1 wait in places 0 to 3. */
static void mail_that_tells_nothing(void)
{
    DONE(gulambitok_start(BOOK, ROOMY));
    for (int place = 0; place < 3; place++)
        mail(0, 1);
    DONE(gulambitok_reset(BOOK, 0, 0, now.stamp, 20, NULL, 0));
    mail(0, 1);
    EXPECT(learnt(1, 1) == 1);
    EXPECT(learnt(1, 0) == 0 && memcmp(now.stamp, "ST\1\3\0\2\0\2", 8) == 0);
    EXPECT(learnt(1, 3) == 1 && memcmp(now.stamp, "ST\1\3\1\1\0\3", 8) == 0);
    EXPECT(learnt(1, 2) == 0 && memcmp(now.stamp, "ST\1\3\1\1\0\4", 8) == 0);
}

static void keep_local(size_t desk, uint8_t slot)
{
    DONE(gulambitok_local(BOOK, desk, 1, now.stamp, 20, now.slot, 1));
    EXPECT(now.slot[0] == slot);
}

static void keep_reset(size_t desk, uint8_t slot)
{
    DONE(gulambitok_reset(BOOK, desk, 1, now.stamp, 20, now.slot, 1));
    EXPECT(now.slot[0] == slot);
}

/* The mail waits in place 0. */
static void keep_send(size_t desk, size_t to, uint8_t slot)
{
    DONE(gulambitok_send(BOOK, desk, to, 1, now.stamp, 20, now.place, 1, now.slot, 1));
    EXPECT(now.place[0] == 0 && now.slot[0] == slot);
}

static void keep_receive(size_t desk, uint8_t slot)
{
    DONE(gulambitok_receive(BOOK, desk, 0, 1, now.stamp, 20, now.learnt, 1, now.slot, 1));
    EXPECT(now.slot[0] == slot);
}

/* Every byte lent is as it was but for what is told; that is spoilt, so that the next call has to write it. */
static void pictured(const char *what, uint8_t answer)
{
    expect(what, answer == GULAMBITOK_DONE && memcmp(&now, &was, sizeof now) == 0);
    memset(now.answer, 0xEE, sizeof now.answer);
    memset(now.odds, 0xEE, sizeof now.odds);
    was = now;
}

static void yes(const char *what, uint8_t answer)
{
    was.answer[0] = 1;
    pictured(what, answer);
}

static void at_odds(const char *what, uint8_t answer, uint8_t lower, uint8_t higher)
{
    was.answer[0] = 0;
    was.odds[0] = lower;
    was.odds[1] = higher;
    pictured(what, answer);
}

#define PICTURE(...) gulambitok_picture(BOOK, LIST(__VA_ARGS__), now.answer, 1, now.odds, 2)
#define YES(call) yes(#call, call)
#define AT_ODDS(lower, higher, call) at_odds(#call, call, lower, higher)

/* In slots 1, 2 and 7 desk 0 is at 0.1, at 0.2 and, with 0.3 of desk 2, at 0.3; in slots 3 and 5 desk 1
 * is at 0.1 and 0.2, with 0.2 of desk 0, and in slot 5 0.2 of desk 2; in slots 0, 4 and 6 desk 2 is at
 * 0.1, 0.2 and 0.3. */
static void picture(void)
{
    DONE(gulambitok_start(BOOK, ROOMY));
    memset(now.answer, 0xEE, sizeof now.answer);
    was = now;
    keep_local(2, 0);
    keep_local(0, 1);
    keep_send(0, 1, 2);
    keep_receive(1, 3);
    keep_send(2, 1, 4);
    keep_receive(1, 5);
    keep_send(2, 0, 6);
    keep_receive(0, 7);
    YES(PICTURE(2, 3, 0));
    AT_ODDS(0, 1, PICTURE(1, 3, 0));
    AT_ODDS(1, 2, PICTURE(2, 5, 0));
    AT_ODDS(0, 1, PICTURE(1, 5, 0));
    AT_ODDS(0, 2, PICTURE(7, 5, 0));
    AT_ODDS(0, 2, PICTURE(7, 5, 4));
    YES(PICTURE(7, 5, 6));
    YES(gulambitok_picture(BOOK, LIST(7, 5, 6), now.answer, 2, now.odds, 3));
    AT_ODDS(0, 1, gulambitok_picture(BOOK, LIST(1, 3, 0), now.answer, 2, now.odds, 3));
}

/* Of the same book. 256 cut to a byte would be slot 0, and 258 slot 2. */
static void picture_refused(void)
{
    REFUSED(BAD_BOOK, gulambitok_picture(now.book, sizeof now.book - 1, NULL, 0, NULL, 0, NULL, 0));
    REFUSED(NO_PLACE, gulambitok_picture(BOOK, NULL, 0, now.answer, 1, now.odds, 2));
    REFUSED(NO_PLACE, PICTURE(2, 3));
    REFUSED(NO_PLACE, PICTURE(2, 3, 0, 0));
    REFUSED(NO_PLACE, PICTURE(2, 3, 0, 1, 4, 5, 6, 7));
    REFUSED(NO_PLACE, PICTURE(8, 3, 0));
    REFUSED(NO_PLACE, PICTURE(2, 31, 0));
    REFUSED(NO_PLACE, PICTURE(2, 3, 32));
    REFUSED(NO_PLACE, PICTURE(2, 3, 256));
    REFUSED(NO_PLACE, PICTURE(258, 3, 0));
    REFUSED(NO_PLACE, gulambitok_picture(BOOK, NULL, 0, NULL, 0, NULL, 0));
    REFUSED(NO_PLACE, gulambitok_picture(BOOK, LIST(2, 3, 8), now.answer, 0, now.odds, 1));
    REFUSED(NO_PLACE, PICTURE(3, 2, 8));
    REFUSED(NO_ROOM, gulambitok_picture(BOOK, LIST(2, 3, 0), now.answer, 0, now.odds, 2));
    REFUSED(NO_ROOM, gulambitok_picture(BOOK, LIST(2, 3, 0), now.answer, 1, now.odds, 1));
    REFUSED(NO_ROOM, gulambitok_picture(BOOK, LIST(2, 3, 0), now.answer, 1, NULL, 0));
    REFUSED(NO_ROOM, gulambitok_picture(BOOK, LIST(1, 3, 0), NULL, 0, now.odds, 2));
    REFUSED(NO_ROOM, gulambitok_picture(BOOK, LIST(1, 3, 0), now.answer, 1, now.odds, 1));
    REFUSED(NO_ROOM, gulambitok_picture(BOOK, LIST(3, 2, 0), now.answer, 1, now.odds, 1));
    REFUSED(WRONG_OWNER, PICTURE(3, 2, 0));
    REFUSED(WRONG_OWNER, PICTURE(2, 3, 3));
    REFUSED(WRONG_OWNER, PICTURE(2, 2, 0));
}

/* Of the same book: desk 1's reset to 1.0 goes to slot 8, what desk 0 heard, 0.4 1.1 0.3, to slot 9, desk
 * 1's reset to 2.0 to slot 10 and its local 2.1 to slot 11. Slots 5 and 6 know desk 1 at 0.2 and 0.0. */
static void picture_after_resets(void)
{
    keep_reset(1, 8);
    mail(1, 0);
    keep_receive(0, 9);
    AT_ODDS(0, 1, PICTURE(9, 5, 6));
    AT_ODDS(0, 1, PICTURE(9, 8, 6));
    keep_reset(1, 10);
    keep_local(1, 11);
    YES(PICTURE(9, 10, 6));
    REFUSED(OUT_OF_REACH, PICTURE(9, 11, 6));
    REFUSED(OUT_OF_REACH, PICTURE(11, 9, 6));
    REFUSED(OUT_OF_REACH, PICTURE(9, 10, 5));
    REFUSED(NO_ROOM, gulambitok_picture(BOOK, LIST(9, 11, 6), now.answer, 0, now.odds, 2));
    REFUSED(NO_ROOM, gulambitok_picture(BOOK, LIST(11, 9, 6), now.answer, 1, now.odds, 1));
    REFUSED(NO_PLACE, PICTURE(9, 11, 12));
    REFUSED(WRONG_OWNER, PICTURE(10, 10, 6));
    DONE(gulambitok_drop(BOOK, 6));
    REFUSED(NO_PLACE, PICTURE(9, 10, 6));
}

/* Of eight desks the last two are at odds once desk 7 has heard of desk 6 at 0.2, in slot 8. Desk 2, of
 * desk 1, in slot 9, and desk 7, of desk 0, in slot 10, make more: 0 and 7 come before 1 and 2. */
static void picture_of_eight(void)
{
    DONE(gulambitok_start(BOOK, EIGHT));
    for (uint8_t desk = 0; desk < 8; desk++)
        keep_local(desk, desk);
    YES(PICTURE(0, 1, 2, 3, 4, 5, 6, 7));
    mail(6, 7);
    keep_receive(7, 8);
    AT_ODDS(6, 7, PICTURE(0, 1, 2, 3, 4, 5, 6, 8));
    mail(1, 2);
    keep_receive(2, 9);
    AT_ODDS(1, 2, PICTURE(0, 1, 9, 3, 4, 5, 6, 8));
    mail(0, 7);
    keep_receive(7, 10);
    AT_ODDS(0, 7, PICTURE(0, 1, 9, 3, 4, 5, 6, 10));
    REFUSED(NO_PLACE, PICTURE(0, 1, 2, 3, 4, 5, 6));
    REFUSED(NO_PLACE, PICTURE(0, 1, 2, 3, 4, 5, 6, 7, 8));
    REFUSED(WRONG_OWNER, PICTURE(0, 1, 2, 3, 4, 5, 7, 6));
}

static void unkept_local(size_t desk)
{
    DONE(gulambitok_local(BOOK, desk, 0, now.stamp, 20, NULL, 0));
}

/* Desk 1 has 0.3 of desk 0 in its seat, a clock above its own limit. */
static void full_by_the_own_limit(void)
{
    DONE(gulambitok_start(BOOK, TWO(4, 2)));
    unkept_local(0);
    mail(0, 1);
    mail(0, 1);
    REFUSED(PHASE_FULL, gulambitok_send(BOOK, 0, 1, 0, now.stamp, 20, now.place, 1, NULL, 0));
    EXPECT(learnt(1, 1) == 1 && memcmp(now.stamp, "ST\1\2\0\3\0\1\0\0", 10) == 0);
    REFUSED(PHASE_FULL, gulambitok_local(BOOK, 1, 0, now.stamp, 20, NULL, 0));
    REFUSED(PHASE_FULL, gulambitok_send(BOOK, 1, 0, 0, now.stamp, 20, now.place, 1, NULL, 0));
    REFUSED(PHASE_FULL, gulambitok_receive(BOOK, 1, 0, 0, now.stamp, 20, now.learnt, 1, NULL, 0));
    keep_reset(1, 0);
    EXPECT(learnt(1, 0) == 0 && memcmp(now.stamp, "ST\1\2\0\3\1\1\0\0", 10) == 0);
    REFUSED(PHASE_FULL, gulambitok_local(BOOK, 1, 0, now.stamp, 20, NULL, 0));
}

#define STAMP_TWICE now.stamp, 20, now.stamp, 20
#define STAMP_FIRST now.stamp, 20, now.second, 20
#define STAMP_SECOND now.second, 20, now.stamp, 20

/* Of the same book: the record of its last event, 0.3 of desk 0 and 1.1 of desk 1, beside one of zeros. */
static void records_by_the_limits(void)
{
    memcpy(now.second, "ST\1\2\0\0\0\0\0\0\0\0\0\0\0\0\0\0\0\0", 20);
    was = now;
    DONE(gulambitok_label_compare(TWO(4, 2), STAMP_TWICE, now.answer, 1));
    EXPECT(now.answer[0] == GULAMBITOK_SAME);
    DONE(gulambitok_label_before(TWO(4, 2), STAMP_SECOND, now.answer, 1));
    EXPECT(now.answer[0] == 1);
    DONE(gulambitok_label_newest(TWO(4, 2), STAMP_FIRST, now.answer, 1));
    EXPECT(now.answer[0] == GULAMBITOK_FIRST);
    REFUSED(BAD_STAMP, gulambitok_label_before(TWO(2, 4), STAMP_FIRST, now.answer, 1));
    REFUSED(BAD_STAMP, gulambitok_label_before(TWO(2, 4), STAMP_SECOND, now.answer, 1));
    REFUSED(BAD_STAMP, gulambitok_label_compare(TWO(2, 4), STAMP_TWICE, now.answer, 1));
    REFUSED(BAD_STAMP, gulambitok_label_compare(TWO(3, 2), STAMP_SECOND, now.answer, 1));
    REFUSED(BAD_STAMP, gulambitok_label_newest(TWO(3, 255), STAMP_FIRST, now.answer, 1));
}

/* A byte of the book is changed, and changed back. */
static void spoilt(const char *what, uint8_t *byte, uint8_t spoil)
{
    uint8_t held = *byte;
    *byte = spoil;
    was = now;
    refused(what, gulambitok_discard(BOOK, 31), GULAMBITOK_BAD_BOOK);
    *byte = held;
    was = now;
    refused(what, gulambitok_discard(BOOK, 31), GULAMBITOK_NO_PLACE);
}

#define SPOILT(byte, spoil) spoilt(#byte " as " #spoil, byte, spoil)

/* Of the same book: seat 1, place 0 and slot 1 have 0.3 of desk 0, and of desk 1 2.1, 2.1 and 2.0. */
static void books_by_the_limits(void)
{
    uint8_t *seat_row = now.book + GULAMBITOK_SEATS_AT + GULAMBITOK_RECORD_BYTES + GULAMBITOK_ROW_AT;
    uint8_t *mail_row = now.book + GULAMBITOK_MAIL_AT + GULAMBITOK_ROW_AT;
    uint8_t *slot_row = now.book + GULAMBITOK_SHELF_AT + GULAMBITOK_RECORD_BYTES + GULAMBITOK_ROW_AT;
    keep_reset(1, 1);
    mail(1, 0);
    SPOILT(limit_in(0), 3);
    SPOILT(limit_in(0), 0);
    SPOILT(limit_in(1), 1);
    SPOILT(limit_in(1), 0);
    SPOILT(limit_in(2), 2);
    SPOILT(limit_in(7), 255);
    SPOILT(now.book + GULAMBITOK_HEADER_PHASES_AT + 1, 4);
    SPOILT(seat_row + 1, 4);
    SPOILT(seat_row + 3, 2);
    SPOILT(mail_row + 1, 4);
    SPOILT(mail_row + 3, 2);
    SPOILT(slot_row + 1, 4);
    SPOILT(slot_row + 3, 2);
    REFUSED(PHASE_FULL, gulambitok_local(BOOK, 1, 0, now.stamp, 20, NULL, 0));
    *limit_in(1) = 3;
    unkept_local(1);
    REFUSED(PHASE_FULL, gulambitok_local(BOOK, 1, 0, now.stamp, 20, NULL, 0));
}

/* The least limit has room for one event in a phase, the largest for 254. */
static void ends_of_the_range(void)
{
    DONE(gulambitok_start(BOOK, TWO(2, 255)));
    SPOILT(limit_in(0), 1);
    SPOILT(limit_in(1), 1);
    unkept_local(0);
    REFUSED(PHASE_FULL, gulambitok_local(BOOK, 0, 0, now.stamp, 20, NULL, 0));
    for (int clock = 1; clock < 255; clock++)
        unkept_local(1);
    EXPECT(memcmp(now.stamp, "ST\1\2\0\0\0\xFE", 8) == 0);
    REFUSED(PHASE_FULL, gulambitok_local(BOOK, 1, 0, now.stamp, 20, NULL, 0));
    DONE(gulambitok_label_compare(TWO(2, 255), STAMP_TWICE, now.answer, 1));
    REFUSED(BAD_STAMP, gulambitok_label_compare(TWO(2, 254), STAMP_TWICE, now.answer, 1));
    EXPECT(*limit_in(0) == 2 && *limit_in(1) == 255 && *limit_in(2) == 0);
}

/* A book that has its one limit in the header, between P and M, is not sound. */
static void one_limit_in_the_header(void)
{
    DONE(gulambitok_start(BOOK, ROOMY));
    now.book[GULAMBITOK_HEADER_PHASES_AT + 1] = 40;
    for (size_t seat = 0; seat < GULAMBITOK_SEATS; seat++)
        *limit_in(seat) = 0;
    was = now;
    REFUSED(BAD_BOOK, gulambitok_local(BOOK, 0, 0, now.stamp, 20, NULL, 0));
    DONE(gulambitok_start(BOOK, ROOMY));
    unkept_local(0);
}

#define RING(phases) 2, phases, LIST(4, 4), 1, 1, 1, 1
#define LONG_LAGS(phases, shelf_lag) 2, phases, LIST(4, 4), 127, shelf_lag, 127, 127
#define FULL LONG_LAGS(GULAMBITOK_FULL_RING, 255)

/* Cut to a byte 259 would be 3, and 0, 512 and the last but one the 0 that tells 256. */
static void rings_refused(void)
{
    const size_t outside[] = {0, 1, 2, 257, 259, 512, ((size_t)1 << 32) + 256, SIZE_MAX};
    for (size_t i = 0; i < sizeof outside / sizeof *outside; i++) {
        REFUSED(BAD_SETUP, gulambitok_start(BOOK, RING(outside[i])));
        REFUSED(BAD_SETUP, gulambitok_office_start(BOOK, NULL, 0, RING(outside[i])));
        REFUSED(BAD_SETUP, gulambitok_may(RING(outside[i]), NO_SUMMARY));
        REFUSED(BAD_SETUP, gulambitok_label_before(RING(outside[i]), NO_LABELS));
        REFUSED(BAD_SETUP, gulambitok_label_compare(RING(outside[i]), NO_LABELS));
        REFUSED(BAD_SETUP, gulambitok_label_newest(RING(outside[i]), NO_LABELS));
    }
    REFUSED(BAD_SETUP, gulambitok_start(BOOK, LONG_LAGS(255, 255)));
    REFUSED(BAD_SETUP, gulambitok_start(BOOK, LONG_LAGS(256, 256)));
}

/* Desk 0 turns so many phases on, as far as desk 1 may lag, and tells it. */
static void turns_and_tells(int phases)
{
    for (int i = 0; i < phases; i++)
        DONE(gulambitok_reset(BOOK, 0, 0, now.stamp, 20, NULL, 0));
    mail(0, 1);
    EXPECT(learnt(1, 0) == 1);
}

/* Once round: the phase after 255 is 0, and is later than 255 in the seat of desk 1. */
static void full_ring(void)
{
    rings_refused();
    DONE(gulambitok_start(BOOK, FULL));
    EXPECT(memcmp(now.book, "BK\2\0\0\x7F\xFF\x7F\x7F\0\0\0\0\0\0\0SE\0\4", 20) == 0);
    SPOILT(now.book + GULAMBITOK_HEADER_PHASES_AT, 1);
    SPOILT(now.book + GULAMBITOK_HEADER_PHASES_AT, 2);
    SPOILT(now.book + GULAMBITOK_HEADER_PHASES_AT, 255);
    turns_and_tells(127);
    turns_and_tells(127);
    DONE(gulambitok_reset(BOOK, 0, 0, now.second, 20, NULL, 0));
    EXPECT(memcmp(now.second, "ST\0\2\xFF\0\0\0", 8) == 0);
    turns_and_tells(1);
    EXPECT(memcmp(now.stamp, "ST\1\2\0\1\0\3", 8) == 0);
}

/* Of that book: 255.0 of desk 0, and what desk 1 has of it since; the record does not say which ring it is of. */
static void records_of_the_full_ring(void)
{
    DONE(gulambitok_label_before(FULL, STAMP_SECOND, now.answer, 1));
    EXPECT(now.answer[0] == 1);
    DONE(gulambitok_label_newest(FULL, STAMP_FIRST, now.answer, 1));
    EXPECT(now.answer[0] == GULAMBITOK_FIRST);
    REFUSED(BAD_STAMP, gulambitok_label_before(LONG_LAGS(255, 254), STAMP_SECOND, now.answer, 1));
    DONE(gulambitok_label_compare(LONG_LAGS(255, 254), STAMP_TWICE, now.answer, 1));
}

#define NO_VALUES NULL, 0, NULL, 0

/* Whatever is wrong with the book or the setup comes first; then a summary of other than 26 bytes. */
static void office_start_refused(void)
{
    REFUSED(BAD_BOOK, gulambitok_office_start(now.book, sizeof now.book - 1, NULL, 0, NO_LIMITS));
    REFUSED(BAD_SETUP, gulambitok_office_start(BOOK, NULL, 0, NO_LIMITS));
    REFUSED(BAD_SETUP, gulambitok_office_start(BOOK, SUMMARY, 3, 4, LIST(4, 3, 255), 2, 4, 2, 2));
    REFUSED(BAD_SUMMARY, gulambitok_office_start(BOOK, NULL, 0, ROOMY));
    REFUSED(BAD_SUMMARY, gulambitok_office_start(BOOK, now.summary, 25, ROOMY));
    REFUSED(BAD_SUMMARY, gulambitok_office_start(BOOK, now.summary, 27, ROOMY));
}

/* On a fresh book: what the book refuses comes first, a buffer too short next, then the summary's length. */
static void office_refused(void)
{
    REFUSED(BAD_BOOK, gulambitok_office_local(now.book, sizeof now.book - 1, NULL, 0, 0, 0, NO_VALUES));
    REFUSED(NO_DESK, gulambitok_office_local(BOOK, NULL, 0, 256, 1, NO_VALUES));
    REFUSED(NO_ROOM, gulambitok_office_local(BOOK, NULL, 0, 0, 0, now.stamp, 19, NULL, 0));
    REFUSED(NO_ROOM, gulambitok_office_local(BOOK, NULL, 0, 0, 1, now.stamp, 20, NULL, 0));
    REFUSED(BAD_SUMMARY, gulambitok_office_local(BOOK, now.summary, 25, 0, 0, now.stamp, 20, NULL, 0));
    REFUSED(BAD_SUMMARY, gulambitok_office_local(BOOK, now.summary, 27, 0, 1, now.stamp, 20, now.slot, 1));
    REFUSED(BAD_BOOK, gulambitok_office_send(NULL, 0, NULL, 0, 0, 1, 0, NO_VALUES, NULL, 0));
    REFUSED(SAME_DESK, gulambitok_office_send(BOOK, NULL, 0, 2, 2, 1, NO_VALUES, NULL, 0));
    REFUSED(NO_ROOM, gulambitok_office_send(BOOK, NULL, 0, 0, 1, 0, now.stamp, 20, NO_VALUES));
    REFUSED(BAD_SUMMARY, gulambitok_office_send(BOOK, NULL, 0, 0, 1, 0, now.stamp, 20, now.place, 1, NULL, 0));
    REFUSED(BAD_BOOK, gulambitok_office_receive(NULL, 0, SUMMARY, 1, 0, 0, NO_VALUES, NULL, 0));
    REFUSED(NO_PLACE, gulambitok_office_receive(BOOK, NULL, 0, 1, 0, 0, NO_VALUES, NULL, 0));
    REFUSED(BAD_BOOK, gulambitok_office_reset(NULL, 0, SUMMARY, 0, 0, NO_VALUES));
    REFUSED(NO_DESK, gulambitok_office_reset(BOOK, now.summary, 27, 3, 0, NO_VALUES));
    REFUSED(NO_ROOM, gulambitok_office_reset(BOOK, now.summary, 27, 0, 0, now.stamp, 19, NULL, 0));
    REFUSED(BAD_SUMMARY, gulambitok_office_reset(BOOK, now.summary, 27, 0, 0, now.stamp, 20, NULL, 0));
    REFUSED(BAD_BOOK, gulambitok_office_drop(NULL, 0, NULL, 0, 0));
    REFUSED(NO_PLACE, gulambitok_office_drop(BOOK, NULL, 0, 0));
    REFUSED(BAD_BOOK, gulambitok_office_discard(NULL, 0, NULL, 0, 0));
    REFUSED(NO_PLACE, gulambitok_office_discard(BOOK, NULL, 0, 31));
}

/* The changes through the office, by the summary itself or by papers that hold it. */
static int by_papers;
static const struct gulambitok_papers papers = {now.summary, GULAMBITOK_SUMMARY_BYTES};

#define PAPERS BOOK, &papers
#define BESIDE BOOK, SUMMARY
#define ROOM(buffer) buffer, sizeof buffer

static uint8_t office_start(void)
{
    return by_papers ? gulambitok_papers_start(PAPERS, ROOMY) : gulambitok_office_start(BESIDE, ROOMY);
}

static uint8_t office_local(size_t desk, size_t keep)
{
    return by_papers ? gulambitok_papers_local(PAPERS, desk, keep, ROOM(now.stamp), ROOM(now.slot))
                     : gulambitok_office_local(BESIDE, desk, keep, ROOM(now.stamp), ROOM(now.slot));
}

#define SENT ROOM(now.stamp), ROOM(now.place), ROOM(now.slot)
#define RECEIVED ROOM(now.stamp), ROOM(now.learnt), ROOM(now.slot)

static uint8_t office_send(size_t desk, size_t to, size_t keep)
{
    return by_papers ? gulambitok_papers_send(PAPERS, desk, to, keep, SENT)
                     : gulambitok_office_send(BESIDE, desk, to, keep, SENT);
}

static uint8_t office_receive(size_t desk, size_t place, size_t keep)
{
    return by_papers ? gulambitok_papers_receive(PAPERS, desk, place, keep, RECEIVED)
                     : gulambitok_office_receive(BESIDE, desk, place, keep, RECEIVED);
}

static uint8_t office_reset(size_t desk, size_t keep)
{
    return by_papers ? gulambitok_papers_reset(PAPERS, desk, keep, ROOM(now.stamp), ROOM(now.slot))
                     : gulambitok_office_reset(BESIDE, desk, keep, ROOM(now.stamp), ROOM(now.slot));
}

static uint8_t office_drop(size_t slot)
{
    return by_papers ? gulambitok_papers_drop(PAPERS, slot) : gulambitok_office_drop(BESIDE, slot);
}

static uint8_t office_discard(size_t place)
{
    return by_papers ? gulambitok_papers_discard(PAPERS, place) : gulambitok_office_discard(BESIDE, place);
}

/* Book and values are those of the call on the book alone, which is made on what was; the summary has its mark
 * and the lags of desk 0, zeros for desks that never reset and for those that are not there. */
static void changed(const char *what, uint8_t answer, uint8_t alone, uint8_t seats, uint8_t mail, uint8_t shelf)
{
    uint8_t *lags = was.summary + GULAMBITOK_SUMMARY_LAGS_AT;
    memcpy(was.summary, "\x53\x55", 2);
    memset(lags, 0, GULAMBITOK_SEATS * GULAMBITOK_SUMMARY_DESK_BYTES);
    lags[GULAMBITOK_SUMMARY_SEATS_AT] = seats;
    lags[GULAMBITOK_SUMMARY_MAIL_AT] = mail;
    lags[GULAMBITOK_SUMMARY_SHELF_AT] = shelf;
    expect(what, answer == GULAMBITOK_DONE && alone == GULAMBITOK_DONE && memcmp(&now, &was, sizeof now) == 0);
    was = now;
}

#define ALONE was.book, sizeof was.book
#define CHANGED(call, alone, seats, mail, shelf) changed(#call, call, alone, seats, mail, shelf)
#define LOCAL(desk, keep, ...) CHANGED(office_local(desk, keep), \
    gulambitok_local(ALONE, desk, keep, ROOM(was.stamp), ROOM(was.slot)), __VA_ARGS__)
#define SEND(desk, to, keep, ...) CHANGED(office_send(desk, to, keep), \
    gulambitok_send(ALONE, desk, to, keep, ROOM(was.stamp), ROOM(was.place), ROOM(was.slot)), __VA_ARGS__)
#define RECEIVE(desk, place, keep, ...) CHANGED(office_receive(desk, place, keep), \
    gulambitok_receive(ALONE, desk, place, keep, ROOM(was.stamp), ROOM(was.learnt), ROOM(was.slot)), __VA_ARGS__)
#define RESET(desk, keep, ...) CHANGED(office_reset(desk, keep), \
    gulambitok_reset(ALONE, desk, keep, ROOM(was.stamp), ROOM(was.slot)), __VA_ARGS__)
#define DROP(slot, ...) CHANGED(office_drop(slot), gulambitok_drop(ALONE, slot), __VA_ARGS__)
#define DISCARD(place, ...) CHANGED(office_discard(place), gulambitok_discard(ALONE, place), __VA_ARGS__)

/* Whatever a summary held, its mark among it, an accepted change mends it. */
static void spoil_summary(uint8_t byte)
{
    memset(now.summary, byte, GULAMBITOK_SUMMARY_BYTES);
    was = now;
}

/* May writes its answer and nothing else; that is spoilt, so that the next call has to write it. */
static void told(const char *what, uint8_t answer, uint8_t number)
{
    was.answer[0] = number;
    expect(what, answer == GULAMBITOK_DONE && memcmp(&now, &was, sizeof now) == 0);
    memset(now.answer, 0xEE, sizeof now.answer);
    was = now;
}

#define MAY(desk) gulambitok_may(ROOMY, SUMMARY, desk, ROOM(now.answer))
#define TOLD(number, call) told(#call, call, GULAMBITOK_##number)

/* M is 2 and A 4. Desk 0 turns to 1 and 2; its stamps 0.1, 1.1 and 2.0 are in slots 0 to 2, its mail 1.1 goes to
 * desk 1, and from there, with the phase 1, to slot 3, to desk 2 and, in place 0, to desk 0. */
static void office_changes(void)
{
    spoil_summary(0xFF);
    CHANGED(office_start(), gulambitok_start(ALONE, ROOMY), 0, 0, 0);
    TOLD(DONE, MAY(0));
    spoil_summary(0);
    LOCAL(0, 1, 0, 0, 0);
    spoil_summary(0xEE);
    RESET(0, 0, 1, 0, 1);
    EXPECT(memcmp(now.stamp, "ST\0\3\1\0\0\0", 8) == 0);
    TOLD(DONE, MAY(0));
    SEND(0, 1, 1, 1, 0, 1);
    REFUSED(NO_ROOM, gulambitok_office_receive(BOOK, NULL, 0, 1, 0, 0, ROOM(now.stamp), NO_VALUES));
    REFUSED(BAD_SUMMARY, gulambitok_office_receive(BOOK, now.summary, 25, 1, 0, 0, RECEIVED));
    RESET(0, 1, 2, 1, 2);
    TOLD(SEAT_BEHIND, MAY(0));
    REFUSED(SEAT_BEHIND, office_reset(0, 0));
    REFUSED(SEAT_BEHIND, gulambitok_office_reset(BOOK, NULL, 0, 0, 1, NO_VALUES));
    RECEIVE(1, 0, 1, 2, 0, 2);
    EXPECT(now.learnt[0] == 1 && now.slot[0] == 3);
    TOLD(SEAT_BEHIND, MAY(0));
    TOLD(DONE, MAY(1));
    TOLD(DONE, MAY(2));
    SEND(1, 2, 0, 2, 1, 2);
    RECEIVE(2, 0, 0, 1, 0, 2);
    TOLD(DONE, MAY(0));
    SEND(2, 0, 0, 1, 1, 2);
}

/* Of that book: desk 0 turns on to 3, to 4 and to 0 again, and all hear of it through place 1. */
static void office_lags(void)
{
    RESET(0, 0, 2, 2, 3);
    TOLD(SEAT_BEHIND, MAY(0));
    SEND(0, 1, 0, 2, 2, 3);
    RECEIVE(1, 1, 0, 2, 2, 3);
    SEND(0, 2, 0, 2, 2, 3);
    RECEIVE(2, 1, 0, 0, 2, 3);
    TOLD(DONE, MAY(0));
    RESET(0, 0, 1, 3, 4);
    TOLD(SHELF_BEHIND, MAY(0));
    REFUSED(SHELF_BEHIND, office_reset(0, 0));
    REFUSED(BAD_SUMMARY, gulambitok_office_drop(BOOK, NULL, 0, 0));
    DROP(0, 1, 3, 3);
    REFUSED(NO_PLACE, office_drop(0));
    TOLD(DONE, MAY(0));
    RESET(0, 0, 2, 4, 4);
    TOLD(SEAT_BEHIND, MAY(0));
    SEND(0, 1, 0, 2, 4, 4);
    RECEIVE(1, 1, 0, 2, 4, 4);
    SEND(0, 2, 0, 2, 4, 4);
    RECEIVE(2, 1, 0, 0, 4, 4);
    TOLD(MAIL_BEHIND, MAY(0));
    REFUSED(MAIL_BEHIND, office_reset(0, 1));
    REFUSED(BAD_SUMMARY, gulambitok_office_discard(BOOK, now.summary, 27, 0));
    spoil_summary(0xEE);
    DISCARD(0, 0, 0, 4);
    REFUSED(NO_PLACE, office_discard(0));
    TOLD(SHELF_BEHIND, MAY(0));
    DROP(1, 0, 0, 4);
    DROP(3, 0, 0, 3);
    TOLD(DONE, MAY(0));
}

/* Of that book: calls on the book alone know no summary, so it is false until the office makes a change. */
static void summary_left_alone(void)
{
    DONE(gulambitok_drop(BOOK, 2));
    EXPECT(now.summary[GULAMBITOK_SUMMARY_LAGS_AT + GULAMBITOK_SUMMARY_SHELF_AT] == 3);
    DONE(gulambitok_reset(BOOK, 0, 0, ROOM(now.stamp), NULL, 0));
    DONE(gulambitok_reset(BOOK, 0, 0, ROOM(now.stamp), NULL, 0));
    TOLD(DONE, MAY(0));
    LOCAL(2, 0, 2, 0, 0);
    TOLD(SEAT_BEHIND, MAY(0));
}

/* BadSetup comes first, then NoDesk, then the answer's room, then the summary. */
static void may_refused(void)
{
    REFUSED(BAD_SETUP, gulambitok_may(NO_LIMITS, NO_SUMMARY));
    REFUSED(BAD_SETUP, gulambitok_may(THREE(40, 50), SUMMARY, 0, ROOM(now.answer)));
    REFUSED(BAD_SETUP, gulambitok_may(3, 4, LIST(40, 50, 60), 2, 4, 2, 2, SUMMARY, 0, ROOM(now.answer)));
    REFUSED(NO_DESK, gulambitok_may(ROOMY, NO_SUMMARY));
    REFUSED(NO_DESK, MAY(3));
    REFUSED(NO_DESK, MAY(256));
    REFUSED(NO_DESK, MAY((size_t)1 << 32));
    REFUSED(NO_DESK, MAY(SIZE_MAX));
    REFUSED(NO_ROOM, gulambitok_may(ROOMY, SUMMARY, 0, NULL, 0));
    REFUSED(NO_ROOM, gulambitok_may(ROOMY, NULL, 0, 0, now.answer, 0));
    REFUSED(BAD_SUMMARY, gulambitok_may(ROOMY, NULL, 0, 0, ROOM(now.answer)));
    REFUSED(BAD_SUMMARY, gulambitok_may(ROOMY, now.summary, 25, 0, ROOM(now.answer)));
    REFUSED(BAD_SUMMARY, gulambitok_may(ROOMY, now.summary, 27, 0, ROOM(now.answer)));
}

static void with_byte(size_t at, uint8_t byte)
{
    now.summary[at] = byte;
    was = now;
}

/* Each lag as large as it may be, and larger: of all eight desks, though there are three. Desk 1 is asked. */
static void lags_about_their_bounds(void)
{
    const uint8_t bounds[] = {2, 4, 4}, numbers[] = {11, 12, 13};
    DONE(gulambitok_office_start(BESIDE, ROOMY));
    for (size_t lag = 0; lag < GULAMBITOK_SEATS * GULAMBITOK_SUMMARY_DESK_BYTES; lag++) {
        size_t at = GULAMBITOK_SUMMARY_LAGS_AT + lag;
        with_byte(at, (uint8_t)(bounds[lag % 3] - 1));
        TOLD(DONE, MAY(1));
        with_byte(at, bounds[lag % 3]);
        told("a lag at its bound", MAY(1), lag / 3 == 1 ? numbers[lag % 3] : 0);
        with_byte(at, (uint8_t)(bounds[lag % 3] + 1));
        REFUSED(BAD_SUMMARY, MAY(1));
        with_byte(at, 0xFF);
        REFUSED(BAD_SUMMARY, MAY(1));
        REFUSED(NO_ROOM, gulambitok_may(ROOMY, SUMMARY, 1, NULL, 0));
        with_byte(at, 0);
    }
}

/* Both bytes of the mark are asked; the first lag that is as large as it may be decides. */
static void marks_and_order(void)
{
    with_byte(0, 0x55);
    REFUSED(BAD_SUMMARY, MAY(0));
    with_byte(0, 0x53);
    with_byte(1, 0x54);
    REFUSED(BAD_SUMMARY, MAY(0));
    with_byte(1, 0x55);
    with_byte(10, 4);
    TOLD(SHELF_BEHIND, MAY(2));
    with_byte(9, 4);
    TOLD(MAIL_BEHIND, MAY(2));
    with_byte(8, 2);
    TOLD(SEAT_BEHIND, MAY(2));
    with_byte(9, 3);
    TOLD(SEAT_BEHIND, MAY(2));
    TOLD(DONE, MAY(1));
}

#define MAY_ROUND(desk) gulambitok_may(FULL, SUMMARY, desk, ROOM(now.answer))

/* On the full ring M is 127 and A 255: no byte is too large for a stamp's lag. Desk 1 has not started. */
static void may_on_the_full_ring(void)
{
    DONE(gulambitok_office_start(BESIDE, FULL));
    for (int i = 0; i < 127; i++) {
        TOLD(DONE, MAY_ROUND(0));
        DONE(gulambitok_office_reset(BESIDE, 0, 0, ROOM(now.stamp), NULL, 0));
    }
    TOLD(SEAT_BEHIND, MAY_ROUND(0));
    EXPECT(memcmp(now.summary, "SU\x7F\0\0\0\0\0", 8) == 0);
    with_byte(2, 126);
    with_byte(4, 255);
    TOLD(SHELF_BEHIND, MAY_ROUND(0));
    with_byte(3, 254);
    TOLD(MAIL_BEHIND, MAY_ROUND(0));
    with_byte(3, 255);
    REFUSED(BAD_SUMMARY, MAY_ROUND(1));
    REFUSED(BAD_SETUP, gulambitok_may(LONG_LAGS(0, 255), SUMMARY, 0, ROOM(now.answer)));
}

static void office(void)
{
    office_start_refused();
    DONE(gulambitok_start(BOOK, ROOMY));
    office_refused();
    memset(now.answer, 0xEE, sizeof now.answer);
    for (by_papers = 0; by_papers < 2; by_papers++) {
        office_changes();
        office_lags();
        summary_left_alone();
    }
    may_refused();
    lags_about_their_bounds();
    marks_and_order();
    may_on_the_full_ring();
}

int main(void)
{
    memset(&now, 0xEE, sizeof now);
    was = now;
    start();
    local();
    send_and_receive();
    shelf();
    reset_and_labels();
    reset_edge();
    full_shelf();
    mail_that_tells_more();
    mail_that_tells_nothing();
    picture();
    picture_refused();
    picture_after_resets();
    picture_of_eight();
    full_by_the_own_limit();
    records_by_the_limits();
    books_by_the_limits();
    ends_of_the_range();
    one_limit_in_the_header();
    full_ring();
    records_of_the_full_ring();
    office();
    return wrong;
}
