/* The listing of docs/RULES.md in plain C: lines on standard input, answers on standard output. */
#include "book.h"

#include <stdint.h>
#include <string.h>
#include <unistd.h>

/* A start may have any number of limits and a picture any number of slots, but their lines have room for
 * 14 numbers. A start has six others: two before its limits, four after them. */
enum { LINE_MOST = 64, BLOCK_BYTES = 4096, NUMBERS_MOST = 14, BESIDE_LIMITS = 6, BEFORE_LIMITS = 2 };

enum verb { START, LOCAL, SEND, RECEIVE, RESET, DROP, DISCARD, ASK_BEFORE, COMPARE, MAY, PICTURE,
            VERBS };

/* The bytes of each name, and the fewest and the most numbers that may follow it. */
static const struct { const char *name; size_t length, fewest, most; } verbs[VERBS] = {
    [START] = {"start", 5, BESIDE_LIMITS, NUMBERS_MOST},
    [LOCAL] = {"local", 5, 2, 2},
    [SEND] = {"send", 4, 3, 3},
    [RECEIVE] = {"receive", 7, 3, 3},
    [RESET] = {"reset", 5, 2, 2},
    [DROP] = {"drop", 4, 1, 1},
    [DISCARD] = {"discard", 7, 1, 1},
    [ASK_BEFORE] = {"before", 6, 2, 2},
    [COMPARE] = {"compare", 7, 2, 2},
    [MAY] = {"may", 3, 1, 1},
    [PICTURE] = {"picture", 7, 0, NUMBERS_MOST}
};

static const char *const relation_words[] = {
    [BEFORE] = "before", [AFTER] = "after", [SAME] = "same",
    [CONCURRENT] = "concurrent", [CROSSED] = "crossed"
};

/* Every change is made with the summary beside the book. */
#define OFFICE book, sizeof book, summary, sizeof summary

struct call {
    enum verb verb;
    size_t numbers, number[NUMBERS_MOST];
};

static uint8_t book[BOOK_BYTES], summary[SUMMARY_BYTES];

/* One byte over the limit is held, to tell a line of 64 bytes from a longer one. */
static char line[LINE_MOST + 1];
static size_t line_bytes;

/* A line prints fewer than eight bytes for each of its own, and its head may be of an earlier block. */
static char out[8 * (BLOCK_BYTES + LINE_MOST)];
static size_t out_bytes;

static void put_bytes(const char *bytes, size_t count)
{
    memcpy(out + out_bytes, bytes, count);
    out_bytes += count;
}

static void put_byte(char byte)
{
    out[out_bytes++] = byte;
}

static void put_number(unsigned number)
{
    const char digits[3] = {(char)('0' + number / 100), (char)('0' + number / 10 % 10),
                            (char)('0' + number % 10)};
    put_bytes(digits, sizeof digits);
}

static void put_field(unsigned number)
{
    put_byte(' ');
    put_number(number);
}

static void put_word(const char *word)
{
    put_byte(' ');
    put_bytes(word, strlen(word));
}

static void put_stamp_fields(const uint8_t *stamp)
{
    put_field(stamp[2]);
    for (size_t desk = 0; desk < stamp[3]; desk++) {
        put_field(stamp[ROW_AT + 2 * desk]);
        put_byte('.');
        put_number(stamp[ROW_AT + 2 * desk + 1]);
    }
}

/* Exactly three digits after one space. */
static int read_number(const char *text, size_t *number)
{
    if (text[0] != ' ')
        return 0;
    *number = 0;
    for (size_t i = 1; i <= 3; i++) {
        if (text[i] < '0' || text[i] > '9')
            return 0;
        *number = 10 * *number + (size_t)(text[i] - '0');
    }
    return 1;
}

/* The bytes of a line are those of the verb and four for each of its numbers. */
static int has_length(enum verb verb, size_t bytes)
{
    size_t of_verb = verbs[verb].length;
    return bytes >= of_verb + 4 * verbs[verb].fewest && bytes <= of_verb + 4 * verbs[verb].most
        && (bytes - of_verb) % 4 == 0;
}

static int read_verb(const char *text, size_t bytes, struct call *call)
{
    for (enum verb v = START; v < VERBS; v++)
        if (has_length(v, bytes) && memcmp(text, verbs[v].name, verbs[v].length) == 0) {
            call->verb = v;
            call->numbers = (bytes - verbs[v].length) / 4;
            return 1;
        }
    return 0;
}

static int is_event(enum verb verb)
{
    return verb == LOCAL || verb == SEND || verb == RECEIVE || verb == RESET;
}

/* The last number of an event: 1 to keep its stamp, 0 not to. */
static size_t wish(const struct call *call)
{
    return call->number[call->numbers - 1];
}

static size_t limits_in(const struct call *call)
{
    return call->numbers - BESIDE_LIMITS;
}

/* What the line's length does not tell. A start of fewer than 2 desks or over 8 is left to the call. */
static int numbers_fit(const struct call *call)
{
    size_t desks = call->number[0];
    if (call->verb == START)
        return desks < 2 || desks > SEATS || limits_in(call) == desks;
    return !is_event(call->verb) || wish(call) <= 1;
}

static int read_call(const char *text, size_t bytes, struct call *call)
{
    if (!read_verb(text, bytes, call))
        return 0;
    const char *next = text + verbs[call->verb].length;
    for (size_t i = 0; i < call->numbers; i++, next += 4)
        if (!read_number(next, &call->number[i]))
            return 0;
    return numbers_fit(call);
}

static uint8_t make_start(const struct call *c)
{
    const size_t *n = c->number, *limits = n + BEFORE_LIMITS, *after = limits + limits_in(c);
    return plain_office_start(OFFICE, n[0], n[1], limits, limits_in(c), after[0], after[1], after[2],
                              after[3]);
}

/* Verbs with nothing to print beside their answer. */
static uint8_t make_quiet_call(const struct call *c)
{
    const size_t *n = c->number;
    switch (c->verb) {
    case START:
        return make_start(c);
    case DROP:
        return plain_office_drop(OFFICE, n[0]);
    default:
        return plain_office_discard(OFFICE, n[0]);
    }
}

static uint8_t make_event(const struct call *c, uint8_t *stamp, uint8_t *place, uint8_t *learnt,
                          uint8_t *slot)
{
    const size_t *n = c->number;
    switch (c->verb) {
    case LOCAL:
        return plain_office_local(OFFICE, n[0], n[1], stamp, STAMP_BYTES, slot, 1);
    case SEND:
        return plain_office_send(OFFICE, n[0], n[1], n[2], stamp, STAMP_BYTES, place, 1, slot, 1);
    case RECEIVE:
        return plain_office_receive(OFFICE, n[0], n[1], n[2], stamp, STAMP_BYTES, learnt, 1, slot, 1);
    default:
        return plain_office_reset(OFFICE, n[0], n[1], stamp, STAMP_BYTES, slot, 1);
    }
}

static void answer_event(const struct call *c)
{
    uint8_t stamp[STAMP_BYTES], place, learnt, slot;
    uint8_t answer = make_event(c, stamp, &place, &learnt, &slot);
    put_number(answer);
    if (answer != DONE)
        return;
    if (c->verb == SEND)
        put_field(place);
    put_stamp_fields(stamp);
    if (c->verb == RECEIVE)
        put_field(learnt);
    if (wish(c))
        put_field(slot);
}

static void answer_before(const struct call *c)
{
    const size_t *n = c->number;
    uint8_t yes, answer = plain_before(book, sizeof book, n[0], n[1], &yes, 1);
    put_number(answer);
    if (answer == DONE)
        put_word(yes ? "yes" : "no");
}

static void answer_compare(const struct call *c)
{
    const size_t *n = c->number;
    uint8_t found, answer = plain_compare(book, sizeof book, n[0], n[1], &found, 1);
    put_number(answer);
    if (answer == DONE)
        put_word(relation_words[found]);
}

/* The setup that the header and the seats tell; the book is zeros or started, so of eight desks at most. */
static uint8_t make_may(size_t desk, uint8_t *foretold)
{
    size_t desks = book[2], phases = book[3] ? book[3] : FULL_RING, limits[SEATS];
    for (size_t other = 0; other < desks; other++)
        limits[other] = book[SEATS_AT + RECORD_BYTES * other + LIMIT_AT];
    return plain_may(desks, phases, limits, desks, book[5], book[6], book[7], book[8], summary,
                     sizeof summary, desk, foretold, 1);
}

static void answer_may(const struct call *c)
{
    uint8_t foretold, answer = make_may(c->number[0], &foretold);
    put_number(answer);
    if (answer != DONE)
        return;
    if (foretold == DONE)
        put_word("yes");
    else
        put_field(foretold);
}

static void answer_picture(const struct call *c)
{
    uint8_t yes, odds[ODDS_BYTES];
    uint8_t answer = plain_picture(book, sizeof book, c->number, c->numbers, &yes, 1, odds,
                                   sizeof odds);
    put_number(answer);
    if (answer != DONE)
        return;
    if (yes) {
        put_word("yes");
    } else {
        put_field(odds[0]);
        put_field(odds[1]);
    }
}

static void answer_call(const struct call *c)
{
    switch (c->verb) {
    case LOCAL: case SEND: case RECEIVE: case RESET:
        answer_event(c);
        break;
    case ASK_BEFORE:
        answer_before(c);
        break;
    case COMPARE:
        answer_compare(c);
        break;
    case MAY:
        answer_may(c);
        break;
    case PICTURE:
        answer_picture(c);
        break;
    default:
        put_number(make_quiet_call(c));
    }
}

static void answer_line(void)
{
    struct call call = {0};
    if (read_call(line, line_bytes, &call))
        answer_call(&call);
    else
        put_number(BAD_LINE);
    put_byte('\n');
    line_bytes = 0;
}

static void hold(const char *bytes, size_t count)
{
    size_t room = sizeof line - line_bytes;
    size_t taken = count < room ? count : room;
    memcpy(line + line_bytes, bytes, taken);
    line_bytes += taken;
}

static void take_block(const char *block, size_t bytes)
{
    const char *end = block + bytes;
    while (block < end) {
        const char *newline = memchr(block, '\n', (size_t)(end - block));
        hold(block, (size_t)((newline ? newline : end) - block));
        if (!newline)
            return;
        answer_line();
        block = newline + 1;
    }
}

static int write_out(void)
{
    for (size_t written = 0; written < out_bytes;) {
        ssize_t count = write(STDOUT_FILENO, out + written, out_bytes - written);
        if (count < 0)
            return 0;
        written += (size_t)count;
    }
    out_bytes = 0;
    return 1;
}

int main(void)
{
    static char block[BLOCK_BYTES];
    ssize_t count;
    while ((count = read(STDIN_FILENO, block, sizeof block)) > 0) {
        take_block(block, (size_t)count);
        if (!write_out())
            return 1;
    }
    if (line_bytes > 0)
        answer_line();
    return count == 0 && write_out() ? 0 : 1;
}
