/* One named call, made many times on an empty or a full book, so that its cost can be counted.
 *
 * calls NAME empty|full|almost|pictured PHASES TIMES prints the last answer, a sum of every byte
 * lent, and the nanoseconds taken, on a ring of so many phases. Almost is full but for its last
 * place; pictured is full, and its first slots hold a picture of all desks.
 * Build with PREFIX plain_ and HEADER "book.h", or PREFIX gulambitok_ and HEADER "gulambitok.h".
 */
#include HEADER
#include "vectors.h"

#include <stdio.h>
#include <stdlib.h>
#include <string.h>
#include <time.h>

#define JOIN_NAMES(prefix, name) prefix##name
#define JOIN(prefix, name) JOIN_NAMES(prefix, name)
#define CALL(name) JOIN(PREFIX, name)

#define OFFICE book, BOOK, summary, SUMMARY
#define SETUP DESKS, phases, limits, DESKS, 100, 200, 100, 100

enum {
    BOOK = 1456, SUMMARY = 26, STAMP = 20, ROW = 16, ODDS = 2, DESKS = 8, PLACES_AND_SLOTS = 32,
    RESET_EVERY = 5
};

static uint8_t book[BOOK], prepared[BOOK], stamp[STAMP], row[ROW], odds[ODDS], learnt, slot, value;
static uint8_t summary[SUMMARY], prepared_summary[SUMMARY];
static size_t phases;
static const size_t limits[DESKS] = {255, 255, 255, 255, 255, 255, 255, 255};
static const size_t first_slots[DESKS] = {0, 1, 2, 3, 4, 5, 6, 7};
static uint8_t first_label[STAMP], second_label[STAMP];
static const uint32_t first_vector[VECTOR_DESKS] = {3, 1, 4, 1, 5, 9, 2, 6};
static const uint32_t second_vector[VECTOR_DESKS] = {3, 1, 4, 2, 5, 9, 2, 7};

/* A book that is not the one meant would be counted in its place, so a refusal ends the run. */
static void must(uint8_t answer)
{
    if (answer == 0)
        return;
    fprintf(stderr, "calls: a preparing call was refused with %d\n", answer);
    exit(1);
}

/* Books are made through the office, so that each has its own summary beside it. */
static void fresh(void)
{
    must(CALL(office_start)(OFFICE, SETUP));
}

static void with_mail(void)
{
    fresh();
    must(CALL(office_send)(OFFICE, 0, 1, 0, stamp, STAMP, &value, 1, NULL, 0));
}

/* The mail that is sent is received, so the book holds two stamps and no more. */
static void with_stamps(void)
{
    fresh();
    must(CALL(office_send)(OFFICE, 0, 1, 1, stamp, STAMP, &value, 1, &slot, 1));
    must(CALL(office_receive)(OFFICE, 1, 0, 1, stamp, STAMP, &learnt, 1, &slot, 1));
}

static void keep_each_desk(void)
{
    for (size_t desk = 0; desk < DESKS; desk++)
        must(CALL(office_local)(OFFICE, desk, 1, stamp, STAMP, &slot, 1));
}

static void with_picture(void)
{
    fresh();
    keep_each_desk();
}

/* Desks take turns; each is mailed by its neighbour and resets now and then, so rows hold many phases.
 * The last receipt is not kept: a kept event finds the last slot free. */
static void shelve(void)
{
    for (size_t turn = 0; turn < PLACES_AND_SLOTS; turn++) {
        size_t desk = turn % DESKS, next = (desk + 1) % DESKS, keep = turn + 1 < PLACES_AND_SLOTS;
        if (turn % RESET_EVERY == 0)
            must(CALL(office_reset)(OFFICE, desk, 0, stamp, STAMP, NULL, 0));
        must(CALL(office_send)(OFFICE, desk, next, 0, stamp, STAMP, &value, 1, NULL, 0));
        must(CALL(office_receive)(OFFICE, next, value, keep, stamp, STAMP, &learnt, 1, &slot, 1));
    }
}

static void post(size_t mails)
{
    for (size_t turn = 0; turn < mails; turn++) {
        size_t desk = turn % DESKS, next = (desk + 1) % DESKS;
        must(CALL(office_send)(OFFICE, desk, next, 0, stamp, STAMP, &value, 1, NULL, 0));
    }
}

/* No place is free, so a send is refused. */
static void full(void)
{
    fresh();
    shelve();
    post(PLACES_AND_SLOTS);
}

/* The last place is free, so a send is accepted. */
static void almost_full(void)
{
    fresh();
    shelve();
    post(PLACES_AND_SLOTS - 1);
}

/* Word goes on from each stamp of shelve to the next, so any two are at odds: the first make way for
 * the last event of each desk, where no two are. */
static void full_with_picture(void)
{
    full();
    for (size_t desk = 0; desk < DESKS; desk++)
        must(CALL(office_drop)(OFFICE, first_slots[desk]));
    keep_each_desk();
}

static uint8_t no_call(void)
{
    return 0;
}

/* Refused for its slot straight after the book was found sound: the check, and little else. */
static uint8_t sound(void)
{
    return CALL(drop)(book, BOOK, PLACES_AND_SLOTS);
}

static uint8_t start(void)
{
    return CALL(start)(book, BOOK, SETUP);
}

static uint8_t local(void)
{
    return CALL(local)(book, BOOK, 0, 0, stamp, STAMP, NULL, 0);
}

static uint8_t local_kept(void)
{
    return CALL(local)(book, BOOK, 0, 1, stamp, STAMP, &slot, 1);
}

static uint8_t send(void)
{
    return CALL(send)(book, BOOK, 0, 1, 0, stamp, STAMP, &value, 1, NULL, 0);
}

static uint8_t send_kept(void)
{
    return CALL(send)(book, BOOK, 0, 1, 1, stamp, STAMP, &value, 1, &slot, 1);
}

static uint8_t receive(void)
{
    return CALL(receive)(book, BOOK, 1, 0, 0, stamp, STAMP, &learnt, 1, NULL, 0);
}

static uint8_t receive_kept(void)
{
    return CALL(receive)(book, BOOK, 1, 0, 1, stamp, STAMP, &learnt, 1, &slot, 1);
}

static uint8_t reset(void)
{
    return CALL(reset)(book, BOOK, 0, 0, stamp, STAMP, NULL, 0);
}

static uint8_t reset_kept(void)
{
    return CALL(reset)(book, BOOK, 0, 1, stamp, STAMP, &slot, 1);
}

static uint8_t drop(void)
{
    return CALL(drop)(book, BOOK, 0);
}

static uint8_t discard(void)
{
    return CALL(discard)(book, BOOK, 0);
}

static uint8_t office_start(void)
{
    return CALL(office_start)(OFFICE, SETUP);
}

static uint8_t office_local(void)
{
    return CALL(office_local)(OFFICE, 0, 0, stamp, STAMP, NULL, 0);
}

static uint8_t office_local_kept(void)
{
    return CALL(office_local)(OFFICE, 0, 1, stamp, STAMP, &slot, 1);
}

static uint8_t office_send(void)
{
    return CALL(office_send)(OFFICE, 0, 1, 0, stamp, STAMP, &value, 1, NULL, 0);
}

static uint8_t office_receive(void)
{
    return CALL(office_receive)(OFFICE, 1, 0, 0, stamp, STAMP, &learnt, 1, NULL, 0);
}

static uint8_t office_reset(void)
{
    return CALL(office_reset)(OFFICE, 0, 0, stamp, STAMP, NULL, 0);
}

static uint8_t office_drop(void)
{
    return CALL(office_drop)(OFFICE, 0);
}

static uint8_t office_discard(void)
{
    return CALL(office_discard)(OFFICE, 0);
}

static uint8_t before(void)
{
    return CALL(before)(book, BOOK, 0, 1, &value, 1);
}

static uint8_t compare(void)
{
    return CALL(compare)(book, BOOK, 0, 1, &value, 1);
}

static uint8_t picture(void)
{
    return CALL(picture)(book, BOOK, first_slots, DESKS, &value, 1, odds, ODDS);
}

static uint8_t show(void)
{
    return CALL(show)(book, BOOK, 0, row, ROW);
}

static uint8_t write_slot(void)
{
    return CALL(write)(book, BOOK, 0, stamp, STAMP);
}

static uint8_t label_before(void)
{
    return CALL(label_before)(SETUP, first_label, STAMP, second_label, STAMP, &value, 1);
}

static uint8_t label_compare(void)
{
    return CALL(label_compare)(SETUP, first_label, STAMP, second_label, STAMP, &value, 1);
}

static uint8_t label_newest(void)
{
    return CALL(label_newest)(SETUP, first_label, STAMP, second_label, STAMP, &value, 1);
}

static uint8_t may(void)
{
    return CALL(may)(SETUP, summary, SUMMARY, 0, &value, 1);
}

static uint8_t vectors(void)
{
    value = vectors_compare(first_vector, second_vector);
    return 0;
}

/* Each call, and the least book on which it is accepted; may has the summary of the full one. */
static const struct entry { const char *name; void (*least)(void); uint8_t (*make)(void); } entries[] = {
    {"none", fresh, no_call},          {"sound", fresh, sound},
    {"start", fresh, start},
    {"local", fresh, local},           {"local_kept", fresh, local_kept},
    {"send", fresh, send},             {"send_kept", fresh, send_kept},
    {"receive", with_mail, receive},   {"receive_kept", with_mail, receive_kept},
    {"reset", fresh, reset},           {"reset_kept", fresh, reset_kept},
    {"drop", with_stamps, drop},       {"discard", with_mail, discard},
    {"office_start", fresh, office_start},
    {"office_local", fresh, office_local},
    {"office_local_kept", fresh, office_local_kept},
    {"office_send", fresh, office_send},
    {"office_receive", with_mail, office_receive},
    {"office_reset", fresh, office_reset},
    {"office_drop", with_stamps, office_drop},
    {"office_discard", with_mail, office_discard},
    {"before", with_stamps, before},   {"compare", with_stamps, compare},
    {"picture", with_picture, picture},
    {"show", with_stamps, show},       {"write", with_stamps, write_slot},
    {"label_before", with_stamps, label_before},
    {"label_compare", with_stamps, label_compare},
    {"label_newest", with_stamps, label_newest},
    {"may", full, may},
    {"vectors", fresh, vectors}
};

static const struct entry *entry_named(const char *name)
{
    for (size_t i = 0; i < sizeof entries / sizeof entries[0]; i++)
        if (strcmp(name, entries[i].name) == 0)
            return &entries[i];
    return NULL;
}

static void make_book(const struct entry *entry, const char *which)
{
    if (strcmp(which, "full") == 0)
        full();
    else if (strcmp(which, "almost") == 0)
        almost_full();
    else if (strcmp(which, "pictured") == 0)
        full_with_picture();
    else
        entry->least();
}

/* The labels are the first two slots as records, where the book has them. */
static void prepare(const struct entry *entry, const char *which)
{
    make_book(entry, which);
    if (CALL(write)(book, BOOK, 0, first_label, STAMP) == 0)
        must(CALL(write)(book, BOOK, 1, second_label, STAMP));
    memcpy(prepared, book, BOOK);
    memcpy(prepared_summary, summary, SUMMARY);
}

static unsigned long add_bytes(unsigned long sum, const uint8_t *bytes, size_t count)
{
    for (size_t i = 0; i < count; i++)
        sum = (sum ^ bytes[i]) * 1099511628211ul;
    return sum;
}

static unsigned long sum_of_bytes(void)
{
    unsigned long sum = add_bytes(14695981039346656037ul, book, BOOK);
    sum = add_bytes(sum, summary, SUMMARY);
    sum = add_bytes(sum, stamp, STAMP);
    sum = add_bytes(sum, row, ROW);
    sum = add_bytes(sum, odds, ODDS);
    sum = add_bytes(sum, &learnt, 1);
    sum = add_bytes(sum, &slot, 1);
    return add_bytes(sum, &value, 1);
}

static long nanoseconds(void)
{
    struct timespec now;
    clock_gettime(CLOCK_MONOTONIC, &now);
    return now.tv_sec * 1000000000l + now.tv_nsec;
}

int main(int words, char **word)
{
    const struct entry *entry = words == 5 ? entry_named(word[1]) : NULL;
    if (!entry) {
        fprintf(stderr, "usage: calls NAME empty|full|almost|pictured PHASES TIMES\n");
        return 2;
    }
    phases = strtoul(word[3], NULL, 10);
    prepare(entry, word[2]);
    uint8_t answer = 0;
    long times = atol(word[4]), began = nanoseconds();
    for (long i = 0; i < times; i++) {
        memcpy(book, prepared, BOOK);
        memcpy(summary, prepared_summary, SUMMARY);
        answer = entry->make();
    }
    long took = nanoseconds() - began;
    printf("%d %016lx %ld\n", answer, sum_of_bytes(), took);
    return 0;
}
