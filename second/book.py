"""The portal book as bytes, by docs/RULES.md.

Every call takes the book (bytes of any length) and whole numbers of any size,
and hands back (number, values, book): the answer number, the values (none when
refused) and the bytes afterwards (the book it was lent when nothing changes).
The lent book itself is never written to. Among the numbers of a setup stands a
list of any length, the clock limits of the desks. An event's last number is the
wish to keep its stamp: 0 is no, any other is yes, and its slot is then the last
value. Between the stamp and any slot receive says how many other desks' entries
changed. Picture takes any number of slots; its values are a yes, or the two desks
at odds.

The office's calls are start and the changes with a summary beside the book (bytes
of any length, too): they take both and hand back (number, values, book, summary).
May takes a setup, a summary and a desk, but no book, and hands back (number,
values): what a reset there would be answered about lags, 0 for yes.

Off the book, the calls take a setup and two stamp records and hand back
(number, values). A record does not say of how many phases its ring is: the setup
does. A P of 256 is that number everywhere but in the header, where its byte is 0.
"""

from collections import namedtuple
from itertools import combinations, permutations

(DONE, BAD_BOOK, BAD_SETUP, NO_DESK, SAME_DESK, NO_PLACE, NOT_YOURS, NO_EVENT,
 PHASE_FULL, MAIL_FULL, SHELF_FULL, SEAT_BEHIND, MAIL_BEHIND, SHELF_BEHIND,
 BAD_STAMP, NO_ROOM, OUT_OF_REACH, BAD_LINE, WRONG_OWNER) = range(19)

BAD_SUMMARY = 21

BOOK_BYTES = 1456
RECORD_BYTES = 20
ROW_BYTES = 16
SUMMARY_BYTES = 26
SEATS, PLACES, SLOTS = 8, 32, 32
SEAT_AT, MAIL_AT, SHELF_AT = 16, 176, 816

HEADER_MARK = bytes.fromhex("424B")
SEAT_MARK = bytes.fromhex("5345")
MAIL_MARK = bytes.fromhex("4D41")
SHELF_MARK = bytes.fromhex("5348")
STAMP_MARK = bytes.fromhex("5354")
SUMMARY_MARK = bytes.fromhex("5355")

NO_ROW = bytes(ROW_BYTES)
FREE = bytes(RECORD_BYTES - 2)

Setup = namedtuple("Setup", "D P limits M A m n")
Stamp = namedtuple("Stamp", "owner row")

# The P of the full byte ring, whose phases are all that a byte holds.
FULL_RING = 256

RANGES = {"D": (2, 8), "P": (3, FULL_RING), "M": (1, 127), "A": (1, 255), "m": (1, 127), "n": (1, 127)}
LIMIT_RANGE = 2, 255


# Setup

def permitted(setup):
    D, P, limits, M, A, m, n = setup
    if not all(in_range(number, *ends)
               for number, ends in zip((D, P, M, A, m, n), RANGES.values())):
        return False
    return (limited(D, limits)
            and A >= M and P >= 2 * M + 1 and P >= A + 1 and P >= m + n)


def in_range(number, low, high):
    return low <= number <= high


def limited(D, limits):
    """A limit for each desk, and no more of them."""
    return len(limits) == D and all(in_range(limit, *LIMIT_RANGE) for limit in limits)


def setup_of(book):
    """The header has no limits: they stand in the seats of the desks below D."""
    D, byte, _, M, A, m, n = book[2:9]
    return Setup(D, phases_told(byte), tuple(book[limit_at(0):MAIL_AT:RECORD_BYTES][:D]), M, A, m, n)


def phases_told(byte):
    """The P that the header's byte tells: 256 has no byte of its own, so 0 stands for it."""
    return FULL_RING if byte == 0 else byte


def phases_byte(P):
    """The header's byte for a P that is permitted."""
    return 0 if P == FULL_RING else P


def header_of(D, P, *lags):
    return HEADER_MARK + bytes((D, phases_byte(P), 0, *lags)) + bytes(7)


# Where the records lie

def seat_at(desk):
    return SEAT_AT + RECORD_BYTES * desk


def place_at(place):
    return MAIL_AT + RECORD_BYTES * place


def slot_at(slot):
    return SHELF_AT + RECORD_BYTES * slot


def limit_at(desk):
    return seat_at(desk) + 3


def row_at(book, record):
    return bytes(book[record + 4:record + RECORD_BYTES])


def own_entry(desk):
    """Where a desk's own phase stands in its own seat; its clock is next."""
    return seat_at(desk) + 4 + 2 * desk


def own_phases(book):
    return [book[own_entry(desk)] for desk in range(SEATS)]


# Phases

def lag_behind(own, phase, P):
    """As the desk handbook has it: own phase at least v, subtract; otherwise add P first."""
    if own >= phase:
        return own - phase
    return own + P - phase


def next_phase(phase, P):
    """After the last comes 0."""
    return (phase + 1) % P


# A sound book, clause by clause

def sound(book):
    return (len(book) == BOOK_BYTES
            and marks_hold(book)
            and permitted(setup_of(book))
            and book[4] == 0
            and not any(book[9:SEAT_AT])
            and seats_sound(book)
            and mail_sound(book)
            and shelf_sound(book))


def marks_hold(book):
    return (book[:2] == HEADER_MARK
            and column_holds(book, SEAT_AT, MAIL_AT, SEAT_MARK)
            and column_holds(book, MAIL_AT, SHELF_AT, MAIL_MARK)
            and column_holds(book, SHELF_AT, BOOK_BYTES, SHELF_MARK))


def column_holds(book, start, end, mark):
    count = (end - start) // RECORD_BYTES
    return (book[start:end:RECORD_BYTES] == mark[:1] * count
            and book[start + 1:end:RECORD_BYTES] == mark[1:] * count)


def row_sound(row, setup, own, most):
    """Phases, clocks and filler in range, and no lag above the most; a clock goes by its column's desk."""
    P, filler = setup.P, 2 * setup.D
    for phase, clock, limit, now in zip(row[0:filler:2], row[1:filler:2], setup.limits, own):
        if phase >= P or clock >= limit or lag_behind(now, phase, P) > most:
            return False
    return row[filler:] == NO_ROW[filler:]


def seats_sound(book):
    """The limits of desks below D are asked as the setup's."""
    setup, own = setup_of(book), own_phases(book)
    for desk in range(SEATS):
        at = seat_at(desk)
        started, row = book[at + 2], row_at(book, at)
        if started > 1:
            return False
        if started == 0 and row != NO_ROW:
            return False
        if desk >= setup.D and (started == 1 or book[limit_at(desk)] != 0):
            return False
        if desk < setup.D and not row_sound(row, setup, own, setup.M):
            return False
    return True


def mail_sound(book):
    setup, own = setup_of(book), own_phases(book)
    for place in range(PLACES):
        at = place_at(place)
        if book[at + 2] == 0:
            if book[at + 2:at + RECORD_BYTES] != FREE:
                return False
        elif not (used_place_sound(book, at, setup)
                  and row_sound(row_at(book, at), setup, own, 2 * setup.M)):
            return False
    return True


def used_place_sound(book, at, setup):
    sender, addressee = book[at + 2] - 1, book[at + 3] - 1
    return sender < setup.D and 0 <= addressee < setup.D and sender != addressee


def shelf_sound(book):
    setup, own = setup_of(book), own_phases(book)
    for slot in range(SLOTS):
        at = slot_at(slot)
        if book[at + 2] == 0:
            if book[at + 2:at + RECORD_BYTES] != FREE:
                return False
        elif not (book[at + 2] - 1 < setup.D and book[at + 3] == 0
                  and row_sound(row_at(book, at), setup, own, setup.A)):
            return False
    return True


# What the calls ask of a sound book

def place_used(book, place):
    return place < PLACES and book[place_at(place) + 2] != 0


def slot_used(book, slot):
    return slot < SLOTS and book[slot_at(slot) + 2] != 0


def lowest_free_place(book):
    return next((p for p in range(PLACES) if not place_used(book, p)), None)


def lowest_free_slot(book):
    return next((s for s in range(SLOTS) if not slot_used(book, s)), None)


def phase_full(book, desk):
    return book[own_entry(desk) + 1] == book[limit_at(desk)] - 1


def shelf_full(book, keep):
    """Who does not wish to keep does not ask about the shelf."""
    return keep != 0 and lowest_free_slot(book) is None


def lag(book, desk, phase):
    return lag_behind(book[own_entry(desk)], phase, setup_of(book).P)


def lag_in(book, record, desk):
    """The lag of the entry for a desk in the row of a record."""
    return lag(book, desk, book[record + 4 + 2 * desk])


def stamp_of_seat(book, desk):
    return Stamp(desk, row_at(book, seat_at(desk)))


def stamp_of_slot(book, slot):
    return Stamp(book[slot_at(slot) + 2] - 1, row_at(book, slot_at(slot)))


def refused(number, book):
    return number, (), book


# The steps

def tick(after, desk):
    after[own_entry(desk) + 1] += 1
    after[seat_at(desk) + 2] = 1


def later(book, desk, held, told):
    """The smaller lag, and at equal lag the larger clock; and whether the held pair changed."""
    pair = min(held, told, key=lambda pair: (lag(book, desk, pair[0]), -pair[1]))
    return pair, pair != held


def start(book, *setup):
    if len(book) != BOOK_BYTES:
        return refused(BAD_BOOK, book)
    if not permitted(setup):
        return refused(BAD_SETUP, book)
    return DONE, (), (fresh_head(*setup)
                      + (MAIL_MARK + FREE) * PLACES
                      + (SHELF_MARK + FREE) * SLOTS)


def fresh_head(D, P, limits, *lags):
    """The header, and eight seats not started, each desk's limit in its own."""
    seats = [SEAT_MARK + bytes((0, limit)) + NO_ROW for limit in (*limits, *[0] * (SEATS - D))]
    return header_of(D, P, *lags) + b"".join(seats)


def put_on_shelf(after, desk, keep):
    """Where it is wished, the row that an event left in its seat is kept; the slot is a value."""
    if keep == 0:
        return ()
    slot = lowest_free_slot(after)
    kept = SHELF_MARK + bytes((desk + 1, 0)) + row_at(after, seat_at(desk))
    after[slot_at(slot):slot_at(slot + 1)] = kept
    return (slot,)


def local_number(book, desk, keep):
    if not sound(book):
        return BAD_BOOK
    if desk >= setup_of(book).D:
        return NO_DESK
    if phase_full(book, desk):
        return PHASE_FULL
    if shelf_full(book, keep):
        return SHELF_FULL
    return DONE


def local(book, desk, keep):
    number = local_number(book, desk, keep)
    if number != DONE:
        return refused(number, book)
    after = bytearray(book)
    tick(after, desk)
    slot = put_on_shelf(after, desk, keep)
    return DONE, (stamp_of_seat(after, desk), *slot), bytes(after)


def send_number(book, desk, to, keep):
    if not sound(book):
        return BAD_BOOK
    if desk >= setup_of(book).D or to >= setup_of(book).D:
        return NO_DESK
    if desk == to:
        return SAME_DESK
    if phase_full(book, desk):
        return PHASE_FULL
    if lowest_free_place(book) is None:
        return MAIL_FULL
    if shelf_full(book, keep):
        return SHELF_FULL
    return DONE


def send(book, desk, to, keep):
    number = send_number(book, desk, to, keep)
    if number != DONE:
        return refused(number, book)
    place = lowest_free_place(book)
    after = bytearray(book)
    tick(after, desk)
    mail = MAIL_MARK + bytes((desk + 1, to + 1)) + row_at(after, seat_at(desk))
    after[place_at(place):place_at(place + 1)] = mail
    slot = put_on_shelf(after, desk, keep)
    return DONE, (place, stamp_of_seat(after, desk), *slot), bytes(after)


def receive_number(book, desk, place, keep):
    if not sound(book):
        return BAD_BOOK
    if desk >= setup_of(book).D:
        return NO_DESK
    if not place_used(book, place):
        return NO_PLACE
    if book[place_at(place) + 3] != desk + 1:
        return NOT_YOURS
    if phase_full(book, desk):
        return PHASE_FULL
    if shelf_full(book, keep):
        return SHELF_FULL
    return DONE


def receive(book, desk, place, keep):
    number = receive_number(book, desk, place, keep)
    if number != DONE:
        return refused(number, book)
    after = bytearray(book)
    learnt = merge(after, book, desk, place)
    tick(after, desk)
    free_place(after, place)
    slot = put_on_shelf(after, desk, keep)
    return DONE, (stamp_of_seat(after, desk), learnt, *slot), bytes(after)


def merge(after, book, desk, place):
    """Every desk but the receiver's own gets the later of the two pairs; how many changed."""
    learnt = 0
    for other in range(setup_of(book).D):
        if other != desk:
            seat = seat_at(desk) + 4 + 2 * other
            mail = place_at(place) + 4 + 2 * other
            after[seat:seat + 2], changed = later(
                book, other, book[seat:seat + 2], book[mail:mail + 2])
            learnt += changed
    return learnt


def free_place(after, place):
    after[place_at(place):place_at(place + 1)] = MAIL_MARK + FREE


def reset_number(book, desk, keep):
    if not sound(book):
        return BAD_BOOK
    if desk >= setup_of(book).D:
        return NO_DESK
    if shelf_full(book, keep):
        return SHELF_FULL
    return lag_number(book, desk)


def lag_number(book, desk):
    """What stands in the way of a reset: a lag that may not grow."""
    setup = setup_of(book)
    if any(lag_in(book, seat_at(other), desk) == setup.M
           for other in range(setup.D) if other != desk):
        return SEAT_BEHIND
    if any(lag_in(book, place_at(place), desk) == 2 * setup.M
           for place in range(PLACES) if place_used(book, place)):
        return MAIL_BEHIND
    if any(lag_in(book, slot_at(slot), desk) == setup.A
           for slot in range(SLOTS) if slot_used(book, slot)):
        return SHELF_BEHIND
    return DONE


def reset(book, desk, keep):
    number = reset_number(book, desk, keep)
    if number != DONE:
        return refused(number, book)
    after = bytearray(book)
    own = own_entry(desk)
    after[own] = next_phase(book[own], setup_of(book).P)
    after[own + 1] = 0
    after[seat_at(desk) + 2] = 1
    slot = put_on_shelf(after, desk, keep)
    return DONE, (stamp_of_seat(after, desk), *slot), bytes(after)


# Shelf and mail

def drop(book, slot):
    if not sound(book):
        return refused(BAD_BOOK, book)
    if not slot_used(book, slot):
        return refused(NO_PLACE, book)
    after = bytearray(book)
    after[slot_at(slot):slot_at(slot + 1)] = SHELF_MARK + FREE
    return DONE, (), bytes(after)


def discard(book, place):
    if not sound(book):
        return refused(BAD_BOOK, book)
    if not place_used(book, place):
        return refused(NO_PLACE, book)
    after = bytearray(book)
    free_place(after, place)
    return DONE, (), bytes(after)


def show(book, slot):
    if not sound(book):
        return refused(BAD_BOOK, book)
    if not slot_used(book, slot):
        return refused(NO_PLACE, book)
    return DONE, (row_at(book, slot_at(slot)),), book


def write(book, slot, target):
    """The value is the target's bytes afterwards."""
    if not sound(book):
        return refused(BAD_BOOK, book)
    if not slot_used(book, slot):
        return refused(NO_PLACE, book)
    if len(target) < RECORD_BYTES:
        return refused(NO_ROOM, book)
    record = record_of(setup_of(book), stamp_of_slot(book, slot))
    return DONE, (record + bytes(target[RECORD_BYTES:]),), book


# Comparing: a difference is a number, or None when it is out of reach

def is_reset(e):
    return e.row[2 * e.owner + 1] == 0


def reach(setup, e):
    """How far back and ahead; a reset is not before itself, so it reaches one phase further back."""
    back = setup.m if is_reset(e) else setup.m - 1
    return back, setup.n - 1


def phases_between(book, e, f):
    """How many phases of e's desk f is ahead of e."""
    j = e.owner
    return lag(book, j, e.row[2 * j]) - lag(book, j, f.row[2 * j])


def difference_on_book(book, e, f):
    back, ahead = reach(setup_of(book), e)
    d = phases_between(book, e, f)
    return d if -back <= d <= ahead else None


def difference_off_book(setup, e, f):
    j = e.owner
    back, ahead = reach(setup, e)
    r = lag_behind(f.row[2 * j], e.row[2 * j], setup.P)
    if r <= ahead:
        return r
    if setup.P - r <= back:
        return r - setup.P
    return None


def known_and_own(e, f, d):
    """What f knows of e's desk and what e has there itself, each by its phases from e and its clock."""
    clock = 2 * e.owner + 1
    return (d, f.row[clock]), (0, e.row[clock])


def says_before(e, f, d):
    """Is f's pair for e's desk strictly later, or e's own pair itself?"""
    known, own = known_and_own(e, f, d)
    return known > own or (known == own and e.owner != f.owner)


def relation(e, f, d, back):
    forth, again = says_before(e, f, d), says_before(f, e, back)
    if forth and again:
        return "crossed"
    if forth:
        return "before"
    if again:
        return "after"
    j = e.owner
    if j == f.owner and d == 0 and e.row[2 * j + 1] == f.row[2 * j + 1]:
        return "same"
    return "concurrent"


def answer_before(e, f, d):
    if d is None:
        return OUT_OF_REACH, ()
    return DONE, (says_before(e, f, d),)


def answer_compare(e, f, d, back):
    if d is None or back is None:
        return OUT_OF_REACH, ()
    return DONE, (relation(e, f, d, back),)


def slots_number(book, first, second):
    if not sound(book):
        return BAD_BOOK
    if not (slot_used(book, first) and slot_used(book, second)):
        return NO_PLACE
    return DONE


def before(book, first, second):
    number = slots_number(book, first, second)
    if number != DONE:
        return refused(number, book)
    e, f = stamp_of_slot(book, first), stamp_of_slot(book, second)
    return (*answer_before(e, f, difference_on_book(book, e, f)), book)


def compare(book, first, second):
    number = slots_number(book, first, second)
    if number != DONE:
        return refused(number, book)
    e, f = stamp_of_slot(book, first), stamp_of_slot(book, second)
    return (*answer_compare(e, f, difference_on_book(book, e, f),
                            difference_on_book(book, f, e)), book)


# A picture of all desks

def picture_number(book, slots):
    if not sound(book):
        return BAD_BOOK
    if len(slots) != setup_of(book).D or not all(slot_used(book, slot) for slot in slots):
        return NO_PLACE
    return chosen_number(book, [stamp_of_slot(book, slot) for slot in slots])


def chosen_number(book, stamps):
    """Every two places are asked for their reach, whosesoever the stamps are; then whose they are."""
    if any(difference_on_book(book, e, f) is None for e, f in permutations(stamps, 2)):
        return OUT_OF_REACH
    if any(stamp.owner != desk for desk, stamp in enumerate(stamps)):
        return WRONG_OWNER
    return DONE


def knows_more(book, f, e):
    """Is f's pair for e's desk later than e's own?"""
    known, own = known_and_own(e, f, phases_between(book, e, f))
    return known > own


def at_odds(book, e, f):
    return knows_more(book, e, f) or knows_more(book, f, e)


def first_at_odds(book, stamps):
    """The two desks at odds with the lowest first, then the lowest second; None where all agree."""
    return next((pair for pair in combinations(range(len(stamps)), 2)
                 if at_odds(book, *(stamps[desk] for desk in pair))), None)


def picture(book, *slots):
    number = picture_number(book, slots)
    if number != DONE:
        return refused(number, book)
    odds = first_at_odds(book, [stamp_of_slot(book, slot) for slot in slots])
    return DONE, odds or (True,), book


# The summary beside the book

def summary_of(book):
    """For each desk the largest lag among other desks' seats, mail and kept stamps, 0 where none."""
    setup, mail, shelf = setup_of(book), mail_waiting(book), stamps_kept(book)
    lags = [largest_lag(setup, book[own_entry(desk)], desk, rows)
            for desk in range(setup.D)
            for rows in (other_seats(book, setup, desk), mail, shelf)]
    # No lag of a sound book is more than a byte holds: a remainder keeps a wrong one a byte, too.
    return SUMMARY_MARK + bytes(lag % 256 for lag in lags).ljust(3 * SEATS, b"\0")


def other_seats(book, setup, desk):
    """The rows of the other desks below D, started or not."""
    return [row_at(book, seat_at(other)) for other in range(setup.D) if other != desk]


def mail_waiting(book):
    return [row_at(book, place_at(place)) for place in range(PLACES) if place_used(book, place)]


def stamps_kept(book):
    return [row_at(book, slot_at(slot)) for slot in range(SLOTS) if slot_used(book, slot)]


def largest_lag(setup, own, desk, rows):
    """The largest that the entries for a desk in these rows lag behind its own phase."""
    phases = {row[2 * desk] for row in rows}
    return max((lag_behind(own, phase, setup.P) for phase in phases), default=0)


# The office: start and every change, with a summary beside the book

def through_office(call, book, summary, numbers):
    """All reasons of the book first, then the summary's length alone; it is left true of the book."""
    number, values, after = call(book, *numbers)
    if number != DONE:
        return number, values, after, summary
    if len(summary) != SUMMARY_BYTES:
        return BAD_SUMMARY, (), book, summary
    return DONE, values, after, summary_of(after)


def office_start(book, summary, *setup):
    return through_office(start, book, summary, setup)


def office_local(book, summary, *numbers):
    return through_office(local, book, summary, numbers)


def office_send(book, summary, *numbers):
    return through_office(send, book, summary, numbers)


def office_receive(book, summary, *numbers):
    return through_office(receive, book, summary, numbers)


def office_reset(book, summary, *numbers):
    return through_office(reset, book, summary, numbers)


def office_drop(book, summary, *numbers):
    return through_office(drop, book, summary, numbers)


def office_discard(book, summary, *numbers):
    return through_office(discard, book, summary, numbers)


# May a desk reset? The setup and the summary tell, and no book

def may(setup, summary, desk):
    """The value is what a reset would be answered about lags; 0 is yes."""
    if not permitted(setup):
        return BAD_SETUP, ()
    setup = Setup(*setup)
    if desk >= setup.D:
        return NO_DESK, ()
    if not summary_reads(setup, summary):
        return BAD_SUMMARY, ()
    return DONE, (told_of_lags(setup, *lags_told(summary, desk)),)


def summary_reads(setup, summary):
    """Length and mark hold, and of all eight desks no lag passes M, 2M or A."""
    if len(summary) != SUMMARY_BYTES or summary[:2] != SUMMARY_MARK:
        return False
    return all(seats <= setup.M and mail <= 2 * setup.M and shelf <= setup.A
               for seats, mail, shelf in (lags_told(summary, desk) for desk in range(SEATS)))


def lags_told(summary, desk):
    """A desk's three numbers: of other seats, of mail, of the shelf."""
    return summary[2 + 3 * desk:5 + 3 * desk]


def told_of_lags(setup, seats, mail, shelf):
    """The first lag that is as large as it may be would refuse a reset."""
    if seats == setup.M:
        return SEAT_BEHIND
    if mail == 2 * setup.M:
        return MAIL_BEHIND
    if shelf == setup.A:
        return SHELF_BEHIND
    return DONE


# Stamp records, and the calls off the book

def record_of(setup, stamp):
    return STAMP_MARK + bytes((stamp.owner, setup.D)) + stamp.row


def read_stamp(setup, record):
    """A record is read into a stamp, or refused by None."""
    if len(record) != RECORD_BYTES or record[:2] != STAMP_MARK:
        return None
    owner, D, row = record[2], record[3], bytes(record[4:])
    filler = 2 * setup.D
    if owner >= setup.D or D != setup.D or any(row[filler:]):
        return None
    if max(row[0:filler:2]) >= setup.P:
        return None
    if any(clock >= limit for clock, limit in zip(row[1:filler:2], setup.limits)):
        return None
    return Stamp(owner, row)


def read_both(setup, first, second):
    """The number, the setup and both stamps."""
    if not permitted(setup):
        return BAD_SETUP, None, None, None
    setup = Setup(*setup)
    e, f = read_stamp(setup, first), read_stamp(setup, second)
    if e is None or f is None:
        return BAD_STAMP, None, None, None
    return DONE, setup, e, f


def label_before(setup, first, second):
    number, setup, e, f = read_both(setup, first, second)
    if number != DONE:
        return number, ()
    return answer_before(e, f, difference_off_book(setup, e, f))


def label_compare(setup, first, second):
    number, setup, e, f = read_both(setup, first, second)
    if number != DONE:
        return number, ()
    return answer_compare(e, f, difference_off_book(setup, e, f),
                          difference_off_book(setup, f, e))


def label_newest(setup, first, second):
    """1 for the first record, 2 for the second, 0 for the empty part."""
    number, values = label_compare(setup, first, second)
    if number != DONE:
        return number, ()
    return DONE, ({"after": 1, "same": 1, "before": 2}.get(values[0], 0),)
