"""The C interface held against the second opinion, on books no listing reaches.

    python3 second/raw.py DRIVER                      a few thousand calls
    python3 second/raw.py DRIVER --calls 200000 --seed 7

DRIVER is tests/raw_driver.c, linked to the library: it makes the calls that it
is asked for. A prefix to run it by is given by --runner. `tests/raw` builds it.

Sound books made at random (unreachable ones too), full shelves, mail that tells
of none to all, pictures with each two desks at odds and lists that do not fit,
clocks about their desk's limit in every kind of row, limits that are not there,
not due or too many, bytes damaged at every offset, phases off the ring, every
phase byte in every kind of row under P of 256 and of 255, lags about the bounds
from 255 to 0, a P byte of 0, 1 and 2, wrong lengths and odd numbers. Through the
office the same changes with summaries of every length, true, false and garbage;
may by summaries of sound books, beside the resets it speaks of, and with each of
the 24 lags about its bound.
The answer and every byte of every lent buffer, and of the bytes on both sides of
it, must be alike.
The first difference is printed and ends with 1.
"""

import argparse
import collections
import copy
import itertools
import os
import random
import shlex
import subprocess
import sys

sys.path.insert(0, os.path.dirname(os.path.dirname(os.path.abspath(__file__))))

from second import book, seeds
from second.listing import CHANGES, EVENTS

# How many numbers each call takes, and the bytes its value buffers need. Limits and slots are lent as buffers.
BOOK_CALLS = {
    "start": (6, ()), "local": (2, (20, 1)), "send": (3, (20, 1, 1)),
    "receive": (3, (20, 1, 1)), "reset": (2, (20, 1)), "drop": (1, ()),
    "discard": (1, ()), "before": (2, (1,)), "compare": (2, (1,)), "picture": (0, (1, 2)),
    "show": (1, (16,)), "write": (1, (20,)),
}
LABEL_CALLS = ("label_before", "label_compare", "label_newest")
# Of each call of the office the one that it makes on the book.
OFFICE_CALLS = {f"office_{name}": name for name in CHANGES}
NEEDS = {name: needs for name, (_, needs) in BOOK_CALLS.items()}
NEEDS.update((name, (1,)) for name in LABEL_CALLS)
NEEDS.update((office, NEEDS[name]) for office, name in OFFICE_CALLS.items())
NEEDS["may"] = (1,)

# Numbers for the wish to keep: 0 is no, any other is yes.
WISHES = (0, 1, 2, 255, 256, 2**32, 2**64 - 1)

# What an event that is not kept answers to a desk and a place that are there.
UNKEPT = (("local", 0), ("local", 8), ("send", 0), ("send", 8), ("send", 9), ("receive", 0),
          ("receive", 8), ("reset", 0), ("reset", 11), ("reset", 12), ("reset", 13))

# What mail tells of a desk, beside what is held of it; what a stamp tells, beside the desk's own.
LATER, EQUAL, OLDER = -1, 0, 1

# What a picture answers: its number, and how many values.
PICTURES = ((0, 1), (0, 2), (1, 0), (5, 0), (16, 0), (18, 0))

# Added to a slot, a limit, a P or an A they are another number, but the same in 8, 16, 32 or 63 bits.
WIDER = (256, 2**16, 2**32, 2**63)

# The full byte ring, and the largest that is not.
LARGE_RINGS = (book.FULL_RING, 255)

# Numbers for P, of which 3 to 256 are good: about both ends, and such as would be if they were cut.
RING_NUMBERS = (0, 1, 2, 3, 254, 255, 256, 257, 258, 259, 511, 512, 768, 2**64 - 256, 2**64 - 1,
                *(more + number for more in WIDER[1:] for number in (0, 3, 255, 256)))
SHELF_LAGS = (253, 254, 255, 256, 257, *(more + 255 for more in WIDER))

# Bytes for P in a header: 0 is 256, and 1 and 2 are no P.
RING_BYTES = (0, 1, 2, 3, 4, 254, 255)

# Own phases about the seam, from 255 to 0, and half a ring from it.
SEAM_PHASES = (0, 1, 2, 126, 127, 128, 253, 254, 255)

# P, M and A: with the largest lags, with the largest that can be gone beyond, and with small ones.
SEAM_LAGS = ((256, 127, 255), (256, 127, 254), (256, 3, 7), (255, 126, 253), (255, 3, 7))

# Each kind of row, the number of a reset that it refuses, and how far it may lag.
ROWS = {"seat": (book.SEAT_BEHIND, lambda setup: setup.M),
        "mail": (book.MAIL_BEHIND, lambda setup: 2 * setup.M),
        "slot": (book.SHELF_BEHIND, lambda setup: setup.A)}

# What each change is refused for on the book alone.
REASONS = {
    "start": (1, 2), "local": (1, 3, 8, 10), "send": (1, 3, 4, 8, 9, 10), "receive": (1, 3, 5, 6, 8, 10),
    "reset": (1, 3, 10, 11, 12, 13), "drop": (1, 5), "discard": (1, 5),
}

# What a reset that is not kept is answered about lags, and what may answers.
LAG_NUMBERS = (book.DONE, book.SEAT_BEHIND, book.MAIL_BEHIND, book.SHELF_BEHIND)

# Lengths of summaries, of which 26 is good; of the larger ones two are 26 in 8 bits and in 16.
SUMMARY_LENGTHS = (*range(41), 255, 256, 256 + 26, 1456, 2**16 + 26)

# D, P, M and A, by which a byte holds lags that go far beyond their bounds, just beyond them, or never.
MAY_BOUNDS = ((2, 200, 40, 120), (5, 9, 2, 7), (8, 254, 100, 200), (2, 256, 127, 254), (8, 256, 3, 255))

RELATIONS = ("before", "after", "same", "concurrent", "crossed")
WRONG_LENGTHS = (0, 1, 1455, 1457)
WRONG_LABEL_LENGTHS = (0, 1, 2, 19, 21, 40)
GUARD = 24
DEFAULT_CALLS = 15000
SOUND_BOOKS = 600
BATCH = 250


class Lent:
    """A buffer lent to a call, between bytes that nobody was lent."""

    def __init__(self, rng, content):
        self.length = len(content)
        self.memory = rng.randbytes(GUARD) + content + rng.randbytes(GUARD)

    def content(self):
        return self.memory[GUARD:GUARD + self.length]

    def with_content(self, content):
        """All the memory, were its first bytes these."""
        return self.memory[:GUARD] + content + self.memory[GUARD + len(content):]


def parted(arguments):
    """The numbers and the lent buffers, each in their order."""
    return ([argument for argument in arguments if not isinstance(argument, Lent)],
            [argument for argument in arguments if isinstance(argument, Lent)])


# The driver

def word(number):
    return number.to_bytes(8, "little")


def listed(rng, numbers):
    """A list of limits or slots as it is lent."""
    return Lent(rng, b"".join(map(word, numbers)))


def numbers_in(content):
    return [int.from_bytes(content[at:at + 8], "little") for at in range(0, len(content), 8)]


def setup_lent(rng, D, P, limits, *lags):
    return [D, P, listed(rng, limits), *lags]


def setup_in(numbers, content):
    D, P, *lags = numbers
    return D, P, numbers_in(content), *lags


def frame(asked):
    """A call as the driver reads it: its place in the header, then what it takes."""
    numbers, lent = parted(asked.arguments)
    return (bytes((list(NEEDS).index(asked.name), len(numbers), len(lent)))
            + b"".join(map(word, numbers))
            + b"".join(word(buffer.length) + buffer.memory for buffer in lent))


def driver(command):
    """A library: the number and the memories of each call of a batch, and how it ended."""
    def library(batch):
        run = subprocess.run(command, input=b"".join(map(frame, batch)),
                             stdout=subprocess.PIPE, check=False)
        return answers_in(run.stdout, batch), run.returncode
    return library


def answers_in(told, batch):
    """Of each call the number and the memories; fewer where the driver ended early."""
    answers, at = [], 0
    for asked in batch:
        memories = [len(buffer.memory) for buffer in parted(asked.arguments)[1]]
        ends = list(itertools.accumulate(memories, initial=at + 1))
        if ends[-1] > len(told):
            break
        answers.append((told[at], [told[i:j] for i, j in zip(ends, ends[1:])]))
        at = ends[-1]
    return answers


# What the second opinion answers

def made_on_book(name):
    """The call that one of the office makes on the book; any other is itself."""
    return OFFICE_CALLS.get(name, name)


def answer_of(name, arguments):
    """The number, the book and any summary afterwards and the values in the header's order."""
    numbers, lent = parted(arguments)
    lent = [buffer.content() for buffer in lent]
    if name in LABEL_CALLS:
        number, values = getattr(book, name)(setup_in(numbers, lent[0]), *lent[1:3])
        return number, (), values
    if name == "may":
        number, values = book.may(setup_in(numbers[:-1], lent[0]), lent[1], numbers[-1])
        return number, (), values
    # The book, and beside it the office's summary.
    changed = lent[:1 + (name in OFFICE_CALLS)]
    if made_on_book(name) == "start":
        numbers = setup_in(numbers, lent[len(changed)])
    if name == "write":
        numbers.append(lent[1])
    if name == "picture":
        numbers = numbers_in(lent[1])
    number, values, *after = getattr(book, name)(*changed, *numbers)
    if made_on_book(name) == "send" and number == book.DONE:
        place, stamp, *slot = values
        values = stamp, place, *slot
    if name == "picture" and len(values) == 2:
        values = False, bytes(values)
    return number, after, values


def needs(name, numbers):
    """The bytes that value buffers must have: an event that is not kept asks for no slot."""
    return NEEDS[name][:-1] if made_on_book(name) in EVENTS and numbers[-1] == 0 else NEEDS[name]


def encode(value, after):
    if isinstance(value, book.Stamp):
        return book.record_of(book.setup_of(after[0]), value)
    if isinstance(value, bytes):
        return value
    if isinstance(value, str):
        return bytes((RELATIONS.index(value) + 1,))
    return bytes((value,))


def expected(name, arguments):
    """The number, and the memory of every lent buffer afterwards."""
    number, after, values = answer_of(name, arguments)
    numbers, lent = parted(arguments)
    outs = lent[len(lent) - len(NEEDS[name]):]
    short = any(out.length < need for out, need in zip(outs, needs(name, numbers)))
    if short and (number == book.DONE or number > book.NO_ROOM):
        return book.NO_ROOM, [buffer.memory for buffer in lent]
    memories = {id(buffer): buffer.memory for buffer in lent}
    for changed, content in zip(lent, after):
        memories[id(changed)] = changed.with_content(content)
    for out, value in zip(outs, values):
        memories[id(out)] = out.with_content(encode(value, after))
    return number, [memories[id(buffer)] for buffer in lent]


# Books made at random

def any_setup(rng):
    if rng.random() < 0.5:
        return book.Setup(*seeds.good_setup(rng))
    D = rng.randint(2, 8)
    P = rng.choice((3, 4, 5, 128, 254, 255, 256, rng.randint(3, 256)))
    M = rng.randint(1, (P - 1) // 2)
    return book.Setup(D, P, seeds.some_limits(rng, D), M, rng.randint(M, P - 1),
                      *seeds.some_reach(rng, P))


def setup_of_desks(rng, D):
    return any_setup(rng)._replace(D=D, limits=seeds.some_limits(rng, D))


def setup_beside(rng, D, desk, way):
    """The others' limits are all smaller than a desk's, or all larger."""
    limit = rng.choice((3, 4, 5, 200, 254))
    others = rng.choice((2, limit - 1) if way < 0 else (limit + 1, 255))
    return setup_of_desks(rng, D)._replace(limits=seeds.placed([others] * D, desk, limit))


def some(rng, most):
    """A number up to the most, mostly at one end."""
    if rng.random() < 0.6:
        return rng.choice((0, most, max(0, most - 1)))
    return rng.randint(0, most)


def random_row(rng, setup, own, most):
    row = bytearray(16)
    high = most if rng.random() < 0.3 else max(0, most - 1)
    for desk in range(setup.D):
        row[2 * desk] = (own[desk] - some(rng, high)) % setup.P
        row[2 * desk + 1] = some(rng, setup.limits[desk] - 1)
    return bytes(row)


def random_started(rng, D):
    if rng.random() < 0.6:
        return [True] * D
    return [rng.random() < 0.7 for _ in range(D)]


def random_phases(rng, setup, started):
    """Each desk's own phase."""
    highest = setup.P - 1 if all(started) else setup.M
    return [some(rng, highest) if begun else 0 for begun in started]


def random_seat(rng, setup, own, desk, begun):
    limit = setup.limits[desk]
    if not begun:
        return bytes((0, limit)) + book.NO_ROW
    row = bytearray(random_row(rng, setup, own, setup.M))
    row[2 * desk] = own[desk]
    return bytes((1, limit)) + row


def random_mail(rng, setup, own):
    sender, addressee = rng.sample(range(1, setup.D + 1), 2)
    return bytes((sender, addressee)) + random_row(rng, setup, own, 2 * setup.M)


def random_slot(rng, setup, own):
    owner = rng.randint(1, setup.D)
    return bytes((owner, 0)) + random_row(rng, setup, own, setup.A)


def random_room(rng, mark, make):
    """32 records: none, few, half, all or all but one of them used."""
    share = rng.choice((0, 0.1, 0.5, 1, 1))
    records = [make() if rng.random() < share else book.FREE for _ in range(32)]
    if rng.random() < 0.3:
        records[rng.randrange(32)] = book.FREE
    if rng.random() < 0.3:
        records[rng.randrange(32)] = records[rng.randrange(32)]
    return b"".join(mark + record for record in records)


def sound_book(rng):
    return sound_book_of(rng, any_setup(rng))


def sound_book_of(rng, setup, started=None, own=None):
    started = started or random_started(rng, setup.D)
    own = own or random_phases(rng, setup, started)
    D, P, _, *lags = setup
    seats = [random_seat(rng, setup, own, desk, begun) for desk, begun in enumerate(started)]
    made = (book.header_of(D, P, *lags)
            + b"".join(book.SEAT_MARK + seat for seat in seats)
            + (book.SEAT_MARK + book.FREE) * (8 - D)
            + random_room(rng, book.MAIL_MARK, lambda: random_mail(rng, setup, own))
            + random_room(rng, book.SHELF_MARK, lambda: random_slot(rng, setup, own)))
    if not book.sound(made):
        raise AssertionError("a sound book was meant")
    return made


def fresh_book(setup):
    return book.start(bytes(book.BOOK_BYTES), *setup)[2]


def full_ring_setup(rng):
    return book.Setup(*seeds.full_ring_setup(rng))


def large_setup(rng, D, P, **numbers):
    """The largest lags that a large ring permits, unless other numbers are given."""
    setup = book.Setup(D, P, seeds.some_limits(rng, D), 127, P - 1, *seeds.some_reach(rng, P))
    return setup._replace(**numbers)


def level_book(setup, own):
    """A sound book in which nothing lags: every seat has all own phases, and the rooms are free."""
    row = bytes(number for phase in own for number in (phase, 0)).ljust(16, b"\0")
    seats = [book.SEAT_MARK + bytes((1, limit)) + row for limit in setup.limits]
    fresh = fresh_book(setup)
    return fresh[:book.SEAT_AT] + b"".join(seats) + fresh[book.seat_at(setup.D):]


def uneven_book(rng, setup, own, desk, kind, phase):
    """A level book but for one row of a kind, in which the entry for a desk has this phase."""
    content, other = level_book(setup, own), (desk + 1) % setup.D
    row = with_byte(book.row_at(content, book.seat_at(desk)), 2 * desk, phase)
    at, made = {
        "seat": (book.seat_at(other), book.SEAT_MARK + bytes((1, setup.limits[other])) + row),
        "mail": (book.place_at(rng.randrange(32)), book.MAIL_MARK + bytes((desk + 1, other + 1)) + row),
        "slot": (book.slot_at(rng.randrange(32)), book.SHELF_MARK + bytes((other + 1, 0)) + row),
    }[kind]
    return content[:at] + made + content[at + 20:]


def every_phase_book(rng, P, turn):
    """A sound book of eight desks with every phase of a large ring in its slots and, over eight turns, elsewhere."""
    setup, own = large_setup(rng, 8, P), [32 * desk + 4 * turn for desk in range(8)]
    made = bytearray(sound_book_of(rng, setup, [True] * 8, own))
    for desk, other in itertools.permutations(range(8), 2):
        made[book.seat_at(other) + 4 + 2 * desk] = (own[desk] - (other - desk) % 8) % P
    for at in range(32):
        made[book.place_at(at) + 2:book.place_at(at) + 4] = rng.sample(range(1, 9), 2)
        made[book.slot_at(at) + 2] = rng.randint(1, 8)
        for desk in range(8):
            phase = (32 * ((desk + turn) % 8) + at) % P
            made[book.slot_at(at) + 4 + 2 * desk] = phase
            # One phase of 256 lags more than mail may.
            mailed = phase if book.lag_behind(own[desk], phase, P) <= 2 * setup.M else own[desk]
            made[book.place_at(at) + 4 + 2 * desk] = mailed
    return bytes(made)


def kind_of(held, told):
    """Of two ages less is later."""
    return (told > held) - (told < held)


def two_ages(rng, M, limit, is_own, kind):
    """The ages of a held pair and of one in mail: the lag, and how many clock values are left."""
    while True:
        held = some(rng, M), some(rng, limit - 1)
        if is_own:
            # So the receipt is not refused.
            held = 0, 1 + some(rng, limit - 2)
        told = held if kind == EQUAL else (some(rng, 2 * M), some(rng, limit - 1))
        if kind_of(held, told) == kind:
            return held, told


def two_rows(rng, content, desk, kinds):
    """A desk's row and one in mail to it that is of this kind for each desk, the receiver's own too."""
    setup, seat, mail = book.setup_of(content), bytearray(16), bytearray(16)
    for other, kind in enumerate(kinds):
        own, limit = content[book.own_entry(other)], setup.limits[other]
        ages = two_ages(rng, setup.M, limit, other == desk, kind)
        for row, (lag, left) in zip((seat, mail), ages):
            row[2 * other:2 * other + 2] = (own - lag) % setup.P, limit - 1 - left
    return seat, mail


def told_book(rng, desk, place, kinds):
    """A sound book with such mail for a desk that has a clock left."""
    setup = setup_of_desks(rng, len(kinds))
    made = bytearray(sound_book_of(rng, setup))
    seat, mail = two_rows(rng, made, desk, kinds)
    sender = rng.choice([other for other in range(setup.D) if other != desk])
    made[book.seat_at(desk):book.seat_at(desk + 1)] = (
        book.SEAT_MARK + bytes((1, setup.limits[desk])) + seat)
    made[book.place_at(place):book.place_at(place + 1)] = (
        book.MAIL_MARK + bytes((sender + 1, desk + 1)) + mail)
    return bytes(made)


def edges_of_reach(setup):
    """The differences at both ends of the reach, with and without a reset, and just beyond it."""
    return -setup.m - 1, -setup.m, 1 - setup.m, setup.n - 1, setup.n


def edge_of_reach(rng, setup):
    return rng.choice(edges_of_reach(setup))


def shelf_with(rng, content, desk, free):
    """The book, still sound, with so many slots free; what is added is the desk's own row."""
    made = bytearray(content)
    kept = book.SHELF_MARK + bytes((desk + 1, 0)) + book.row_at(content, book.seat_at(desk))
    left = rng.sample(range(32), free)
    for slot in range(32):
        at = book.slot_at(slot)
        if slot in left or not book.slot_used(content, slot):
            made[at:at + 20] = book.SHELF_MARK + book.FREE if slot in left else kept
    return bytes(made)


def answered(rng, name, number, setup_made):
    """A sound book and an event's numbers but the last, to which it answers so if it is not kept."""
    while True:
        content = sound_book_of(rng, setup_made(rng))
        numbers = aimed(rng, name, content)
        if getattr(book, name)(content, *numbers, 0)[0] == number:
            return content, numbers


def slots_apart(rng, content, first, second):
    """The book, still sound, with a used slot at an edge of another's reach, if the shelf may lag so far."""
    setup, made = book.setup_of(content), bytearray(content)
    j, d = content[book.slot_at(first) + 2] - 1, edge_of_reach(rng, setup)
    e, f = (book.slot_at(slot) + 4 + 2 * j for slot in (first, second))
    if first != second and abs(d) <= setup.A:
        lag = rng.randint(max(0, d), setup.A + min(0, d))
        made[e] = (content[book.own_entry(j)] - lag) % setup.P
        made[f] = (made[e] + d) % setup.P
        made[e + 1] = rng.choice((0, made[e + 1]))
    return bytes(made)


def kinds_known(rng, desks, first=None, two=()):
    """What each desk's stamp tells of each other: no two before the first are at odds, these are just so.

    Behind the first anything goes; without a first no two are at odds.
    """
    known = [[EQUAL] * desks for _ in range(desks)]
    for pair in itertools.combinations(range(desks), 2):
        i, k = pair
        agreed = first is None or pair < first
        kinds = (EQUAL, OLDER) if agreed else (LATER, EQUAL, OLDER)
        known[i][k], known[k][i] = two if pair == first else rng.choices(kinds, k=2)
    return known


def age_beside(rng, setup, limit, own, kind):
    """An age of a kind within reach from the own one; None where none is soon found."""
    lag, left = own
    back = setup.m if left == limit - 1 else setup.m - 1
    low, high = max(0, lag - setup.n + 1), min(setup.A, lag + back)
    for _ in range(20):
        age = (rng.choice((low, lag, high, rng.randint(low, high))),
               rng.choice((left, max(0, left - 1), some(rng, limit - 1))))
        if kind_of(own, age) == kind:
            return age
    return own if kind == EQUAL else None


def ages_known(rng, setup, kinds, owner):
    """The ages of all pairs for one desk, of these kinds but for the owner's own."""
    limit = setup.limits[owner]
    while True:
        own = some(rng, setup.A), some(rng, limit - 1)
        ages = [own if desk == owner else age_beside(rng, setup, limit, own, kind)
                for desk, kind in enumerate(kinds)]
        if None not in ages:
            return ages


def pictured_book(rng, known):
    """A sound book and a slot for each desk, with stamps that tell so much of each other, all within reach."""
    setup = setup_of_desks(rng, len(known))
    made, slots = bytearray(sound_book_of(rng, setup)), rng.sample(range(32), setup.D)
    for desk, slot in enumerate(slots):
        made[book.slot_at(slot):book.slot_at(slot + 1)] = (
            book.SHELF_MARK + bytes((desk + 1, 0)) + bytes(16))
    for owner, kinds in enumerate(zip(*known)):
        own = made[book.own_entry(owner)]
        for slot, (lag, left) in zip(slots, ages_known(rng, setup, kinds, owner)):
            at = book.slot_at(slot) + 4 + 2 * owner
            made[at:at + 2] = (own - lag) % setup.P, setup.limits[owner] - 1 - left
    return bytes(made), slots


# What becomes of a book and a list of slots

def left_alone(rng, content, slots):
    return content, slots


def set_apart(rng, content, slots):
    """Two are at an edge of their reach."""
    return slots_apart(rng, content, *rng.sample(slots, 2)), slots


def swapped(rng, content, slots):
    at, other = rng.sample(range(len(slots)), 2)
    return content, seeds.placed(seeds.placed(slots, at, slots[other]), other, slots[at])


def swapped_apart(rng, content, slots):
    return swapped(rng, *set_apart(rng, content, slots))


def doubled(rng, content, slots):
    at, other = rng.sample(range(len(slots)), 2)
    return content, seeds.placed(slots, at, slots[other])


def of_one_owner(rng, content, slots):
    """Two are one desk's, and mostly at an edge of their reach."""
    made, (slot, other) = bytearray(content), rng.sample(slots, 2)
    made[book.slot_at(slot) + 2] = made[book.slot_at(other) + 2]
    return slots_apart(rng, bytes(made), slot, other), slots


def shortened(rng, content, slots):
    return content, slots[:-1]


def lengthened(rng, content, slots):
    return content, slots + [rng.choice((*slots, 2**64 - 1))]


def widened(rng, content, slots):
    at = rng.randrange(len(slots))
    return content, seeds.placed(slots, at, slots[at] + rng.choice(WIDER))


def freed(rng, content, slots):
    return book.drop(content, rng.choice(slots))[2], slots


def unmarked(rng, content, slots):
    return damaged_byte(rng, content, rng.choice((0, 9, book.slot_at(slots[0])))), slots


MISFITS = (left_alone, set_apart, swapped, swapped_apart, doubled, of_one_owner, shortened,
           lengthened, widened, freed, unmarked)


def some_picture(rng, desks, misfit):
    """A book and a list of slots, most of it as a picture asks."""
    known = kinds_known(rng, desks, rng.choice((None, (0, 0))))
    return misfit(rng, *pictured_book(rng, known))


def answered_picture(rng, answer):
    """A book and a list to which a picture answers this number, and so many values."""
    while True:
        content, slots = some_picture(rng, rng.randint(2, 8), rng.choice(MISFITS))
        number, values, _ = book.picture(content, *slots)
        if (number, len(values)) == answer:
            return content, slots


def damaged_byte(rng, content, offset):
    """One byte made another, often by little."""
    byte = content[offset]
    others = ((byte + 1) % 256, (byte - 1) % 256, byte ^ 1 << rng.randrange(8),
              0, 255, rng.randrange(256))
    return with_byte(content, offset, rng.choice([another for another in others if another != byte]))


def moved_round(content, offset, P):
    return with_byte(content, offset, min(255, content[offset] + P))


def with_byte(content, offset, byte):
    return content[:offset] + bytes((byte,)) + content[offset + 1:]


# Numbers and buffers

def odd_numbers(D):
    return (0, max(0, D - 1), D, 31, 32, 255, 256, 2**32, 2**64 - 1)


def some_number(rng, content):
    D = content[2] if len(content) > 2 else 8
    if rng.random() < 0.15:
        return rng.choice(odd_numbers(D))
    if rng.random() < 0.6:
        return rng.randrange(max(1, D))
    return rng.randrange(33)


def some_numbers(rng, name, content):
    if name == "start":
        return list(any_setup(rng))
    if name == "picture":
        return some_slots(rng, content)
    wish = some_wish(rng, name)
    return [some_number(rng, content) for _ in range(BOOK_CALLS[name][0] - len(wish))] + wish


def some_slots(rng, content):
    """Mostly as many as there are desks."""
    count = min(content[2], 10) if len(content) > 2 and rng.random() < 0.8 else rng.randrange(11)
    return [some_number(rng, content) for _ in range(count)]


def some_wish(rng, name):
    """The last number of an event; no other call has one."""
    return [rng.choice((0, rng.choice(WISHES)))] if name in EVENTS else []


def value_buffers(rng, name):
    return [value_buffer(rng, need) for need in NEEDS[name]]


def value_buffer(rng, need):
    """Room enough mostly, more than enough often, too little sometimes."""
    length = need + rng.choice((0, 0, 1, 9)) if rng.random() < 0.92 else rng.randrange(need)
    return Lent(rng, rng.randbytes(length))


def buffers_of(rng, *lengths):
    return [Lent(rng, rng.randbytes(length)) for length in lengths]


def call_on(rng, name, given, numbers):
    """A call on a lent book; limits and slots are lent, too."""
    if name == "start":
        numbers = setup_lent(rng, *numbers)
    if name == "picture":
        numbers = [listed(rng, numbers)]
    return name, [given, *numbers, *value_buffers(rng, name)]


def office_call(rng, name, given, summary, numbers, rooms=None):
    """A change on a lent book through the office, with a lent summary; value buffers are of these lengths, or any."""
    if name == "start":
        numbers = setup_lent(rng, *numbers)
    values = value_buffers(rng, name) if rooms is None else buffers_of(rng, *rooms)
    return f"office_{name}", [given, summary, *numbers, *values]


def may_call(rng, setup, summary, desk, room=1):
    return "may", [*setup_lent(rng, *setup), Lent(rng, summary), desk, *buffers_of(rng, room)]


def fitting(rng, name, given):
    """A call on a lent book, with numbers mostly sensible."""
    return call_on(rng, name, given, some_numbers(rng, name, given.content()))


def on_book(rng, content):
    """A call that asks whether the book is sound."""
    return fitting(rng, sound_call(rng), Lent(rng, content))


def some_call(rng):
    return rng.choice(tuple(BOOK_CALLS))


def sound_call(rng):
    """Any but start."""
    return rng.choice(tuple(name for name in BOOK_CALLS if name != "start"))


# The trials: names and arguments

def trials(rng):
    """One pass after another, each with everything in it."""
    while True:
        yield from odd_number_trials(rng)
        yield from odd_setup_trials(rng)
        yield from short_ring_trials(rng)
        yield from ring_number_trials(rng)
        yield from ring_byte_trials(rng)
        yield from every_phase_trials(rng)
        yield from last_phase_trials(rng)
        yield from seam_lag_trials(rng)
        yield from label_phase_trials(rng)
        yield from label_seam_trials(rng)
        yield from limit_list_trials(rng)
        yield from odd_limit_trials(rng)
        yield from limit_byte_trials(rng)
        yield from header_limit_trials(rng)
        yield from lowered_trials(rng)
        yield from clock_trials(rng)
        yield from full_trials(rng)
        yield from label_limit_trials(rng)
        yield from mail_desk_trials(rng)
        yield from length_trials(rng)
        yield from shelf_trials(rng)
        yield from told_trials(rng)
        yield from learnt_room_trials(rng)
        yield from odds_trials(rng)
        yield from list_trials(rng)
        yield from misfit_trials(rng)
        yield from picture_room_trials(rng)
        yield from offset_trials(rng)
        yield from round_trials(rng)
        yield from label_trials(rng)
        yield from noise_trials(rng)
        yield from summary_length_trials(rng)
        yield from summary_content_trials(rng)
        yield from summary_room_trials(rng)
        yield from summary_reason_trials(rng)
        yield from office_book_trials(rng)
        yield from office_told_trials(rng)
        yield from office_noise_trials(rng)
        yield from office_run_trials(rng)
        yield from may_bound_trials(rng)
        yield from may_summary_trials(rng)
        yield from may_desk_trials(rng)
        yield from may_setup_trials(rng)
        yield from may_reason_trials(rng)
        yield from may_reset_trials(rng)
        for _ in range(SOUND_BOOKS):
            yield from sound_trials(rng)


def odd_number_trials(rng):
    for name, (count, _) in BOOK_CALLS.items():
        if name not in ("start", "picture"):
            content, others = sound_book(rng), count - (name in EVENTS)
            for numbers in itertools.product(odd_numbers(content[2]), repeat=others):
                yield name, [Lent(rng, content), *numbers, *some_wish(rng, name),
                             *value_buffers(rng, name)]


def odd_setup_trials(rng):
    for part, odd in itertools.product(book.RANGES, odd_numbers(8)):
        setup = any_setup(rng)
        yield from setup_trials(rng, setup._replace(**{part: odd}), two_labels(rng, setup))


def setup_trials(rng, setup, labels):
    """To start with, and of records."""
    yield call_on(rng, "start", Lent(rng, sound_book(rng)), setup)
    yield label_call(rng, rng.choice(LABEL_CALLS), setup, labels)


def short_ring_trials(rng):
    """P of just m+n, and one less: to start, of records and in the header of a fresh book."""
    for P in (3, 4, 5, 128, 254):
        m = rng.randint(max(1, P - 127), min(127, P - 1))
        setup = any_setup(rng)._replace(P=P, M=1, A=1, m=m, n=P - m)
        given = fresh_book(setup)
        for ring in (P, P - 1):
            yield call_on(rng, "start", Lent(rng, given), setup._replace(P=ring))
            yield on_book(rng, with_byte(given, 3, ring))
            for name in LABEL_CALLS:
                yield label_call(rng, name, setup._replace(P=ring), two_labels(rng, setup))


def ring_number_trials(rng):
    """P of each number, and A of each under both large rings: to start with, and of records."""
    for P, lags in itertools.product(RING_NUMBERS, ((1, 1, 1, 1), (127, 255, 127, 127))):
        setup = book.Setup(2, P, (4, 2), *lags)
        yield call_on(rng, "start", Lent(rng, sound_book(rng)), setup)
        # Records that read under any ring, or under the full one alone.
        labels = two_labels(rng, setup._replace(P=rng.choice((3, 256)), m=1, n=1))
        for name in LABEL_CALLS:
            yield label_call(rng, name, setup, labels)
    for P, A in itertools.product(LARGE_RINGS, SHELF_LAGS):
        setup = large_setup(rng, rng.randint(2, 8), P)
        yield from setup_trials(rng, setup._replace(A=A), two_labels(rng, setup))


def ring_byte_trials(rng):
    """The header's byte for P made each of these, in books that keep to the smallest ring or to a large one."""
    for D in (2, 5, 8):
        setup = setup_of_desks(rng, D)._replace(P=3, M=1, A=1, m=1, n=1)
        for content in (fresh_book(setup), level_book(setup, [2] * D), sound_book_of(rng, setup),
                        sound_book_of(rng, setup._replace(P=256))):
            for byte in RING_BYTES:
                yield on_book(rng, with_byte(content, 3, byte))


def every_phase_trials(rng):
    """Books with every phase in every kind of row; what they hold is asked about and compared."""
    for P, turn in itertools.product(LARGE_RINGS, range(8)):
        content = every_phase_book(rng, P, turn)
        for name in ("local", "send", "receive", "reset", "picture", *("before", "compare") * 6):
            numbers = aimed(rng, name, content) + some_wish(rng, name)
            yield call_on(rng, name, Lent(rng, content), numbers)


def last_phase_trials(rng):
    """Phase 255 for each desk, in each kind of row and as its own: a ring of 255 has none."""
    for P, desk in itertools.product(LARGE_RINGS, range(8)):
        setup = large_setup(rng, 8, P)
        own = seeds.placed([rng.randrange(P) for _ in range(8)], desk, rng.choice((0, 1)))
        for kind in ROWS:
            yield on_book(rng, uneven_book(rng, setup, own, desk, kind, 255))
        yield on_book(rng, level_book(setup, seeds.placed(own, desk, 255)))


def seam_lag_trials(rng):
    """Resets where a row lags one less than it may, as far as it may, and one more: about the seam."""
    for (P, M, A), kind, phase in itertools.product(SEAM_LAGS, ROWS, SEAM_PHASES):
        if phase < P:
            D = rng.randint(2, 8)
            setup, desk = large_setup(rng, D, P, M=M, A=A), rng.randrange(D)
            own = seeds.placed([rng.randrange(P) for _ in range(D)], desk, phase)
            for more in (-1, 0, 1):
                behind = (phase - ROWS[kind][1](setup) - more) % P
                content = uneven_book(rng, setup, own, desk, kind, behind)
                yield call_on(rng, "reset", Lent(rng, content), [desk, *some_wish(rng, "reset")])


def limit_list_trials(rng):
    """Lists of limits of every length, for the D that they are meant for and for such as are none."""
    for D in range(2, 9):
        # A count that is D in 8 bits, and in 16.
        for length in (*range(11), 256 + D, *((2**16 + D,) if D == 8 else ())):
            yield from listed_trials(rng, D, D, length)
    for D, meant in ((0, 2), (1, 2), (9, 8), (10, 8), (256 + 2, 2), (2**32 + 8, 8), (2**64 - 1, 8)):
        for length in (0, 1, 2, 8, 9, 10):
            yield from listed_trials(rng, D, meant, length)


def listed_trials(rng, D, meant, length):
    """Records, and as much of the list as there is, are those of a good setup."""
    setup = setup_of_desks(rng, meant)
    limits = list(itertools.islice(itertools.cycle(setup.limits), length))
    yield from setup_trials(rng, setup._replace(D=D, limits=limits), two_labels(rng, setup))


def odd_limit_trials(rng):
    """Each desk's limit below, at and above its range, and wider than a byte."""
    for D in (2, 5, 8):
        for desk in range(D):
            setup = setup_of_desks(rng, D)
            for limit in (0, 1, 2, 255, 256, 257, 2**64 - 1, *(more + setup.limits[desk] for more in WIDER)):
                odd = setup._replace(limits=seeds.placed(setup.limits, desk, limit))
                yield from setup_trials(rng, odd, two_labels(rng, setup))


def limit_byte_trials(rng):
    """The limit of each seat made another, below D and above, of desks that have started and that have not."""
    for D, desk in itertools.product((2, 5, 8), range(8)):
        setup = setup_of_desks(rng, D)
        for content in (fresh_book(setup), sound_book_of(rng, setup, [True] * D),
                        sound_book_of(rng, setup, [other != desk for other in range(D)])):
            for limit in (0, 1, 2, 255):
                yield on_book(rng, with_byte(content, book.limit_at(desk), limit))


def header_limit_trials(rng):
    """A limit in the header, beside those in the seats and instead of them; and none at all."""
    for D in range(2, 9):
        L = rng.choice((2, 4, 255))
        content = sound_book_of(rng, setup_of_desks(rng, D)._replace(limits=[L] * D))
        bare = content
        for desk in range(D):
            bare = with_byte(bare, book.limit_at(desk), 0)
        for given in (with_byte(content, 4, L), with_byte(content, 4, 1), with_byte(bare, 4, L), bare):
            yield on_book(rng, given)


def lowered_trials(rng):
    """A limit below, at and above the largest clock that stands in its column."""
    for D in (2, 5, 8):
        for desk in range(D):
            content = sound_book_of(rng, setup_of_desks(rng, D))
            clocks = content[book.SEAT_AT + 5 + 2 * desk::book.RECORD_BYTES]
            for more in (0, 1, 2):
                yield on_book(rng, with_byte(content, book.limit_at(desk), max(0, max(clocks) - 1 + more)))


def clock_trials(rng):
    """Each desk's last clock, and the two above it, in each kind of row; the other desks have other limits."""
    for D, kind, way in itertools.product((2, 3, 8), ("seat", "mail", "slot"), (-1, 1)):
        for desk in range(D):
            setup = setup_beside(rng, D, desk, way)
            content, record = with_record(rng, sound_book_of(rng, setup, [True] * D), kind)
            for more in (-1, 0, 1):
                clock = setup.limits[desk] + more
                yield on_book(rng, with_byte(content, record + 5 + 2 * desk, clock))


def with_record(rng, content, kind):
    """The book, still sound, with such a record in use, and where it is."""
    setup, own = book.setup_of(content), book.own_phases(content)
    if kind == "seat":
        return content, book.seat_at(rng.randrange(setup.D))
    if kind == "mail":
        at, made = book.place_at(rng.randrange(32)), book.MAIL_MARK + random_mail(rng, setup, own)
    else:
        at, made = book.slot_at(rng.randrange(32)), book.SHELF_MARK + random_slot(rng, setup, own)
    return content[:at] + made + content[at + 20:], at


def full_trials(rng):
    """Each event that counts, at each desk's last clock and at the one before; others have other limits."""
    for D, name, way in itertools.product((2, 3, 8), ("local", "send", "receive"), (-1, 1)):
        for desk, left in itertools.product(range(D), (0, 1)):
            setup = setup_beside(rng, D, desk, way)
            other = rng.choice([other for other in range(D) if other != desk])
            content, place = with_mail(rng, sound_book_of(rng, setup, [True] * D), other, desk)
            content = with_byte(content, book.own_entry(desk) + 1, setup.limits[desk] - 1 - left)
            numbers = {"local": [desk], "send": [desk, other], "receive": [desk, place]}[name]
            yield call_on(rng, name, Lent(rng, content), numbers + some_wish(rng, name))


def with_mail(rng, content, sender, addressee):
    """The book with such mail, and its place."""
    setup, own, place = book.setup_of(content), book.own_phases(content), rng.randrange(32)
    mail = bytes((sender + 1, addressee + 1)) + random_row(rng, setup, own, 2 * setup.M)
    at = book.place_at(place)
    return content[:at] + book.MAIL_MARK + mail + content[at + 20:], place


def label_limit_trials(rng):
    """Each desk's last clock, and the two above it, in a record; and the last one under limits exchanged."""
    for D, way, name in itertools.product((2, 3, 8), (-1, 1), LABEL_CALLS):
        for desk in range(D):
            setup, at = setup_beside(rng, D, desk, way), rng.randrange(2)
            labels = two_labels(rng, setup)
            for more in (1, 0, -1):
                clock = setup.limits[desk] + more
                labels = seeds.placed(labels, at, with_byte(labels[at], 5 + 2 * desk, clock))
                yield label_call(rng, name, setup, labels)
            yield label_call(rng, name, exchanged(rng, setup, desk), labels)


def exchanged(rng, setup, desk):
    """The setup with the limit of a desk at another, and the other's at it."""
    other = rng.choice([other for other in range(setup.D) if other != desk])
    limits = seeds.placed(setup.limits, desk, setup.limits[other])
    return setup._replace(limits=seeds.placed(limits, other, setup.limits[desk]))


def mail_desk_trials(rng):
    """Mail from and to each of the outermost desks and those beyond them, to oneself among it."""
    for D in (2, 5, 8):
        content = sound_book_of(rng, setup_of_desks(rng, D))
        for desks in itertools.product((-1, 0, D - 1, D, 254), repeat=2):
            yield on_book(rng, with_mail(rng, content, *desks)[0])


def length_trials(rng):
    for length in WRONG_LENGTHS:
        for name in BOOK_CALLS:
            content = (sound_book(rng) + b"\0")[:length]
            yield fitting(rng, name, Lent(rng, content))


def shelf_trials(rng):
    """Each event by each wish, with no slot free and with one, and slot buffers about their length."""
    for (name, number), free in itertools.product(UNKEPT, (0, 1)):
        # Where a full shelf alone stands in the way it does so under P of 256, too.
        alone = (number, free) == (book.DONE, 0)
        for setup_made in (any_setup, full_ring_setup)[:1 + alone]:
            content, numbers = answered(rng, name, number, setup_made)
            content = shelf_with(rng, content, numbers[0], free)
            for wish, room in itertools.product(WISHES, (0, 1, 2)):
                yield name, [Lent(rng, content), *numbers, wish,
                             *buffers_of(rng, *NEEDS[name][:-1], room)]


def told_trials(rng):
    """Mail that tells of none to all others, with what it says of the rest and of the receiver itself."""
    rests = (EQUAL,), (OLDER,), (EQUAL, OLDER)
    for D, rest, own in itertools.product((2, 5, 8), rests, (LATER, EQUAL, OLDER)):
        for count in range(D):
            kinds = [LATER] * count + rng.choices(rest, k=D - 1 - count)
            rng.shuffle(kinds)
            desk, place = rng.randrange(D), rng.randrange(32)
            kinds.insert(desk, own)
            content = shelf_with(rng, told_book(rng, desk, place, kinds), desk, 1)
            yield "receive", [Lent(rng, content), desk, place, rng.choice(WISHES),
                              *buffers_of(rng, *NEEDS["receive"])]


def learnt_room_trials(rng):
    """Receipts by some wishes, with no slot free and with one, and learnt buffers about their length."""
    for number, free in itertools.product((book.DONE, book.PHASE_FULL), (0, 1)):
        content, numbers = answered(rng, "receive", number, any_setup)
        content = shelf_with(rng, content, numbers[0], free)
        for wish, room, slot in itertools.product((0, 1, 256), (0, 1, 2), (0, 1)):
            yield "receive", [Lent(rng, content), *numbers, wish,
                              *buffers_of(rng, 20, room, slot)]


def odds_trials(rng):
    """Pictures with no two at odds, and with each two the first at odds: one way, the other, and both."""
    for desks in range(2, 9):
        for _ in range(6):
            yield picture_trial(rng, *pictured_book(rng, kinds_known(rng, desks)))
    for desks in (2, 3, 5, 8):
        for pair in itertools.combinations(range(desks), 2):
            agreed = rng.choice((EQUAL, OLDER))
            for two in ((LATER, agreed), (agreed, LATER), (LATER, LATER)):
                yield picture_trial(rng, *pictured_book(rng, kinds_known(rng, desks, pair, two)))


def picture_trial(rng, content, slots, rooms=NEEDS["picture"]):
    return "picture", [Lent(rng, content), listed(rng, slots), *buffers_of(rng, *rooms)]


def list_trials(rng):
    """Lists of every length, and with a slot that is not there at any place."""
    for desks, length in itertools.product((2, 5, 8), (*range(11), 256, 257)):
        content, slots = pictured_book(rng, kinds_known(rng, desks))
        yield picture_trial(rng, content, (slots * 129)[:length])
    for desks in range(2, 9):
        # A count that is D in 8 bits, and in 16.
        for more in (256,) if desks < 8 else (256, 2**16):
            content, slots = pictured_book(rng, kinds_known(rng, desks))
            yield picture_trial(rng, content, slots + [slots[0]] * more)
        for odd in (31, 32, 255, 256, 2**32, 2**64 - 1, *WIDER):
            content, slots = pictured_book(rng, kinds_known(rng, desks))
            at = rng.randrange(desks)
            wide = odd + slots[at] if odd in WIDER and rng.random() < 0.7 else odd
            yield picture_trial(rng, content, seeds.placed(slots, at, wide))


def misfit_trials(rng):
    """Lists that do not fit, of few desks mostly: more of these are within reach of one another."""
    for misfit, desks in itertools.product(MISFITS, (2, 2, 2, 2, 2, 2, 3, 3, 3, 4, 5, 6, 7, 8)):
        yield picture_trial(rng, *some_picture(rng, desks, misfit))


def picture_room_trials(rng):
    """Each answer of a picture, with answer and odds buffers about their lengths."""
    for answer in PICTURES:
        content, slots = answered_picture(rng, answer)
        for rooms in itertools.product((0, 1, 2), (0, 1, 2, 3)):
            yield picture_trial(rng, content, slots, rooms)


def offset_trials(rng):
    for offset in range(book.BOOK_BYTES):
        content = damaged_byte(rng, sound_book(rng), offset)
        yield fitting(rng, some_call(rng), Lent(rng, content))


def round_trials(rng):
    """A phase off the ring, where it can be by just P: a desk's own, and one in any row."""
    for desk in range(8):
        for at in (book.own_entry(desk), rng.randrange(book.SEAT_AT, book.BOOK_BYTES, 20) + 4 + 2 * desk):
            content = sound_book(rng)
            moved = moved_round(content, at, book.setup_of(content).P)
            yield fitting(rng, some_call(rng), Lent(rng, moved))


def noise_trials(rng):
    for name in BOOK_CALLS:
        yield fitting(rng, name, Lent(rng, bytes(book.BOOK_BYTES)))
        yield fitting(rng, name, Lent(rng, rng.randbytes(book.BOOK_BYTES)))


def sound_trials(rng):
    """Some calls one after another on one book, wherever it came from."""
    given = Lent(rng, sound_book(rng))
    for _ in range(4):
        yield fitting(rng, sound_call(rng), given)
    for name in ("receive", "before", "compare", "reset", "picture"):
        yield call_on(rng, name, given, aimed(rng, name, given.content()) + some_wish(rng, name))
    for name in ("before", "compare"):
        first, second = aimed(rng, name, given.content())
        if book.slot_used(given.content(), first):
            content = slots_apart(rng, given.content(), first, second)
            content = slots_apart(rng, content, second, first)
            yield name, [Lent(rng, content), first, second, *value_buffers(rng, name)]


def aimed(rng, name, content):
    """Numbers that pass the first refusals, where the book has such; without an event's wish."""
    if name in ("local", "reset"):
        return [rng.randrange(content[2])]
    if name == "send":
        return rng.sample(range(content[2]), 2)
    if name == "receive":
        used = [p for p in range(32) if book.place_used(content, p)] or [0]
        place = rng.choice(used)
        return [max(0, content[book.place_at(place) + 3] - 1), place]
    used = [s for s in range(32) if book.slot_used(content, s)] or [0]
    if name == "picture":
        return [rng.choice([s for s in used if content[book.slot_at(s) + 2] == desk + 1] or used)
                for desk in range(content[2])]
    return [rng.choice(used), rng.choice(used)]


# Summaries, and books for the office

def true_summary(rng, content):
    return book.summary_of(content)


def no_summary(rng, content):
    """As the program has it at first."""
    return bytes(book.SUMMARY_BYTES)


def garbage(rng, content):
    return rng.randbytes(book.SUMMARY_BYTES)


def another_books(rng, content):
    return book.summary_of(sound_book(rng))


def unmarked_summary(rng, content):
    return damaged_byte(rng, book.summary_of(content), rng.randrange(2))


def false_summary(rng, content):
    """One lag is another."""
    return damaged_byte(rng, book.summary_of(content), rng.randrange(2, book.SUMMARY_BYTES))


SUMMARIES = (true_summary, no_summary, garbage, another_books, unmarked_summary, false_summary)


def summary_of_length(rng, content, length):
    """The beginning of a true one, which garbage follows."""
    return (book.summary_of(content) + rng.randbytes(length))[:length]


def either_setup(rng):
    return rng.choice((any_setup, full_ring_setup))(rng)


def odd_setups(setup, desk):
    """The setup with each number, a desk's limit or the list of limits made such as is not permitted."""
    for part, (low, high) in book.RANGES.items():
        wide = [more + getattr(setup, part) for more in WIDER]
        for number in (0, low - 1, high + 1, *wide, 2**64 - 1):
            yield setup._replace(**{part: number})
    wide = [more + setup.limits[desk] for more in WIDER]
    for limit in (0, 1, 256, *wide, 2**64 - 1):
        yield setup._replace(limits=seeds.placed(setup.limits, desk, limit))
    for more in (-setup.D, -1, 1, 256):
        yield setup._replace(limits=(list(setup.limits) * 200)[:setup.D + more])


def some_change(rng, name, content, setup_made=either_setup):
    """All numbers of a change, mostly such as pass the first refusals."""
    if name == "start":
        setup = setup_made(rng)
        return rng.choice([*odd_setups(setup, 0)]) if rng.random() < 0.3 else setup
    if not book.sound(content) or rng.random() < 0.3:
        return some_numbers(rng, name, content)
    if name in EVENTS:
        return aimed(rng, name, content) + some_wish(rng, name)
    used = book.slot_used if name == "drop" else book.place_used
    return [rng.choice([at for at in range(32) if used(content, at)] or [0])]


def answered_change(rng, name, number, setup_made):
    """A book, and numbers to which a change is answered so on it alone."""
    while True:
        content = sound_book_of(rng, setup_made(rng))
        if number == book.SHELF_FULL:
            content = shelf_with(rng, content, rng.randrange(content[2]), 0)
        if number == book.BAD_BOOK:
            content = content[1:] if name == "start" else damaged_byte(rng, content, rng.choice((0, 4, 9, 16)))
        for _ in range(20):
            numbers = some_change(rng, name, content, setup_made)
            if getattr(book, name)(content, *numbers)[0] == number:
                return content, numbers


def books_of_every_kind(rng):
    """Sound: with every phase, of desks that have not started, full, with news, and lags about their bounds."""
    for P, turn in itertools.product(LARGE_RINGS, (0, 3, 6)):
        yield every_phase_book(rng, P, turn)
    for D in (2, 5, 8):
        setup = setup_of_desks(rng, D)
        yield fresh_book(setup)
        yield level_book(setup, [rng.randrange(setup.P) for _ in range(D)])
        for begun in range(2):
            yield sound_book_of(rng, setup, [desk % 2 == begun for desk in range(D)])
        yield told_book(rng, 0, 31, [LATER] * D)
        yield pictured_book(rng, kinds_known(rng, D))[0]
        for free in (0, 1):
            yield shelf_with(rng, sound_book_of(rng, either_setup(rng)), 0, free)
    for (P, M, A), kind, more in itertools.product(SEAM_LAGS, ROWS, (-1, 0)):
        setup, own = large_setup(rng, 2, P, M=M, A=A), [rng.choice(SEAM_PHASES[:-1]), 9]
        yield uneven_book(rng, setup, own, 0, kind, (own[0] - ROWS[kind][1](setup) - more) % P)
    for _ in range(20):
        yield sound_book_of(rng, either_setup(rng))


# Changes through the office

def summary_length_trials(rng):
    """Each change that is done on its book, with a summary of every length."""
    for name in CHANGES:
        cases = [answered_change(rng, name, book.DONE, setup_made) for setup_made in (any_setup, full_ring_setup)]
        for length in SUMMARY_LENGTHS:
            content, numbers = rng.choice(cases)
            summary = rng.choice((rng.randbytes(length), summary_of_length(rng, content, length)))
            yield office_call(rng, name, Lent(rng, content), Lent(rng, summary), numbers, NEEDS[name])


def summary_content_trials(rng):
    """Each change that is done on its book, with a summary of every kind."""
    for name, summary_made in itertools.product(CHANGES, SUMMARIES * 3):
        content, numbers = answered_change(rng, name, book.DONE, either_setup)
        summary = summary_made(rng, content)
        yield office_call(rng, name, Lent(rng, content), Lent(rng, summary), numbers, NEEDS[name])


def summary_room_trials(rng):
    """Events, kept and not, with a value buffer too short or none, and summaries about their length."""
    for name, keep in itertools.product(EVENTS, (0, 1)):
        content, numbers = answered(rng, name, book.DONE, either_setup)
        content = shelf_with(rng, content, numbers[0], 1)
        needed = NEEDS[name]
        for rooms in (needed, *(seeds.placed(needed, at, need - 1) for at, need in enumerate(needed))):
            for length in (0, 25, 26, 27):
                summary = Lent(rng, summary_of_length(rng, content, length))
                yield office_call(rng, name, Lent(rng, content), summary, [*numbers, keep], rooms)


def summary_reason_trials(rng):
    """Each reason of the book beside summaries about their length; value buffers have room or have not."""
    for setup_made, (name, reasons) in itertools.product((any_setup, full_ring_setup), REASONS.items()):
        for number in reasons:
            content, numbers = answered_change(rng, name, number, setup_made)
            for length in (0, 25, 26, 27):
                rooms = [need - rng.choice((0, 1)) for need in NEEDS[name]]
                yield office_call(rng, name, Lent(rng, content), Lent(rng, rng.randbytes(length)), numbers, rooms)


def office_book_trials(rng):
    """Each change on books of every kind, beside summaries of every kind."""
    for content, name in itertools.product(books_of_every_kind(rng), CHANGES):
        summary = Lent(rng, rng.choice(SUMMARIES)(rng, content))
        yield office_call(rng, name, Lent(rng, content), summary, some_change(rng, name, content))


def office_told_trials(rng):
    """Mail that tells of none to all of seven others."""
    for count in range(8):
        kinds = [LATER] * count + rng.choices((EQUAL, OLDER), k=7 - count)
        rng.shuffle(kinds)
        desk, place = rng.randrange(8), rng.randrange(32)
        kinds.insert(desk, EQUAL)
        content = shelf_with(rng, told_book(rng, desk, place, kinds), desk, 1)
        yield office_call(rng, "receive", Lent(rng, content), Lent(rng, garbage(rng, content)),
                          [desk, place, rng.choice(WISHES)], NEEDS["receive"])


def office_noise_trials(rng):
    """Books that are none: of wrong lengths, of zeros, at random, and damaged at some byte."""
    for name in CHANGES:
        contents = [(sound_book(rng) + b"\0")[:length] for length in WRONG_LENGTHS]
        contents += [bytes(book.BOOK_BYTES), rng.randbytes(book.BOOK_BYTES)]
        contents += [damaged_byte(rng, sound_book(rng), rng.randrange(book.BOOK_BYTES)) for _ in range(6)]
        for content in contents:
            summary = Lent(rng, rng.randbytes(rng.choice((25, 26, 26, 27))))
            yield office_call(rng, name, Lent(rng, content), summary, some_change(rng, name, content))


def office_run_trials(rng):
    """Changes one after another from garbage on, at times on the book alone; who may reset is asked between them."""
    for _ in range(60):
        given, summary = Lent(rng, sound_book_of(rng, either_setup(rng))), Lent(rng, garbage(rng, b""))
        for _ in range(7):
            name = rng.choice(CHANGES[1:])
            numbers = some_change(rng, name, given.content())
            yield (call_on(rng, name, given, numbers) if rng.random() < 0.15
                   else office_call(rng, name, given, summary, numbers))
            setup = book.setup_of(given.content())
            yield may_call(rng, setup, summary.content(), rng.randrange(setup.D))


# Who may reset

def bounds_of(setup):
    """How far each kind of row may lag."""
    return [bound(setup) for _, bound in ROWS.values()]


def may_bound_trials(rng):
    """Each of the 24 lags as large as it may be, one more and far more; the others are a sound book's."""
    for D, P, M, A in MAY_BOUNDS:
        setup = book.Setup(D, P, seeds.some_limits(rng, D), M, A, *seeds.some_reach(rng, P))
        summary = book.summary_of(sound_book_of(rng, setup))
        for at, more in itertools.product(range(24), (0, 1, 255)):
            lag = min(255, bounds_of(setup)[at % 3] + more)
            desk = at // 3 if at // 3 < D and rng.random() < 0.5 else rng.randrange(D)
            yield may_call(rng, setup, with_byte(summary, 2 + at, lag), desk)


def may_summary_trials(rng):
    """True summaries of every length, and with every other mark."""
    for length in SUMMARY_LENGTHS:
        content = sound_book_of(rng, either_setup(rng))
        setup = book.setup_of(content)
        yield may_call(rng, setup, summary_of_length(rng, content, length), rng.randrange(setup.D))
    for mark in (book.HEADER_MARK, book.SEAT_MARK, book.MAIL_MARK, book.SHELF_MARK, book.STAMP_MARK,
                 b"SV", b"ST", b"TU", b"RU", b"US", b"S\0", b"\0U", b"su", bytes(2), b"\xff\xff"):
        content = sound_book_of(rng, either_setup(rng))
        setup = book.setup_of(content)
        yield may_call(rng, setup, mark + book.summary_of(content)[2:], rng.randrange(setup.D))


def may_desk_trials(rng):
    """Desks that are there and that are not, however wide, beside a true summary and beside a bad one."""
    for D, summary_made in itertools.product((2, 5, 8), (true_summary, unmarked_summary)):
        content = sound_book_of(rng, setup_of_desks(rng, D))
        for desk in (*range(9), *odd_numbers(D), *(more + rng.randrange(D) for more in WIDER)):
            yield may_call(rng, book.setup_of(content), summary_made(rng, content), desk)


def may_setup_trials(rng):
    """Setups that are not permitted, by each part of them, whatever the summary and the desk are."""
    for setup_made in (any_setup, full_ring_setup):
        content = sound_book_of(rng, setup_made(rng))
        for setup in odd_setups(book.setup_of(content), rng.randrange(content[2])):
            summary = rng.choice((true_summary, *SUMMARIES))(rng, content)
            yield may_call(rng, setup, summary, rng.choice((0, content[2], 2**64 - 1)), rng.choice((0, 1)))


def may_reason_trials(rng):
    """Each reason with and without each other, and answer buffers about their length."""
    for setup_made, good, there, room in itertools.product(
            (any_setup, full_ring_setup), (False, True), (False, True), (0, 1, 2)):
        content = sound_book_of(rng, setup_made(rng))
        setup = book.setup_of(content)
        desk = rng.randrange(setup.D) + (0 if there else rng.choice((setup.D, 256, 2**32)))
        for summary in (book.summary_of(content), book.summary_of(content)[:25],
                        unmarked_summary(rng, content), beyond_a_bound(rng, setup, content)):
            yield may_call(rng, setup if good else setup._replace(M=0), summary, desk, room)


def beyond_a_bound(rng, setup, content):
    """The summary with a lag too large, where a byte holds one."""
    at = rng.choice([at for at in range(24) if bounds_of(setup)[at % 3] < 255])
    return with_byte(book.summary_of(content), 2 + at, bounds_of(setup)[at % 3] + 1)


def may_reset_trials(rng):
    """By the summary of a sound book, beside the reset of that book: both answer alike about lags."""
    for setup_made, number in itertools.product((any_setup, full_ring_setup), LAG_NUMBERS * 6):
        content, (desk,) = answered(rng, "reset", number, setup_made)
        yield from beside_the_reset(rng, content, desk)
    for content in books_of_every_kind(rng):
        yield from beside_the_reset(rng, content, rng.randrange(content[2]))


def beside_the_reset(rng, content, desk):
    setup, summary = book.setup_of(content), book.summary_of(content)
    if book.may(setup, summary, desk) != (book.DONE, (book.reset(content, desk, 0)[0],)):
        raise AssertionError("may and reset were meant to answer alike")
    yield may_call(rng, setup, summary, desk)
    yield call_on(rng, "reset", Lent(rng, content), [desk, 0])


# Labels

def random_label(rng, setup, phases):
    """A stamp whose phases are near the given ones."""
    row = bytearray(random_row(rng, setup, phases, min(3, setup.P - 1)))
    if rng.random() < 0.3:
        row = bytearray(random_row(rng, setup, phases, setup.P - 1))
    return book.record_of(setup, book.Stamp(rng.randrange(setup.D), bytes(row)))


def two_labels(rng, setup):
    phases = [rng.randrange(setup.P) for _ in range(setup.D)]
    first, second = (random_label(rng, setup, phases) for _ in range(2))
    if rng.random() < 0.1:
        return first, first
    if rng.random() < 0.6:
        first, second = labels_apart(rng, setup, first, second)
        second, first = labels_apart(rng, setup, second, first)
    return first, second


def labels_apart(rng, setup, first, second):
    """Two labels, the second at an edge of the first one's reach."""
    e, f, at = bytearray(first), bytearray(second), 4 + 2 * first[2]
    f[at] = (e[at] + edge_of_reach(rng, setup)) % setup.P
    e[at + 1] = rng.choice((0, e[at + 1]))
    return bytes(e), bytes(f)


def label_call(rng, name, setup, labels):
    lent = [Lent(rng, label) for label in labels]
    return name, [*setup_lent(rng, *setup), *lent, *value_buffers(rng, name)]


def label_trials(rng):
    for name in LABEL_CALLS:
        for _ in range(200):
            yield label_trial(rng, name, lambda label, P: label)
        for offset in range(book.RECORD_BYTES):
            yield label_trial(rng, name, lambda label, P: damaged_byte(rng, label, offset))
        for desk in range(8):
            yield label_trial(rng, name, lambda label, P: moved_round(label, 4 + 2 * desk, P))
        for length in WRONG_LABEL_LENGTHS:
            yield label_trial(rng, name, lambda label, P: (label + label)[:length])


def label_trial(rng, name, spoil):
    setup = any_setup(rng)
    labels = list(two_labels(rng, setup))
    at = rng.randrange(2)
    labels[at] = spoil(labels[at], setup.P)
    return label_call(rng, name, setup, labels)


def with_phases(label, phases):
    made = bytearray(label)
    made[4:4 + 2 * len(phases):2] = bytes(phases)
    return bytes(made)


def label_phase_trials(rng):
    """Every phase in records, sixteen in each two; then 255 at each place of them: a ring of 255 has none."""
    for P, block in itertools.product(LARGE_RINGS, range(16)):
        setup, phases = large_setup(rng, 8, P), [(16 * block + at) % P for at in rng.sample(range(16), 16)]
        labels = [with_phases(label, phases[at:at + 8])
                  for label, at in zip(two_labels(rng, setup), (0, 8))]
        for name in LABEL_CALLS:
            yield label_call(rng, name, setup, labels)
    for P, desk, at in itertools.product(LARGE_RINGS, range(8), range(2)):
        setup = large_setup(rng, 8, P)
        labels = two_labels(rng, setup)
        labels = seeds.placed(labels, at, with_byte(labels[at], 4 + 2 * desk, 255))
        yield label_call(rng, rng.choice(LABEL_CALLS), setup, labels)


def label_seam_trials(rng):
    """About the ends of the reach from phases about the seam, of a reset and of others."""
    for P, (m, n), clock in itertools.product(LARGE_RINGS, ((127, 127), (2, 3)), (0, 1)):
        setup = large_setup(rng, rng.randint(2, 8), P, m=m, n=n)
        for phase, d in itertools.product((0, 1, P - 2, P - 1), edges_of_reach(setup)):
            e, f = two_labels(rng, setup)
            at = 4 + 2 * e[2]
            e, f = with_byte(with_byte(e, at, phase), at + 1, clock), with_byte(f, at, (phase + d) % P)
            yield label_call(rng, rng.choice(LABEL_CALLS), setup, (e, f))


# The comparison

Asked = collections.namedtuple("Asked", "name arguments number memories")


def ask(name, arguments):
    """A call as it is made, with what it should answer; its buffers are left as they should be."""
    asked = Asked(name, [copy.copy(argument) for argument in arguments],
                  *expected(name, arguments))
    for buffer, memory in zip(parted(arguments)[1], asked.memories):
        buffer.memory = memory
    return asked


def batches(calls, seed):
    made = (ask(*trial) for trial in itertools.islice(trials(random.Random(seed)), calls))
    while batch := list(itertools.islice(made, BATCH)):
        yield batch


def differences(asked, number, memories):
    wrong = []
    if number != asked.number:
        wrong.append(f"second answers {asked.number}, library {number}")
    for at, (wanted, given) in enumerate(zip(asked.memories, memories)):
        if wanted != given:
            wrong += [f"buffer {at}, byte {offset - GUARD}: second {one}, library {other}"
                      for offset, (one, other) in enumerate(zip(wanted, given)) if one != other][:8]
    return wrong


# How often each call was answered so, and which phases were read under the large rings.
Seen = collections.namedtuple("Seen", "answers phases")


def seen_of(asked):
    """The call with its number, a value that went with it, and whether its P is 256."""
    value = value_of(asked) if asked.number == book.DONE else None
    return asked.name, asked.number, value, phases_of(asked) == book.FULL_RING


def phases_of(asked):
    """The P that a call goes by: as it is given, or as the header tells it."""
    numbers, lent = parted(asked.arguments)
    if made_on_book(asked.name) in ("start", "may", *LABEL_CALLS):
        return numbers[1]
    return book.setup_of(lent[0].content()).P if lent[0].length == book.BOOK_BYTES else None


def phases_read(asked):
    """Of a book or of records that were read: the P, the kind of row and the phase, of each entry below D.

    What the office reads is not counted, so that the other calls have every phase by themselves.
    """
    P = phases_of(asked)
    if P not in LARGE_RINGS or asked.name in ("start", "may", *OFFICE_CALLS) or asked.number in (
            book.BAD_BOOK, book.BAD_SETUP, book.BAD_STAMP):
        return set()
    return {(P, kind, phase) for kind, row in rows_of(asked) for phase in row}


def rows_of(asked):
    """The kind and the phases of each row that is in use."""
    numbers, lent = parted(asked.arguments)
    if asked.name in LABEL_CALLS:
        return [("record", label.content()[4:4 + 2 * numbers[0]:2]) for label in lent[1:3]]
    content = lent[0].content()
    used = [at for at in range(book.SEAT_AT, book.BOOK_BYTES, 20) if content[at + 2]]
    return [("seat" if at < book.MAIL_AT else "mail" if at < book.SHELF_AT else "slot",
             content[at + 4:at + 4 + 2 * content[2]:2]) for at in used]


def value_of(asked):
    """Where it is one byte, how much was learnt, or the two desks at odds, a yes being none."""
    if asked.name == "picture":
        answer, odds = (memory[GUARD:] for memory in asked.memories[2:])
        return () if answer[0] else tuple(odds[:2])
    if made_on_book(asked.name) == "receive" or NEEDS[asked.name] == (1,):
        return asked.memories[-1 if NEEDS[asked.name] == (1,) else -2][GUARD]
    return None


def report(trial, seed, asked, wrong):
    print(f"call {trial} of seed {seed}: {asked.name} differs")
    for argument in asked.arguments:
        print(f"  given   {argument.content().hex() if isinstance(argument, Lent) else argument}")
    for one in wrong:
        print(f"  {one}")


def compare(library, calls, seed):
    """What was seen of the calls; None when something differs."""
    seen = Seen(collections.Counter(), set())
    for batch in batches(calls, seed):
        answers, ended = library(batch)
        for asked, answer in itertools.zip_longest(batch, answers):
            wrong = (differences(asked, *answer) if answer
                     else [f"the driver answers nothing and ends with {ended}"])
            if wrong:
                report(sum(seen.answers.values()) + 1, seed, asked, wrong)
                return None
            seen.answers[seen_of(asked)] += 1
            seen.phases.update(phases_read(asked))
        if ended != 0:
            print(f"all calls agree, but the driver ends with {ended}")
            return None
    return seen


def tell(seen):
    for name in NEEDS:
        print(f"  {name}: {numbers_of(seen, name, (False, True))}")
        print(f"    of these under P of 256: {numbers_of(seen, name, (True,))}")
    for P in LARGE_RINGS:
        kinds = collections.Counter(kind for ring, kind, _ in seen.phases if ring == P)
        print(f"  phases read under P of {P}: " + ", ".join(f"{kind} {c}" for kind, c in sorted(kinds.items())))


def numbers_of(seen, name, rings):
    """How often a call gave each number."""
    numbers = collections.Counter()
    for (call, number, _, full), count in seen.answers.items():
        if call == name and full in rings:
            numbers[number] += count
    return ", ".join(f"{number:03} {count}" for number, count in sorted(numbers.items()))


def main():
    parser = argparse.ArgumentParser(description="the C interface against the second opinion")
    parser.add_argument("driver")
    parser.add_argument("--calls", type=int, default=DEFAULT_CALLS)
    parser.add_argument("--seed", type=int, default=1)
    parser.add_argument("--runner", default="")
    options = parser.parse_args()
    command = shlex.split(options.runner) + [os.path.abspath(options.driver)]
    seen = compare(driver(command), options.calls, options.seed)
    if seen is None:
        return 1
    print(f"{sum(seen.answers.values())} calls agreed; how often each number was answered:")
    tell(seen)
    return 0


if __name__ == "__main__":
    sys.exit(main())
