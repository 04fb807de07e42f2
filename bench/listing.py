#!/usr/bin/env python3
"""A listing of 60,000 mixed lines, the same at each run.

    python3 bench/listing.py > listing

The book is followed with phases that never come round, only so far as is needed
to choose calls that mostly go through. Tides of filling and emptying bring full
mail and a full shelf; before about half of the resets the line ahead asks whether
the desk may; about one line in forty is a BadLine.
"""

import random

LINES = 60_000
LINES_A_START = 1_000
LINES_A_TIDE = 200
PLACES = SLOTS = 32

# Desks, phases, the limit of each desk, lags and reach, as a start line has them.
SETUPS = [
    (8, 255, [255, 255, 255, 255, 255, 255, 255, 255], 100, 200, 100, 100),
    (2, 3, [50, 30], 1, 2, 1, 1),
    (8, 64, [32, 16, 64, 24, 28, 48, 36, 20], 20, 40, 30, 30),
    (3, 5, [25, 40, 15], 2, 4, 2, 2),
    (5, 16, [10, 6, 14, 20, 8], 5, 12, 8, 8),
    (4, 9, [200, 255, 100, 30], 3, 6, 4, 5),
    (8, 255, [20, 21, 22, 23, 24, 25, 26, 10], 127, 254, 127, 127),
    (8, 256, [20, 21, 22, 23, 24, 25, 26, 10], 127, 255, 127, 127),
    (6, 31, [8, 16, 6, 12, 7, 9], 10, 20, 16, 15),
]
REFUSED_SETUPS = [
    (8, 257, [255, 255, 255, 255, 255, 255, 255, 255], 100, 200, 100, 100),
    (8, 255, [255, 255, 255, 255, 255, 255, 255, 256], 100, 200, 100, 100),
    (3, 5, [25, 1, 15], 2, 4, 2, 2),
    (9, 5, [], 2, 4, 2, 2),
]

EVENTS = ("local", "send", "receive", "reset")

# "kept" stands for an event that is kept, chosen by the weights of the four; the others are not kept.
WEIGHTS = {
    "filling": {"local": 12, "send": 34, "receive": 14, "reset": 6, "kept": 18,
                "drop": 1, "discard": 1, "before": 7, "compare": 7, "picture": 7},
    "emptying": {"local": 12, "send": 12, "receive": 24, "reset": 10, "kept": 10,
                 "drop": 13, "discard": 5, "before": 7, "compare": 7, "picture": 7},
}

BAD_LINES = [
    "", "local", "local 7 000", "local 0007 000", "local  000 000", "local 000 000 ",
    " local 000 000", "Local 000 000", "send 000 001", "send 000 001 002",
    "receive 000,001 000", "show 000", "write 000", "keep 000", "start 008 255 255",
    "start 002 003 050 001 002 001 001", "start 002 003 050 030 010 001 002 001 001",
    "drop 00x", "drop\t000", "compare 000 001" + 60 * " ", "x" * 64, "x" * 65,
    "before 000 001\r", "picture 000 1", "picture 000  001", "picture" + 15 * " 000",
    "may", "may 0", "may 000 000",
]


class Book:
    """What the next lines are chosen by: the rows, what waits and what is kept."""

    def __init__(self, setup):
        self.desks, _, self.limits, self.seat_lag, self.shelf_lag = setup[:5]
        self.rows = [[(0, 0)] * self.desks for _ in range(self.desks)]
        self.mail = {}
        self.shelf = {}
        # The reset that the line before asked about, as a verb, its numbers and the wish to keep.
        self.asked = None

    def phase_full(self, desk):
        return desk < self.desks and self.rows[desk][desk][1] == self.limits[desk] - 1

    def no_slot(self, keep):
        return keep and len(self.shelf) == SLOTS

    def ticks(self, desk, keep):
        """Says whether the event takes place: local, send and receive go on from there."""
        if desk >= self.desks or self.phase_full(desk) or self.no_slot(keep):
            return False
        phase, clock = self.rows[desk][desk]
        self.rows[desk][desk] = (phase, clock + 1)
        return True

    def shelve(self, desk, keep):
        if keep:
            self.shelf[lowest_free(self.shelf)] = (desk, list(self.rows[desk]))

    def local(self, desk, keep):
        if self.ticks(desk, keep):
            self.shelve(desk, keep)

    def send(self, desk, to, keep):
        if to < self.desks and desk != to and len(self.mail) < PLACES and self.ticks(desk, keep):
            self.mail[lowest_free(self.mail)] = (to, list(self.rows[desk]))
            self.shelve(desk, keep)

    def receive(self, desk, place, keep):
        if place in self.mail and self.mail[place][0] == desk and self.ticks(desk, keep):
            _, row = self.mail.pop(place)
            own = self.rows[desk][desk]
            self.rows[desk] = [max(pairs) for pairs in zip(self.rows[desk], row)]
            self.rows[desk][desk] = own
            self.shelve(desk, keep)

    def behind(self, desk, row, most):
        return self.rows[desk][desk][0] - row[desk][0] == most

    def reset(self, desk, keep):
        if desk >= self.desks or self.no_slot(keep):
            return
        if any(self.behind(desk, row, self.seat_lag) for row in self.rows):
            return
        if any(self.behind(desk, row, 2 * self.seat_lag) for _, row in self.mail.values()):
            return
        if any(self.behind(desk, row, self.shelf_lag) for _, row in self.shelf.values()):
            return
        self.rows[desk][desk] = (self.rows[desk][desk][0] + 1, 0)
        self.shelve(desk, keep)

    def drop(self, slot):
        self.shelf.pop(slot, None)

    def discard(self, place):
        self.mail.pop(place, None)

    def kept_by(self, desk):
        return [slot for slot in sorted(self.shelf) if self.shelf[slot][0] == desk]

    def without_stamp(self):
        return [desk for desk in range(self.desks) if not self.kept_by(desk)]

    def before(self, *slots):
        """A question changes nothing."""

    compare = picture = may = before


def lowest_free(used):
    return min(set(range(len(used) + 1)) - used.keys())


def any_used(choose, used):
    """Mostly a used number, now and then a free one or one above all."""
    if used and choose.random() < 0.97:
        return choose.choice(sorted(used))
    return choose.choice([0, 31, 32, 255, 999])


def any_desk(choose, book):
    if choose.random() < 0.99:
        return choose.randrange(book.desks)
    return choose.choice([book.desks, 255, 999])


def any_receipt(choose, book):
    place = any_used(choose, book.mail)
    if place in book.mail and choose.random() < 0.97:
        return [book.mail[place][0], place]
    return [any_desk(choose, book), place]


def any_sending(choose, book):
    desk = any_desk(choose, book)
    if choose.random() < 0.97:
        return [desk, (desk + choose.randrange(1, book.desks)) % book.desks]
    return [desk, any_desk(choose, book)]


def any_picture(choose, book):
    """Mostly a stamp of each desk, its newest or any; now and then any slots, and any number of them."""
    if book.without_stamp() or choose.random() < 0.05:
        count = choose.choice([book.desks, choose.randrange(15)])
        return [any_used(choose, book.shelf) for _ in range(count)]
    newest = choose.random() < 0.5
    return [max(kept, key=lambda slot: book.shelf[slot][1][desk]) if newest else choose.choice(kept)
            for desk, kept in enumerate(map(book.kept_by, range(book.desks)))]


def any_numbers(choose, book, verb):
    """All of them but an event's wish to keep."""
    if verb == "receive":
        return any_receipt(choose, book)
    if verb == "send":
        return any_sending(choose, book)
    if verb == "discard":
        return [any_used(choose, book.mail)]
    if verb == "drop":
        return [any_used(choose, book.shelf)]
    if verb in ("before", "compare"):
        return [any_used(choose, book.shelf), any_used(choose, book.shelf)]
    if verb == "picture":
        return any_picture(choose, book)
    return [any_desk(choose, book)]


def any_verb(choose, weights):
    """A verb, and whether it is an event to be kept."""
    verb = choose.choices(list(weights), list(weights.values()))[0]
    if verb != "kept":
        return verb, 0
    return choose.choices(EVENTS, [weights[event] for event in EVENTS])[0], 1


def steered(choose, book, verb, numbers, keep):
    """Where a call is bound to be refused, mostly the one that makes way for it."""
    if choose.random() < 0.15:
        return verb, numbers, keep
    if verb in ("receive", "discard") and not book.mail:
        verb, numbers = "send", any_sending(choose, book)
    if verb in ("drop", "before", "compare") and not book.shelf:
        verb, numbers, keep = "local", [any_desk(choose, book)], 1
    if verb == "picture" and book.without_stamp():
        verb, numbers, keep = "local", [choose.choice(book.without_stamp())], 1
    if verb in EVENTS and book.no_slot(keep):
        return "drop", [any_used(choose, book.shelf)], 0
    if verb in ("local", "send", "receive") and book.phase_full(numbers[0]):
        return "reset", numbers[:1], keep
    return verb, numbers, keep


def any_call(choose, book, tide):
    """A verb, its numbers and the wish to keep; half of the resets wait for a may."""
    if book.asked:
        call, book.asked = book.asked, None
        return call
    verb, keep = any_verb(choose, WEIGHTS[tide])
    call = steered(choose, book, verb, any_numbers(choose, book, verb), keep)
    if call[0] != "reset" or choose.random() < 0.5:
        return call
    book.asked = call
    return "may", call[1], 0


def in_text(verb, numbers):
    return " ".join([verb, *(f"{number:03}" for number in numbers)])


def start_line(setup):
    desks, phases, limits, *lags_and_reach = setup
    return in_text("start", [desks, phases, *limits, *lags_and_reach])


def one_line(choose, book, tide):
    if choose.random() < 0.025:
        return choose.choice(BAD_LINES)
    verb, numbers, keep = any_call(choose, book, tide)
    if verb in EVENTS:
        numbers = [*numbers, keep]
    getattr(book, verb)(*numbers)
    return in_text(verb, numbers)


def listing():
    """Each stretch opens with a start and closes with one that is refused."""
    choose = random.Random(1456)
    for number in range(LINES):
        stretch = number // LINES_A_START
        if number % LINES_A_START == 0:
            setup = SETUPS[stretch % len(SETUPS)]
            book = Book(setup)
            yield start_line(setup)
        elif number % LINES_A_START == LINES_A_START - 1:
            yield start_line(REFUSED_SETUPS[stretch % len(REFUSED_SETUPS)])
        else:
            tide = "emptying" if number // LINES_A_TIDE % 2 else "filling"
            yield one_line(choose, book, tide)


if __name__ == "__main__":
    for line in listing():
        print(line)
