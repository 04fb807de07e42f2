"""The stored listing and its expected output.

    python3 second/stored.py stdin  > crates/desks/stdin
    python3 second/stored.py stdout > crates/desks/stdout

No line can give 014 (BadStamp) or 015 (NoRoom): no line makes a call that
reads a record or writes one; and no call at all gives 007 (NoEvent). Nor can one
give 021 (BadSummary): the program's summary has its length, and is true of the
book from the first accepted start on; before it there is no setup. "crossed"
is reached by no line either: kept stamps in a book brought along from start
never cross. Nor is mail that says of its sender just what is held: what a desk
heard of a send by another way, it heard with a later event of that sender. Nor
are two desks at odds both ways: each would lead to the other.
Cases 4, 10 and 16 are about records, so lines say only the stamps of cases 4 and
16 and, of case 10, the same differences on the book.
"""

import collections
import functools
import itertools
import os
import sys

sys.path.insert(0, os.path.dirname(os.path.dirname(os.path.abspath(__file__))))

from second import book, line, listing, seeds

EXAMPLE = b"""\
start 002 003 003 003 001 001 001 001
local 000 001
send 000 001 000
receive 001 000 001
compare 000 001
reset 000 000
reset 000 000
"""

EXAMPLE_ANSWERS = b"""\
000
000 000 000.001 000.000 000
000 000 000 000.002 000.000
000 001 000.002 000.001 001 001
000 before
000 000 001.000 000.000
011
"""

# Cases 14 and 15, and the stamp of case 16.
OWN_LIMITS = b"""\
start 002 005 004 002 002 004 002 002
local 000 000
local 000 000
local 000 000
local 000 000
local 001 000
local 001 000
start 002 005 004 002 002 004 002 002
local 000 000
local 000 000
send 000 001 000
receive 001 000 001
local 001 000
local 000 000
"""

OWN_LIMITS_ANSWERS = b"""\
000
000 000 000.001 000.000
000 000 000.002 000.000
000 000 000.003 000.000
008
000 001 000.000 000.001
008
000
000 000 000.001 000.000
000 000 000.002 000.000
000 000 000 000.003 000.000
000 001 000.003 000.001 001 000
008
008
"""

# Who may reset, from before any start on: a seat that has not started stands in the way, a stamp, then mail.
MAY = b"""\
may 000
start 002 005 009 009 001 002 002 002
may 000
may 001
may 002
reset 000 000
may 000
reset 000 000
may 001
send 000 001 001
may 000
receive 001 000 000
may 000
reset 000 000
may 000
send 000 001 000
receive 001 000 000
may 000
send 001 000 000
reset 000 000
may 000
send 000 001 000
receive 001 001 000
may 000
reset 000 000
reset 000 001
drop 000
may 000
reset 000 000
may 000
send 000 001 000
receive 001 001 000
may 000
reset 000 000
discard 000
may 000
reset 000 000
may 000
may 001
start 002 005 009 009 001 002 002 002
may 000
"""

MAY_ANSWERS = b"""\
002
000
000 yes
000 yes
003
000 000 001.000 000.000
000 011
011
000 yes
000 000 000 001.001 000.000 000
000 011
000 001 001.001 000.001 001
000 yes
000 000 002.000 000.000
000 011
000 000 000 002.001 000.000
000 001 002.001 000.002 001
000 yes
000 000 001 002.001 000.003
000 000 003.000 000.000
000 011
000 001 000 003.001 000.000
000 001 003.001 000.004 001
000 013
013
013
000
000 yes
000 000 004.000 000.000
000 011
000 001 000 004.001 000.000
000 001 004.001 000.005 001
000 012
012
000
000 yes
000 000 000.000 000.000
000 011
000 yes
000
000 yes
"""

# Nearly lines that ask who may reset.
MAY_SHAPES = (
    b"may", b"may ", b"may 0", b"may 00", b"may 0000", b"may  000", b"may 000 ", b" may 000",
    b"may 000 000", b"may 000 001", b"may 000 000 000", b"mays 000", b"ma 000", b"m 000", b"ay 000",
    b"May 000", b"MAY 000", b"may000", b"may\t000", b"may 000\r", b"may\r", b"may 000\0", b"may 000?",
    b"may 00a", b"may 0 0", b"may -01", b"may +01", b"may 0.0", b"may\xa0000", b"may yes", b"may 000 yes",
    b"may reset 000", b"reset may 000", b"mayreset 000", b"may_reset 000", b"may 00\xb9", b"maybe 000",
)

X = (3, 5, (4, 4, 4), 2, 4, 2, 2)

# With its newline.
LONGEST_ANSWER = 80

NO_LINE_GIVES = (book.NO_EVENT, book.BAD_STAMP, book.NO_ROOM)

# What a picture answers.
YES = 0, (True,)
NO_PLACE = book.NO_PLACE, ()
OUT_OF_REACH = book.OUT_OF_REACH, ()
WRONG_OWNER = book.WRONG_OWNER, ()


def odds(one, other):
    """What a picture answers where two desks are at odds."""
    return 0, (one, other)


def unlike(D, least):
    """A limit for each desk, no two alike."""
    return [least + desk for desk in range(D)]


RELATIONS = ("before", "after", "same", "concurrent")

# Of each event on a full shelf: its number kept, and what it would be not kept.
FULL_SHELF_BESIDE = {
    "local": ((3, 3), (8, 8), (10, 0)),
    "send": ((3, 3), (4, 4), (8, 8), (9, 9), (10, 0)),
    "receive": ((3, 3), (5, 5), (6, 6), (8, 8), (10, 0)),
    "reset": ((3, 3), (10, 0), (10, 11), (10, 12), (10, 13)),
}


class Writer(seeds.Writer):
    """Writes lines of fixed calls, and knows where each section of them begins."""

    def __init__(self):
        super().__init__(None)
        self.begins = {}

    def raw(self, *texts):
        self.lines += texts

    def started(self, number, text):
        """A start line whose number was found by hand."""
        told = self.write(text)
        require(told == number, f"{text} with {number}: line {len(self.lines)} answers {told}")

    def answered(self, number, verb, *numbers):
        """A call whose number was found by hand."""
        told = self.say(verb, *numbers)[0]
        require(told == number, f"{verb} with {number}: line {len(self.lines)} answers {told}")

    def may(self, number, desk):
        """What a reset would be answered about lags, found by hand; 0 is a yes."""
        told = self.say("may", desk)
        require(told == (0, (number or True,)), f"may with {number}: line {len(self.lines)} answers {told}")

    def may_reset(self, number, desk, keep=0):
        """The same of it, and of the reset that is then made."""
        self.may(number, desk)
        self.answered(number, "reset", desk, keep)

    def kept(self, verb, *numbers):
        """The slot that a kept event answers."""
        return self.say(verb, *numbers, 1)[1][-1]

    def either(self, verb, *numbers):
        """An event kept, then the same not kept."""
        self.say(verb, *numbers, 1)
        self.say(verb, *numbers, 0)

    def mailed(self, desk, to):
        """The place of a mail that waits."""
        return self.say("send", desk, to, 0)[1][0]

    def learns(self, number, desk, place, keep=0):
        """Receive mail that tells of so many other desks, counted by hand."""
        told = self.say("receive", desk, place, keep)[1][1]
        require(told == number, f"mail that tells of {number}: line {len(self.lines)} tells of {told}")

    def hears(self, number, desk, to, keep=0):
        """Send, and receive at once."""
        self.learns(number, to, self.mailed(desk, to), keep)

    def pictured(self, answer, *slots):
        """A picture whose answer was found by hand."""
        told = self.say("picture", *slots)
        require(told == answer, f"the picture {answer}: line {len(self.lines)} answers {told}")

    def kept_hears(self, desk, to):
        """The slots of a send and of its receipt, both kept."""
        place, _, sent = self.say("send", desk, to, 1)[1]
        return sent, self.kept("receive", to, place)

    def kept_turn(self, desk):
        """Reset and keep, with a second try where something stood in the way."""
        if self.turn(desk, 1) != 0:
            self.turn(desk, 1)

    def make_room(self):
        self.say("drop", 0)

    def drop_all(self):
        for slot, event in enumerate(self.run.shelf):
            if event:
                self.say("drop", slot)

    def waiting(self, desk):
        """The lowest place with mail for a desk."""
        return next(place for place, mail in enumerate(self.run.mail) if mail and mail[1] == desk)

    def question(self, first, second):
        self.say("before", first, second)
        self.say("compare", first, second)

    def all_two_ways(self, slots):
        for first in slots:
            for second in slots:
                self.question(first, second)

    def two_ways(self, ones, others):
        """Each of ones with each of others."""
        for one in ones:
            for other in others:
                self.question(one, other)
                self.question(other, one)


# Before any start

def numbers_of(verb, number, keep):
    """All numbers of a verb alike, but for an event's wish to keep."""
    count = listing.VERBS[verb.encode()]
    return [number] * (count - 1) + [keep] if verb in listing.EVENTS else [number] * count


def no_book_yet(w):
    for verb in (verb.decode() for verb in listing.VERBS):
        w.say(verb, *numbers_of(verb, 0, 0))
        w.say(verb, *numbers_of(verb, 999, 1))
    for count in (0, 1, 2, 3, 8, 14):
        w.say("picture", *[0] * count)
        w.say("picture", *[999] * count)
    w.raw(b"", b"local 7", b"local 000", b"local 000 002", b"keep 000", b"picture 7", b"picture ")
    w.start(3, 4, (4, 4, 4), 2, 4, 2, 2)
    w.say("local", 0, 1)


def nobody_may_yet(w):
    """There is no setup before an accepted start: not even a desk is asked for."""
    for desk in (0, 1, 7, 8, 255, 256, 999):
        w.answered(2, "may", desk)
    w.started(2, b"start 002 004 004 004 002 002 001 001")
    w.answered(2, "may", 0)
    w.started(17, b"start 002 005 004 002 002 001 001")
    w.answered(2, "may", 1)
    w.raw(*MAY_SHAPES)


def may_by_hand(w):
    for text in listing.lines_of(MAY):
        w.write(text)


def example(w):
    for text in listing.lines_of(EXAMPLE):
        w.write(text)


# The cases, by their numbers in docs/RULES.md

def case_1_and_2(w):
    w.start(*X)
    w.say("local", 2, 0)
    w.start(3, 4, (4, 4, 4), 2, 4, 2, 2)
    w.start(3, 5, (4, 4, 4), 2, 1, 2, 2)
    w.say("local", 2, 0)


def case_3_to_8(w):
    w.start(*X)
    w.say("local", 0, 0)
    w.say("send", 0, 0, 0)
    w.say("send", 3, 3, 0)
    for _ in range(3):
        w.say("local", 0, 0)
    w.start(*X)
    for _ in range(3):
        w.say("reset", 0, 0)


def turn_to(w, phase):
    """Desk 0 turns to a true phase; desks 1 and 2 follow each turn."""
    while w.run.own(0)[0] < phase:
        w.say("reset", 0, 0)
        w.tell(0, 1)
        w.tell(0, 2)
        for desk in (1, 2):
            if w.run.full(desk):
                w.say("reset", desk, 0)
                w.tell(desk, 3 - desk)
                w.tell(desk, 0)


def case_9(w):
    """Phase 0 is later than 4 once desk 0 is there, not before."""
    w.start(3, 5, unlike(3, 40), 2, 4, 2, 2)
    turn_to(w, 4)
    w.say("send", 0, 1, 0)
    w.say("reset", 0, 0)
    w.say("send", 0, 2, 0)
    w.say("receive", 2, 1, 0)
    w.say("send", 2, 1, 0)
    w.say("receive", 1, 1, 0)
    w.say("receive", 1, 0, 1)
    w.start(*X)
    w.say("send", 0, 1, 0)
    w.say("reset", 0, 0)
    w.say("send", 0, 1, 0)
    w.say("receive", 1, 1, 0)
    w.say("receive", 1, 0, 0)


def case_10(w):
    """On the book under X, differences of 0, 1, -1 and 2, -2; the last ones from a reset and its local."""
    w.start(*X)
    w.say("local", 0, 1)
    w.say("local", 1, 1)
    w.say("reset", 0, 0)
    w.say("send", 0, 1, 1)
    w.say("receive", 1, 0, 1)
    w.say("reset", 0, 1)
    w.say("local", 0, 1)
    w.all_two_ways(range(6))


def case_11_and_12(w):
    w.start(*X)
    w.say("local", 0, 1)
    w.question(0, 0)
    w.say("send", 0, 1, 0)
    w.say("receive", 2, 0, 0)
    w.say("receive", 1, 0, 0)
    w.say("receive", 1, 0, 0)


def case_13(w):
    for between in (0, 1):
        w.start(*X)
        w.say("local", 0, 1)
        for _ in range(between):
            w.say("reset", 0, 0)
        w.say("reset", 0, 1)
        w.all_two_ways((0, 1))


def case_14_to_16(w):
    for text in listing.lines_of(OWN_LIMITS):
        w.write(text)


def case_17_and_18(w):
    for number, P, A in ((2, 255, 255), (2, 256, 256), (2, 257, 255), (2, 0, 255), (0, 256, 255)):
        w.started(number, seeds.start_text(2, P, (4, 4), 127, A, 127, 127))
    first = w.kept("local", 0)
    turn_on(w, 0, 127)
    w.answered(11, "reset", 0, 0)
    w.hears(1, 0, 1)
    turn_on(w, 0, 254)
    w.hears(1, 0, 1)
    last = w.kept("reset", 0)
    w.answered(13, "reset", 0, 1)
    w.say("drop", first)
    nought, (_, heard) = w.kept("reset", 0), w.kept_hears(0, 1)
    w.two_ways((last,), (nought, heard))


# Limits of their own

def last_clocks(w):
    """Each desk's last clock in its own row, in mail and on the shelf, then in the others' rows."""
    for limits in itertools.permutations((2, 3, 4)):
        w.start(3, 5, limits, 2, 4, 2, 2)
        sent = [use_up(w, desk, (desk + 1) % 3) for desk in range(3)]
        for desk, place in enumerate(sent):
            to = (desk + 1) % 3
            w.either("receive", to, place)
            w.say("reset", to, 1)
            w.say("receive", to, place, 1)
        for desk in range(3):
            w.tell(desk, (desk + 1) % 3, 1)
        w.pictured(YES, *(slots_of(w, desk)[0] for desk in range(3)))
        w.two_ways(range(3), (4, 6, 8))


def use_up(w, desk, to):
    """The last clock is a kept send's, whose mail waits; then the desk is refused whatever it would count."""
    while w.run.left(desk) > 1:
        w.say("local", desk, 0)
    place = w.say("send", desk, to, 1)[1][0]
    w.either("local", desk)
    w.either("send", desk, to)
    return place


def slots_of(w, desk):
    return [slot for slot, event in enumerate(w.run.shelf) if event and event.desk == desk]


def all_last_clocks(w):
    """Each of eight last clocks comes to the desk with the smallest limit, or the largest, and from it to all."""
    for desk in (0, 7):
        w.start(8, 40, (2, 9, 3, 8, 4, 7, 5, 10), 19, 39, 2, 2)
        others = [other for other in range(8) if other != desk]
        for place in [use_up(w, other, desk) for other in others]:
            if w.run.full(desk):
                w.say("reset", desk, 0)
            w.say("receive", desk, place, 1)
        w.say("reset", desk, 1)
        for other in others:
            if w.run.full(desk):
                w.say("reset", desk, 1)
            place = w.mailed(desk, other)
            w.either("receive", other, place)
            w.say("reset", other, 0)
            w.say("receive", other, place, 1)
        w.two_ways(slots_of(w, desk)[:2], range(4))


def bench_and_office(w):
    """Two hundred events in a phase at one desk and ten at the other, in either order."""
    for limits in ((201, 11), (11, 201)):
        w.start(2, 5, limits, 2, 4, 2, 2)
        for desk, to in ((0, 1), (1, 0)):
            place = use_up(w, desk, to)
            w.say("reset", to, 0)
            w.say("receive", to, place, 1)
        w.all_two_ways(range(4))


def clock_of_255_beside_2(w):
    """The last clock of 255 in the row of a desk that has two clock values, and in its mail."""
    w.start(3, 5, (255, 2, 3), 2, 4, 2, 2)
    place = use_up(w, 0, 1)
    w.say("receive", 1, place, 1)
    w.say("reset", 1, 1)
    w.tell(1, 2, 1)
    w.say("reset", 2, 1)
    w.tell(2, 1, 1)
    w.all_two_ways(range(w.run.shelf.index(None)))


def limits_stay(w):
    """Every kind of call, and refused starts, leave the limits; an accepted start does not."""
    w.start(2, 5, (4, 2), 2, 4, 2, 2)
    w.say("receive", 1, use_up(w, 0, 1), 1)
    w.say("reset", 1, 0)
    w.say("send", 1, 0, 0)
    w.question(0, 1)
    w.say("picture", 0, 1)
    w.say("drop", 0)
    w.say("discard", 0)
    w.say("reset", 1, 0)
    w.say("reset", 0, 0)
    for limits in ((2, 1), (256, 2), (2,), (2, 2, 2), (2, 4, 2)):
        w.write(seeds.start_text(2, 5, limits, 2, 4, 2, 2))
        w.write(seeds.start_text(9, 5, limits, 2, 4, 2, 2))
    for desk in (1, 0):
        use_up(w, desk, 1 - desk)
    w.start(2, 5, (2, 4), 2, 4, 2, 2)
    for desk in (1, 0):
        use_up(w, desk, 1 - desk)


# Setups on both sides of each edge

def setups(w):
    for setup in (book.Setup(2, 3, (2, 2), 1, 1, 1, 1),
                  book.Setup(8, 255, (255,) * 8, 127, 254, 127, 127),
                  book.Setup(8, 256, (255,) * 8, 127, 255, 127, 127)):
        for name, (low, high) in book.RANGES.items():
            for number in (0, low, high, low - 1, high + 1, 255, 256, 999):
                w.write(seeds.start_text(*setup._replace(**{name: number})))
    for P, *lags in ((11, 5, 6, 2, 2), (10, 5, 6, 2, 2), (11, 2, 10, 2, 2), (11, 2, 11, 2, 2),
                     (11, 2, 2, 2, 2), (11, 3, 2, 2, 2), (11, 2, 2, 6, 5), (11, 2, 2, 6, 6),
                     (11, 2, 2, 10, 1), (11, 2, 2, 11, 1), (11, 2, 2, 1, 10), (11, 2, 2, 1, 11),
                     (3, 1, 1, 1, 2), (3, 1, 1, 2, 2), (254, 1, 1, 127, 127), (253, 1, 1, 127, 127)):
        w.start(4, P, (9, 3, 200, 10), *lags)
        w.say("local", 3, 0)


# Start lines by hand: the number, and the numbers that follow the verb.
START_LINES = (
    (0, "002 005 004 002 002 004 002 002"), (0, "003 005 004 002 255 002 004 002 002"),
    (0, "004 005 004 002 255 003 002 004 002 002"), (0, "005 005 004 002 255 003 002 002 004 002 002"),
    (0, "006 005 004 002 255 003 002 200 002 004 002 002"),
    (0, "007 005 004 002 255 003 002 200 010 002 004 002 002"),
    (0, "008 005 004 002 255 003 002 200 010 254 002 004 002 002"),
    # Fewer than six numbers are no start, whatever D is.
    (17, ""), (17, "002"), (17, "009"), (17, "002 005"), (17, "002 005 002 004 002"),
    (17, "000 005 002 004 002"), (17, "009 005 002 004 002"), (17, "999 999 999 999 999"),
    # D is good, and there are no limits, one fewer, one more or many.
    (17, "002 005 002 004 002 002"), (17, "008 005 002 004 002 002"),
    (17, "002 005 004 002 004 002 002"), (17, "002 005 004 002 004 002 004 002 002"),
    (17, "002 005 004 002 004 002 004 002 004 002 002 004 002 002"),
    (17, "003 005 004 002 002 004 002 002"), (17, "003 005 004 002 255 002 002 004 002 002"),
    (17, "008 005 004 002 255 003 002 200 010 002 004 002 002"),
    (17, "008 005 004 002 255 003 002 200 010 254 002 002 004 002 002"),
    # Whatever the other numbers are.
    (17, "002 999 999 999 999 999 999"), (17, "002 000 000 000 000 000"),
    (17, "002 005 000 002 004 002 002"), (17, "002 004 004 001 004 256 004 002 002"),
    # D is not, and there are none to eight limits; nine are too long a line.
    (2, "000 005 002 004 002 002"), (2, "001 005 002 004 002 002"), (2, "009 005 002 004 002 002"),
    (2, "255 005 002 004 002 002"), (2, "256 005 002 004 002 002"), (2, "999 999 999 999 999 999"),
    (2, "000 005 004 002 002 004 002 002"), (2, "001 005 004 002 004 002 002"),
    (2, "001 005 004 002 002 004 002 002"), (2, "010 005 004 002 002 004 002 002"),
    (2, "258 005 004 002 002 004 002 002"), (2, "999 005 004 002 002 004 002 002"),
    (2, "009 005 004 002 255 003 002 200 010 254 002 004 002 002"),
    (17, "009 005 004 002 255 003 002 200 010 254 004 002 004 002 002"),
    (2, "256 005 000 001 256 999 002 200 010 254 002 004 002 002"),
    # As many limits as desks, one of them out of its range; and all at an end of it.
    (2, "002 005 001 002 002 004 002 002"), (2, "002 005 004 001 002 004 002 002"),
    (2, "002 005 000 002 002 004 002 002"), (2, "002 005 004 000 002 004 002 002"),
    (2, "002 005 256 002 002 004 002 002"), (2, "002 005 004 258 002 004 002 002"),
    (2, "002 005 004 999 002 004 002 002"), (0, "002 005 255 255 002 004 002 002"),
    (0, "002 005 002 002 002 004 002 002"), (2, "008 005 004 002 255 003 002 200 010 001 002 004 002 002"),
)


# The same about the ends of P and of A: 256 is the full byte ring, and 000 is no P.
RING_START_LINES = (
    (2, "002 000 004 002 001 001 001 001"), (2, "002 001 004 002 001 001 001 001"),
    (2, "002 002 004 002 001 001 001 001"), (0, "002 003 004 002 001 001 001 001"),
    (0, "002 255 004 002 001 001 001 001"), (0, "002 256 004 002 001 001 001 001"),
    (2, "002 257 004 002 001 001 001 001"), (2, "002 258 004 002 001 001 001 001"),
    (2, "002 259 004 002 001 001 001 001"), (2, "002 511 004 002 001 001 001 001"),
    (2, "002 512 004 002 001 001 001 001"), (2, "002 768 004 002 001 001 001 001"),
    (2, "002 999 004 002 001 001 001 001"), (2, "002 000 004 002 127 255 127 127"),
    # A is below P.
    (0, "002 256 004 002 127 255 127 127"), (2, "002 255 004 002 127 255 127 127"),
    (0, "002 255 004 002 127 254 127 127"), (0, "002 256 004 002 127 254 127 127"),
    (2, "002 254 004 002 126 254 127 127"), (2, "002 256 004 002 127 256 127 127"),
    (2, "002 255 004 002 127 256 127 127"), (2, "002 257 004 002 127 256 127 127"),
    (0, "002 256 004 002 001 255 001 001"), (2, "002 255 004 002 001 255 001 001"),
    (2, "002 256 004 002 001 000 001 001"), (2, "002 256 004 002 127 126 127 127"),
    # P alone may be 256, and M, m and n are no larger for it.
    (2, "256 256 004 002 127 255 127 127"), (2, "002 256 256 002 127 255 127 127"),
    (2, "002 256 004 256 127 255 127 127"), (2, "002 256 004 002 256 255 127 127"),
    (2, "002 256 004 002 127 255 256 127"), (2, "002 256 004 002 127 255 127 256"),
    (2, "002 256 004 002 128 255 127 127"), (2, "002 256 004 002 127 255 128 127"),
    (2, "002 256 004 002 127 255 127 128"), (2, "002 256 004 002 127 255 128 128"),
    (2, "256 256 256 256 256 256 256 256"),
    # What is no line is none with 256 either.
    (17, "002 256 004 127 255 127 127"), (17, "002 256 004 002 127 255 127"), (17, "002 256"),
    (0, "008 256 004 002 255 003 002 200 010 254 127 255 127 127"),
    (2, "009 256 004 002 255 003 002 200 010 254 127 255 127 127"),
)


def start_lines(w):
    started_by_hand(w, START_LINES)


def ring_start_lines(w):
    w.start(*X)
    started_by_hand(w, RING_START_LINES)


def started_by_hand(w, lines):
    for number, numbers in lines:
        w.started(number, b" ".join([b"start", *numbers.encode().split()]))
        w.say("local", 1, 0)


def more_start_lines(w):
    for lines in (seeds.counted_starts, seeds.limited_starts, seeds.ring_starts, seeds.long_starts):
        for text in lines():
            w.write(text)


# Numbers that are not there, and reasons that meet

def odd_numbers(w):
    w.start(*X)
    w.say("send", 0, 1, 1)
    for odd in (1, 2, 3, 8, 31, 32, 255, 256, 257, 999):
        for verb in ("local", "reset"):
            w.either(verb, odd)
        for verb in ("drop", "discard"):
            w.say(verb, odd)
        for numbers in ((0, odd), (odd, 0), (odd, odd)):
            w.either("send", *numbers)
            w.either("receive", *numbers)
            w.question(*numbers)


def reasons_that_meet(w):
    """The smallest number is given: mail, shelf and desk 0's phase are full at once."""
    w.start(3, 3, (33, 255, 33), 1, 2, 1, 1)
    for _ in range(32):
        w.say("send", 0, 2, 1)
    for event in (("send", 0, 3), ("send", 0, 0), ("send", 0, 1), ("send", 1, 0),
                  ("receive", 3, 32), ("receive", 2, 32), ("receive", 0, 0),
                  ("local", 3), ("local", 0), ("reset", 3)):
        w.either(*event)
    w.either("receive", 2, 0)
    w.either("receive", 2, 0)
    w.either("send", 1, 0)
    for _ in range(31):
        w.say("local", 2, 0)
    w.either("receive", 2, 1)


def lags_that_meet(w):
    """At a kept reset a full shelf comes before what lags: a seat, then the mail, then the shelf."""
    w.start(3, 3, unlike(3, 60), 1, 2, 1, 1)
    w.say("send", 0, 2, 1)
    for _ in range(31):
        w.say("local", 0, 1)
    for _ in range(2):
        w.either("reset", 0)
        resets_refused(w)
        follow(w)
    resets_refused(w)
    w.say("discard", 0)
    resets_refused(w)
    w.clear("drop", w.run.shelf, 0, w.run.A)
    w.say("reset", 0, 1)


def resets_refused(w):
    """Kept and not kept on a full shelf, and kept with a slot free; the shelf is then full again."""
    w.either("reset", 0)
    w.say("drop", 31)
    w.say("reset", 0, 1)
    w.say("local", 1, 1)


# Text

def bad_shapes(w):
    w.start(*X)
    w.say("local", 0, 1)
    for verb, count in listing.VERBS.items():
        good = seeds.text_of(verb.decode(), *[1] * count)
        w.raw(*shapes_of(good))
    # A D of 1 is a BadSetup in some shapes, and none of them is a start.
    w.raw(*shapes_of(b"start 002 003 002 002 001 001 001 001"))
    w.raw(*shapes_of(b"start 001 001 001 001 001 001 001"))
    # Some of these are good: picture takes any number of slots.
    w.raw(*shapes_of(b"picture 001 001 001"))
    w.raw(b"", b" ", b"  ", b"\t", b"\r", b"\0", b"\xff", b"000", b"000 local",
          b"local:000 000", b"local 000 000 local 000 000", b"local000 000", b"local 000000",
          b"show 000", b"write 000", b"newest 000 000", b"LOCAL 000 000", b"Local 000 000",
          b"local OOO 000", b"local 000 OOO", b"local 0.0 000", b"local -01 000",
          b"local +01 000", b"local 000 +01", b"local 000 -01", b"local 0x1 000",
          b"local 1e1 000", b"local 00\xb9 000", b"local 000 00\xb9", b"loca\xecl 000 000",
          b"local\0000 000", b"\xef\xbb\xbflocal 000 000", b"local 000 000#",
          b"local 0 00 000", b"# local", b"local 000 yes", b"local 000 no")
    w.say("local", 0, 1)


def odd_wishes(w):
    """To keep is 001 and not to keep 000; any other last number is a BadLine, and so is none."""
    w.start(*X)
    w.say("send", 0, 1, 1)
    for numbers in ("local 000", "send 000 002", "receive 001 000", "reset 000",
                    "local 999", "send 003 003", "receive 001 031", "reset 003"):
        for wish in (2, 3, 9, 10, 11, 20, 100, 101, 110, 111, 200, 254, 255, 256, 257, 512, 999):
            w.raw(f"{numbers} {wish:03}".encode())
        w.raw(*(f"{numbers}{wish}".encode() for wish in
                ("", " ", " 0", " 1", " 01", " 0001", " 000 000", " 001 001", " 000 001")))
    w.raw(b"keep 000", b"keep 000 000", b"keep 000 001", b"keep 001", b"keep 999", b"keep")
    w.say("receive", 1, 0, 1)
    w.question(0, 1)


def shapes_of(good):
    """One good line in every bad shape."""
    return (good.upper(), good.capitalize(), b" " + good, good + b" ",
            good.replace(b" ", b"  ", 1), good.replace(b" ", b"\t"),
            good.replace(b" ", b"", 1), good.replace(b" ", b"\xa0"),
            good + b"\r", good + b"\0", good + b"\t", good + b" 001", good + b"1",
            good[:-1], good[:-2], good[:-3], good[:-4], good[1:],
            good.replace(b"001", b"1"), good.replace(b"001", b"01"),
            good.replace(b"001", b"0001"), good.replace(b"001", b"00a"),
            good.replace(b"001", b"/01"), good.replace(b"001", b"0:1"),
            good.split(b" ")[0], good.split(b" ")[0] + b" ", b"x" + good)


def long_lines(w):
    w.start(*X)
    for length in (62, 63, 64, 65, 66, 127, 128, 129, 130, 200, 256, 265, 1000):
        w.raw(b"local 000 001".ljust(length), b"local 000 001".rjust(length), b"x" * length,
              b"local 000 001".ljust(length, b"\0"), b"\xff" * length)
        w.say("reset", 0, 0)
        w.say("reset", 1, 0)
        w.tell(0, 1)
        w.tell(0, 2)
        w.tell(1, 0)
        w.tell(1, 2)
    w.raw((b"start" + b" 002" * 15)[:65], (b"start" + b" 002" * 15)[:64],
          b"send" + b" 000" * 15)


# Rooms

def full_mail(w):
    w.start(3, 5, (255, 200, 100), 2, 4, 2, 2)
    for place in range(33):
        w.say("send", place % 3, (place + 1) % 3, 0)
    w.say("send", 0, 1, 1)
    w.say("discard", 31)
    w.say("discard", 5)
    w.say("discard", 5)
    w.say("send", 0, 2, 1)
    w.say("receive", 2, 5, 1)
    w.say("receive", 2, 5, 1)
    w.say("receive", 1, 0, 0)
    w.say("receive", 0, 29, 0)
    for _ in range(5):
        w.say("send", 1, 0, 0)
    for place in range(31, -1, -1):
        mail = w.run.mail[place]
        w.say("receive", mail[1] if mail else 0, place, place % 2)
    w.all_two_ways((0, 1, 2))


def full_shelf(w):
    w.start(3, 5, (255, 200, 100), 2, 4, 2, 2)
    for slot in range(33):
        w.say("local", slot % 3, 1)
    w.say("drop", 31)
    w.say("drop", 7)
    w.say("drop", 7)
    w.say("before", 7, 8)
    w.say("compare", 8, 7)
    for desk in range(3):
        w.say("local", desk, 1)
    w.all_two_ways((0, 3, 7, 30, 31))


def last_slot(w):
    """Each event about the last slot; the one that is freed is used again, wherever it is."""
    w.start(3, 11, (255, 200, 100), 5, 9, 3, 3)
    for _ in range(31):
        w.say("local", 0, 1)
    for _ in range(5):
        w.say("send", 1, 2, 0)
    about_the_last_slot(w, lambda: ("local", 1), 0)
    about_the_last_slot(w, lambda: ("send", 1, 2), 17)
    about_the_last_slot(w, lambda: ("receive", 2, w.waiting(2)), 31)
    about_the_last_slot(w, lambda: ("reset", 1), 5)
    w.say("drop", 20)
    for _ in range(3):
        w.say("receive", 2, w.waiting(2), 1)
    w.say("drop", 0)
    w.say("receive", 2, w.waiting(2), 1)
    w.all_two_ways((0, 5, 17, 20, 31))


def about_the_last_slot(w, event, freed):
    """Not kept and kept with one slot free, kept and not kept with none; then one is freed."""
    for keep in (0, 1, 1, 0):
        w.say(*event(), keep)
    w.say("drop", freed)


# What stands in the way of a reset

def follow(w):
    """Every desk hears the latest of desk 0."""
    for desk in range(1, w.run.D):
        w.tell(0, desk)


def mail_behind(w):
    """An old mail must not come back as new."""
    w.start(3, 3, unlike(3, 60), 1, 2, 1, 2)
    w.say("send", 0, 2, 0)
    for _ in range(3):
        w.say("reset", 0, 0)
        follow(w)
    w.say("receive", 2, 0, 0)
    w.say("reset", 0, 0)
    follow(w)
    w.say("send", 1, 2, 0)
    for _ in range(3):
        w.say("reset", 0, 1)
        follow(w)
    w.say("discard", 0)
    w.say("reset", 0, 1)


def shelf_behind(w):
    """A kept reset is asked about the stamps that were kept before it, not about its own."""
    for A in (1, 2):
        w.start(3, 3, unlike(3, 60), 1, A, 1, 2)
        w.say("local", 1, 1)
        for _ in range(3):
            w.say("reset", 0, 0)
            follow(w)
        w.say("drop", 0)
        w.say("reset", 0, 1)
        follow(w)
        for keep in (0, 1, 0):
            w.say("reset", 0, keep)
            follow(w)


def seats_not_started_count(w):
    w.start(8, 3, unlike(8, 9), 1, 2, 1, 1)
    w.say("reset", 0, 0)
    for desk in range(1, 7):
        w.tell(0, desk)
        w.say("reset", 0, 0)
    w.tell(0, 7)
    w.say("reset", 0, 1)


# Who may reset

def others_hear(w, desk):
    """Every other desk hears the latest of this one."""
    for other in range(w.run.D):
        if other != desk:
            w.tell(desk, other)


def may_turn(w, desk, phases):
    """So many phases on a desk may reset and does, and all others hear of each."""
    for _ in range(phases):
        w.may_reset(0, desk)
        others_hear(w, desk)


def may_about_the_bounds(w):
    """One phase below each bound a desk may reset, and at it it may not; the ring is as short as can be."""
    for M, A, desks in ((2, 7, (0, 1, 2)), (3, 3, (1,)), (1, 4, (2,))):
        w.start(3, max(2 * M, A) + 1, unlike(3, 200), M, A, 1, 1)
        for desk in desks:
            other, third = (desk + 1) % 3, (desk + 2) % 3
            seats_about_M(w, desk, other, third)
            mail_about_2M(w, desk, other, third)
            shelf_about_A(w, desk, other)


def seats_about_M(w, desk, other, third):
    """Two seats lag alike, so that one that hears is not enough."""
    for _ in range(w.run.M):
        w.may_reset(0, desk)
    w.may_reset(11, desk)
    w.tell(desk, other)
    w.may_reset(11, desk, 1)
    w.may(0, other)
    w.tell(desk, third)
    w.may(0, desk)


def mail_about_2M(w, desk, other, third):
    """M is not the bound of mail; it is taken by its addressee, and discarded."""
    place = w.mailed(desk, other)
    may_turn(w, desk, 2 * w.run.M)
    w.may_reset(12, desk)
    w.say("receive", other, place, 0)
    w.may(0, desk)
    place = w.mailed(third, other)
    may_turn(w, desk, 2 * w.run.M)
    w.may_reset(12, desk, 1)
    w.may(0, other)
    w.say("discard", place)
    w.may(0, desk)


def shelf_about_A(w, desk, other):
    """Whosever stamp it is."""
    for owner in (desk, other):
        slot = w.kept("local", owner)
        may_turn(w, desk, w.run.A)
        w.may_reset(13, desk)
        w.may_reset(13, desk, 1)
        w.may(0, other)
        w.say("drop", slot)
        w.may(0, desk)


def lags_in_their_order(w):
    """All three at their bounds, then all but one: seats come first, then mail, then the shelf."""
    for mail, shelf in ((True, True), (True, False), (False, True), (False, False)):
        w.start(3, 3, unlike(3, 60), 1, 2, 1, 1)
        if mail:
            w.say("send", 1, 2, 0)
        if shelf:
            w.say("local", 1, 1)
        may_turn(w, 0, 1)
        w.may_reset(0, 0)
        w.may_reset(11, 0)
        others_hear(w, 0)
        if mail:
            w.may_reset(12, 0)
            w.say("discard", 0)
        if shelf:
            w.may_reset(13, 0)
            w.say("drop", 0)
        w.may_reset(0, 0)


def may_on_a_full_shelf(w):
    """The shelf is not asked for room: a reset is a yes that is refused only if it is kept."""
    w.start(3, 3, unlike(3, 60), 1, 2, 1, 1)
    for _ in range(32):
        w.say("local", 1, 1)
    w.say("send", 1, 2, 0)
    for number in (0, 11):
        w.may(number, 0)
        w.answered(10, "reset", 0, 1)
        w.may_reset(number, 0)
    others_hear(w, 0)
    w.may_reset(0, 0)
    others_hear(w, 0)
    for number, verb in ((12, "discard"), (13, "drop")):
        w.may(number, 0)
        w.answered(10, "reset", 0, 1)
        w.may_reset(number, 0)
        w.say(verb, 0)
    for slot in range(1, 32):
        w.may(13, 0)
        w.say("drop", slot)
    w.may_reset(0, 0, 1)


def lags_that_are_lowered(w):
    """By the drop or discard of the row that lags most, and of no other; the next one then lags most."""
    for verb, number in (("drop", 13), ("discard", 12)):
        w.start(3, 3, unlike(3, 60), 1, 2, 1, 1)
        rows = []
        for _ in range(2):
            rows.append(w.kept("local", 1) if verb == "drop" else w.mailed(1, 2))
            may_turn(w, 0, 1)
        rows.append(w.kept("local", 1) if verb == "drop" else w.mailed(1, 2))
        w.may(number, 0)
        w.say(verb, rows[2])
        w.may_reset(number, 0)
        w.say(verb, rows[0])
        w.may_reset(0, 0)
        w.may(11, 0)
        others_hear(w, 0)
        w.may_reset(number, 0)
        w.may(number, 0)
        w.answered(5, verb, rows[0])
        w.may(number, 0)
        w.say(verb, rows[1])
        w.may_reset(0, 0)


def lags_lowered_by_receipts(w):
    """Where a seat catches up, and where mail no longer waits; other mail is no help."""
    w.start(3, 3, unlike(3, 60), 1, 2, 1, 1)
    late = w.mailed(0, 2)
    other = w.mailed(2, 1)
    w.may_reset(0, 0)
    w.may(11, 0)
    w.say("receive", 1, other, 0)
    w.may(11, 0)
    places = [w.mailed(0, desk) for desk in (1, 2)]
    w.may(11, 0)
    w.say("receive", 1, places[0], 0)
    w.may(11, 0)
    w.say("receive", 2, places[1], 1)
    w.may_reset(0, 0)
    others_hear(w, 0)
    w.may_reset(12, 0)
    w.may(12, 0)
    w.answered(6, "receive", 1, late, 0)
    w.may(12, 0)
    w.say("receive", 2, late, 0)
    w.may_reset(0, 0)


def lags_lowered_by_a_start(w):
    """An accepted one alone: one that is refused or no line leaves all lags as they are."""
    for number in (11, 12, 13):
        w.start(3, 3, unlike(3, 60), 1, 2, 1, 1)
        w.say("send", 1, 2, 1)
        may_turn(w, 0, 1)
        w.say("reset", 0, 0)
        if number != 11:
            others_hear(w, 0)
        if number == 13:
            w.say("discard", 0)
        w.may(number, 0)
        w.started(2, b"start 003 003 060 061 062 001 003 001 001")
        w.may(number, 0)
        w.started(17, b"start 003 003 060 061 001 002 001 001")
        w.may(number, 0)
        w.answered(number, "reset", 0, 1)
        w.may(number, 0)
        w.started(0, b"start 003 003 060 061 062 001 002 001 001")
        w.may_reset(0, 0)


def lags_that_are_raised(w):
    """By what a desk that lags sends and keeps: its seat then catches up, but mail and stamp do not."""
    w.start(3, 5, unlike(3, 60), 1, 1, 2, 2)
    w.may_reset(0, 0)
    w.tell(0, 2)
    w.may(11, 0)
    slot = w.kept("local", 1)
    place = w.mailed(1, 2)
    w.may(11, 0)
    w.tell(0, 1)
    w.may_reset(13, 0)
    w.say("drop", slot)
    w.may_reset(0, 0)
    others_hear(w, 0)
    w.may_reset(12, 0)
    w.say("discard", place)
    w.may_reset(0, 0)


def used_rows_alone(w):
    """Neither the own seat nor those above D, nor free places and slots, zeros though they have, ever lag."""
    for D in (2, 7):
        w.start(D, 7, unlike(D, 90), 1, 3, 2, 2)
        w.say("send", 0, 1, 1)
        w.say("send", 1, 0, 1)
        w.say("drop", 0)
        w.say("discard", 1)
        w.say("discard", 0)
        w.say("drop", 1)
        may_turn(w, 0, 15)


def seats_that_have_not_started(w):
    """Each counts as long as it has heard nothing, and no other desk does."""
    w.start(8, 3, unlike(8, 9), 1, 2, 1, 1)
    w.may_reset(0, 0)
    for desk in range(1, 8):
        w.may_reset(11, 0)
        w.may(0, desk)
        w.tell(0, desk)
        w.may(0, desk)
    w.may_reset(0, 0)


def desks_that_are_not_there(w):
    """D and above, however wide, whatever lags; each that is there is told by its own lags."""
    for D in range(2, 9):
        w.start(D, 3, unlike(D, 9), 1, 2, 1, 1)
        for desk in range(0, D, 2):
            w.say("reset", desk, 0)
        for desk in range(D):
            w.may(0 if desk % 2 else 11, desk)
        for desk in (*range(D, 10), 31, 255, 256, 256 + D - 1, 257, 512, 768, 999):
            w.answered(3, "may", desk)


def lags_about_nought(w):
    """Of two rows of each kind one is from before 0 and one from after it: that of the larger byte lags more."""
    w.start(3, 5, unlike(3, 60), 2, 4, 2, 2)
    may_turn(w, 0, 4)
    place, slot = w.mailed(1, 2), w.kept("local", 1)
    w.may_reset(0, 0)
    w.may_reset(0, 0)
    w.tell(0, 1)
    w.may_reset(11, 0)
    w.tell(0, 2)
    w.mailed(1, 2)
    w.kept("local", 1)
    may_turn(w, 0, 2)
    w.may_reset(12, 0)
    w.say("discard", place)
    w.may_reset(13, 0)
    w.say("drop", slot)
    w.may_reset(0, 0)


def may_round_the_ring(w):
    """Before each turn of each desk every desk is asked, until all have come round."""
    for D in (2, 3, 8):
        w.start(D, 3, unlike(D, 9), 1, 2, 2, 1)
        while turned(w.run) < 1:
            lap(w)
            lap(w)
            for desk in range(D):
                for asked in range(D):
                    w.say("may", asked)
                w.turn(desk, int(desk == w.run.own(0)[0] % D))


# How much a desk learns

def old_mail(w):
    """The last of three mails tells of its sender, the others of nobody, as a ring of three comes round."""
    for D in (2, 8):
        w.start(D, 3, unlike(D, 40), 1, 2, 1, 2)
        for _ in range(4):
            first = w.mailed(0, 1)
            w.say("reset", 0, 0)
            second, third = w.mailed(0, 1), w.mailed(0, 1)
            w.learns(1, 1, third, 1)
            w.learns(0, 1, second, 0)
            w.learns(0, 1, first, 1)
            w.drop_all()
            follow(w)


def all_seven(w):
    """Eight desks turn and pass on what they heard, desk 0 tells what came to it; then comes old mail."""
    w.start(8, 3, unlike(8, 40), 1, 2, 1, 2)
    for _ in range(4):
        late = [w.mailed(0, desk) for desk in range(1, 8)]
        for desk in range(8):
            w.say("reset", desk, 0)
        # Each hears of all before it.
        for desk, number in enumerate((1, 2, 3, 4, 5, 6, 7, 7)):
            w.hears(number, desk, (desk + 1) % 8, desk % 2)
        # Each hears of 0 and of all behind it.
        for desk, number in enumerate((7, 6, 5, 4, 3, 2, 1), 1):
            w.hears(number, 0, desk, desk % 2)
        for desk, place in enumerate(late, 1):
            w.learns(0, desk, place, desk % 2)
        w.drop_all()


def older_and_newer(w):
    """Desk 3 hears of 0, 1 and 2, then 4 of 0 and 1, and 7 hears 4 before 3; meanwhile desk 0 turns."""
    w.start(8, 3, unlike(8, 40), 1, 2, 1, 2)
    for keep in (0, 1, 1, 0):
        for desk in (0, 1, 2):
            w.hears(1, desk, 3)
        w.say("reset", 0, 0)
        for desk in (0, 1):
            w.hears(1, desk, 4)
        w.hears(3, 4, 7, keep)
        w.hears(2, 3, 7, keep)
        w.drop_all()
        follow(w)


# Rings

def lap(w):
    for desk in range(w.run.D):
        w.tell(desk, (desk + 1) % w.run.D)


def rings(w):
    """With D from 2 to 8 every ring comes round two or three times."""
    for D in range(2, 9):
        w.start(D, 3, unlike(D, 6), 1, 2, 2, 1)
        while turned(w.run) < (3 if D < 5 else 2):
            ring_turn(w, D)


def ring_turn(w, D):
    lap(w)
    lap(w)
    chosen = w.run.own(0)[0] % D
    for desk in range(D):
        if desk == chosen:
            w.kept_turn(desk)
            w.say("compare", 0, 1)
            w.say("before", 1, 0)
        else:
            w.turn(desk)


def kept_rings(w):
    """Every event is kept where a slot is free, so the shelf is full again and again; four rings."""
    w.start(3, 3, unlike(3, 30), 1, 2, 2, 1)
    while turned(w.run) < 4:
        for desk in (0, 1, 2, 0, 1, 2):
            w.tell(desk, (desk + 1) % 3, 1)
        for desk in range(3):
            w.kept_turn(desk)
        kept = [slot for slot, event in enumerate(w.run.shelf) if event]
        w.question(kept[0], kept[0])
        w.two_ways(kept[:1], kept[-2:])


def ring_of_255(w):
    """P 255, limits of 2: both desks come round, some 127 phases at a stretch."""
    w.start(2, 255, (2, 2), 127, 254, 127, 127)
    reach_of_127(w)
    w.tell(0, 1)
    for desk, turns in ((0, 2), (1, 130), (0, 130), (1, 130)):
        for _ in range(turns - 1):
            w.turn(desk)
        w.kept_turn(desk)
        w.all_two_ways((0, 1))
    w.kept_turn(0)
    w.all_two_ways(range(4))


def reach_of_127(w):
    """Differences of 126, 127 and 128, each way."""
    w.say("local", 0, 1)
    for _ in range(125):
        w.say("reset", 0, 0)
    w.say("reset", 0, 1)
    w.say("reset", 0, 1)
    w.say("send", 0, 1, 1)
    w.say("receive", 1, 0, 0)
    w.say("reset", 0, 1)
    w.all_two_ways(range(5))
    for slot in range(5):
        w.say("drop", slot)


def ring_of_256(w):
    """P 256: each of two desks comes round twice, and stamps and mail of 200 lag beyond the seam."""
    w.start(2, 256, unlike(2, 20), 127, 255, 127, 127)
    for desk, other in ((0, 1), (1, 0)):
        turn_on(w, desk, 199)
        lags_beyond_the_seam(w, desk, other)
        turn_on(w, desk, 510)
        stamps_at_the_seam(w, desk, other)
        w.drop_all()


def turn_on(w, desk, phase):
    """A desk turns to a true phase; who is too far behind is told."""
    while w.run.own(desk)[0] < phase:
        w.turn(desk)


def lags_beyond_the_seam(w, desk, other):
    """At each bound a reset is refused and before it accepted: M of a seat, 2M of mail, A of a stamp."""
    turn = w.kept("reset", desk)
    w.tell(desk, other)
    place, _, sent = w.say("send", desk, other, 1)[1]
    reach_beyond_the_seam(w, desk, other, (turn, sent))
    turn_on(w, desk, 453)
    w.tell(desk, other)
    w.answered(0, "reset", desk, 0)
    w.answered(12, "reset", desk, 0)
    w.learns(0, other, place)
    w.answered(0, "reset", desk, 0)
    w.answered(13, "reset", desk, 1)
    w.drop_all()
    w.answered(0, "reset", desk, 0)


def reach_beyond_the_seam(w, desk, other, kept):
    """Differences of 126, 127 and 128 from what was kept at 200, each way; the seat lags 127."""
    turn_on(w, desk, 325)
    slots = [w.kept("reset", desk), w.kept("local", desk), w.kept("reset", desk), w.kept("local", desk)]
    w.answered(11, "reset", desk, 0)
    w.tell(desk, other)
    slots += [w.kept("reset", desk), w.kept("local", desk)]
    w.two_ways(kept, slots)


def stamps_at_the_seam(w, desk, other):
    """Phase 255 beside the 0 after it: the byte that is less is later."""
    turn, (last, heard_last) = w.kept("reset", desk), w.kept_hears(desk, other)
    place, nought = w.mailed(desk, other), w.kept("reset", desk)
    sent, heard = w.kept_hears(desk, other)
    w.learns(0, other, place, 1)
    w.two_ways((turn, last, heard_last), (nought, sent, heard))
    for answer, own, known in ((YES, last, heard_last), (YES, nought, heard_last), (YES, sent, heard),
                               (odds(0, 1), turn, heard_last), (odds(0, 1), last, heard),
                               (odds(0, 1), nought, heard)):
        w.pictured(answer, *((own, known) if desk == 0 else (known, own)))


def ring_of_256_at_eight(w):
    """Eight desks pass the seam one after another; then all hear that 0 is the newest phase."""
    w.start(8, 256, unlike(8, 30), 127, 255, 3, 3)
    for phase in (127, 254):
        for desk in range(8):
            turn_on(w, desk, phase)
        lap(w)
        follow(w)
    last = [w.kept("reset", desk) for desk in range(7)]
    late = [w.mailed(desk, desk + 1) for desk in range(7)]
    w.say("reset", 7, 0)
    last.append(w.kept_hears(7, 0)[0])
    nought = [w.kept("reset", desk) for desk in range(8)]
    w.pictured(YES, *last)
    w.pictured(YES, *nought)
    for desk in range(8):
        w.pictured(YES, *seeds.placed(last, desk, nought[desk]))
        w.two_ways(last[desk:desk + 1], nought[desk:desk + 1])
    # Who tells has heard nothing.
    for desk in range(6, -1, -1):
        one_told(w, last, desk, desk + 1, odds(desk, desk + 1))
    # Each hears of all before it, and those that had not of the 255 of desk 7.
    for desk, number in enumerate((1, 3, 4, 5, 6, 7, 7, 7)):
        w.hears(number, desk, (desk + 1) % 8)
    # Mail of 255 is old.
    for desk, place in enumerate(late, 1):
        w.learns(0, desk, place)


def may_beyond_the_seam(w):
    """On the full ring one phase below each bound and at it, where the byte that lags is the larger."""
    for desk, other in ((0, 1), (1, 0)):
        w.start(2, 256, unlike(2, 20), 127, 255, 127, 127)
        turn_on(w, desk, 200)
        w.tell(desk, other)
        place, _, slot = w.say("send", desk, other, 1)[1]
        turn_on(w, desk, 326)
        w.may_reset(0, desk)
        w.may_reset(11, desk)
        w.tell(desk, other)
        turn_on(w, desk, 453)
        w.tell(desk, other)
        w.may_reset(0, desk)
        w.may_reset(12, desk)
        w.learns(0, other, place)
        w.may_reset(0, desk)
        w.may_reset(13, desk)
        w.say("drop", slot)
        w.may_reset(0, desk)
        w.may(0, other)


def clock_of_255(w):
    w.start(8, 255, (255,) * 8, 127, 254, 127, 127)
    for _ in range(253):
        w.say("local", 7, 0)
    w.say("local", 7, 1)
    w.either("local", 7)
    w.either("send", 7, 0)
    w.say("reset", 7, 0)
    w.say("send", 7, 0, 0)
    w.say("receive", 0, 0, 1)
    w.say("compare", 0, 1)
    w.say("send", 7, 0, 1)


def clock_of_2(w):
    w.start(2, 5, (2, 2), 2, 4, 3, 2)
    w.say("send", 0, 1, 0)
    w.say("local", 0, 1)
    w.say("local", 1, 1)
    w.either("receive", 1, 0)
    w.say("reset", 1, 0)
    w.say("receive", 1, 0, 1)
    w.say("reset", 0, 0)
    w.say("reset", 0, 0)


# Relations

def nought_after_four(w):
    """0.0 is the newest of all when the ring has come round."""
    w.start(3, 5, unlike(3, 40), 2, 4, 2, 2)
    turn_to(w, 4)
    w.say("send", 0, 1, 1)
    w.say("reset", 0, 1)
    w.say("receive", 1, 0, 1)
    w.say("send", 0, 2, 0)
    w.say("receive", 2, 0, 1)
    w.all_two_ways(range(4))


def one_way_out_of_reach(w):
    """Out of reach one way is never "concurrent"."""
    for m, n in ((1, 4), (4, 1), (2, 3)):
        w.start(3, 5, unlike(3, 20), 2, 4, m, n)
        w.say("local", 0, 1)
        w.say("local", 1, 1)
        w.say("reset", 0, 1)
        w.say("send", 0, 1, 0)
        w.say("receive", 1, 0, 1)
        w.say("reset", 0, 1)
        w.say("reset", 1, 1)
        w.all_two_ways(range(6))


def reset_edge(w):
    """From a reset m phases back are within reach, from its local m-1; the ring comes round between."""
    for P, M, A, m, n in ((3, 1, 2, 1, 2), (4, 1, 3, 2, 2), (5, 2, 4, 3, 2)):
        w.start(3, P, unlike(3, 60), M, A, m, n)
        turn_to(w, P - 1)
        slots = [w.kept("local", 0), w.kept("local", 1)]
        for _ in range(m + 1):
            slots += [w.kept("reset", 0), w.kept("local", 0)]
            follow(w)
        w.two_ways(slots[-2:], slots[:-2])


def resets_apart(w):
    """Two desks turn and hear nothing: each way goes by its own reset or local."""
    for m, n in ((1, 2), (2, 1)):
        w.start(2, 7, unlike(2, 4), 3, 6, m, n)
        for _ in range(m + 1):
            slots = [w.kept(verb, desk) for desk in (0, 1) for verb in ("reset", "local")]
            w.two_ways(slots[:2], slots[2:])


# Pictures

def pictures(w):
    """Desk 0 tells 1, which tells 2, which tells 0; each slot is one event of it."""
    w.start(3, 5, unlike(3, 20), 2, 4, 2, 2)
    early = [w.kept("local", desk) for desk in range(3)]
    sent_0, heard_1 = w.kept_hears(0, 1)
    sent_1, heard_2 = w.kept_hears(1, 2)
    sent_2, heard_0 = w.kept_hears(2, 0)
    w.pictured(YES, *early)
    # What is known is just what the others have: equal pairs are not at odds.
    w.pictured(YES, sent_0, heard_1, early[2])
    w.pictured(YES, sent_0, sent_1, heard_2)
    w.pictured(YES, heard_0, sent_1, sent_2)
    # Desks 1 and 2 may have gone on, as long as nobody knows.
    w.pictured(YES, sent_0, sent_1, early[2])
    w.pictured(YES, sent_0, sent_1, sent_2)
    # The second of the two knows more of the first, and nobody knows more of the second.
    w.pictured(odds(0, 1), early[0], heard_1, early[2])
    w.pictured(odds(1, 2), sent_0, heard_1, heard_2)
    w.pictured(odds(0, 2), early[0], early[1], heard_2)
    # The first knows more of the second, and nobody knows more of the first.
    w.pictured(odds(0, 2), heard_0, sent_1, heard_2)
    # Desks 0 and 2 are at odds, and 1 and 2: the lowest first desk decides.
    w.pictured(odds(0, 2), early[0], early[1], sent_2)
    # Desks 0 and 1 are at odds, and 0 and 2, and 1 and 2: the lowest second desk decides.
    w.pictured(odds(0, 1), early[0], heard_1, heard_2)
    w.pictured(odds(0, 1), heard_0, heard_1, early[2])
    w.pictured(odds(0, 1), heard_0, early[1], early[2])
    every_picture(w)


def every_picture(w):
    """Each choice of a slot for each desk."""
    shelf = list(enumerate(w.run.shelf))
    for slots in itertools.product(*([slot for slot, event in shelf if event and event.desk == desk]
                                     for desk in range(w.run.D))):
        w.say("picture", *slots)


def lists_of_slots(w):
    """A list is of D slots, each of them there: slots are wide, and the count is asked of the call."""
    w.start(3, 5, unlike(3, 20), 2, 4, 2, 2)
    good = [w.kept("local", desk) for desk in range(3)]
    w.pictured(YES, *good)
    for slots in ((), good[:1], good[:2], good[1:], [*good, 0], [0, *good], [*good, 2], [*good, 999],
                  [good[0]] * 8, [999, 999]):
        w.pictured(NO_PLACE, *slots)
    for at in range(3):
        for slot in (3, 30, 31, 32, 255, 256 + at, 512 + at, 768 + at, 999):
            w.pictured(NO_PLACE, *seeds.placed(good, at, slot))
    # Thirteen and fourteen slots are a line, the latter of 63 bytes; more are none, nor is anything behind them.
    for count in range(13, 18):
        text = seeds.text_of("picture", *(good * 6)[:count])
        w.raw(text, text + b" ", text + b"0", text + b" 0")
    w.raw(b"picture ", b"picture  000 001 002", b"picture 000 001 002 ", b" picture 000 001 002",
          b"picture 000 001 02", b"picture 000,001,002", b"picture000 001 002", b"picture 0 1 2",
          b"pictures 000 001 002", b"Picture 000 001 002", b"picture\t000 001 002", b"picture\r",
          b"picture 000 001 002\r", b"pictur 000 001 002", b"picture 000 001 0002")
    w.pictured(YES, *good)


def wrong_owners(w):
    """Each desk has its own place in the list."""
    w.start(3, 5, unlike(3, 20), 2, 4, 2, 2)
    early = [w.kept("local", desk) for desk in range(3)]
    late = w.kept_hears(0, 1)
    for slots in itertools.product(early, repeat=3):
        w.pictured(YES if list(slots) == early else WRONG_OWNER, *slots)
    # Whether or not the same stamps are at odds in their own places.
    w.pictured(odds(0, 1), early[0], late[1], early[2])
    w.pictured(WRONG_OWNER, late[1], early[0], early[2])
    w.pictured(WRONG_OWNER, early[0], late[0], early[2])
    # What is not there comes before.
    w.pictured(NO_PLACE, early[1], early[0], 31)
    w.pictured(NO_PLACE, early[1], early[0])


def pictures_out_of_reach(w):
    """Any two places, each way by its own stamp; from a reset it goes a phase further back."""
    w.start(3, 5, unlike(3, 20), 2, 4, 2, 2)
    early = [w.kept("local", desk) for desk in range(3)]
    w.say("reset", 0, 0)
    heard = [w.kept("receive", desk, w.mailed(0, desk)) for desk in (1, 2)]
    turn, local = w.kept("reset", 0), w.kept("local", 0)
    w.pictured(YES, turn, *early[1:])
    w.pictured(OUT_OF_REACH, local, *early[1:])
    # Only desks 0 and 2, then only 0 and 1, then none.
    w.pictured(OUT_OF_REACH, local, heard[0], early[2])
    w.pictured(OUT_OF_REACH, local, early[1], heard[1])
    w.pictured(YES, local, *heard)
    w.pictured(odds(0, 1), early[0], *heard)
    w.pictured(odds(0, 2), early[0], early[1], heard[1])
    # Before WrongOwner, which all of these are, too.
    w.pictured(OUT_OF_REACH, early[1], local, early[2])
    w.pictured(OUT_OF_REACH, early[1], early[2], local)
    w.pictured(WRONG_OWNER, heard[0], local, heard[1])
    w.pictured(WRONG_OWNER, heard[0], heard[1], local)
    # At the desks of their places the first would be within reach, and the second out of it.
    w.pictured(OUT_OF_REACH, heard[0], local, early[2])
    w.pictured(WRONG_OWNER, early[1], turn, early[2])
    # Two stamps of desk 0 are out of reach of one another, and nothing else is.
    w.pictured(OUT_OF_REACH, early[0], local, heard[1])
    w.pictured(OUT_OF_REACH, heard[0], early[0], local)
    w.pictured(OUT_OF_REACH, local, heard[0], early[0])
    w.pictured(WRONG_OWNER, turn, local, heard[1])
    # What is not there comes before.
    w.pictured(NO_PLACE, local, early[1])
    w.pictured(NO_PLACE, local, early[1], 31)
    w.start(2, 5, unlike(2, 20), 2, 4, 2, 2)
    first = w.kept("local", 0)
    w.say("reset", 0, 0)
    second, third = w.kept("local", 0), w.kept("reset", 0)
    w.pictured(WRONG_OWNER, first, first)
    w.pictured(WRONG_OWNER, first, second)
    w.pictured(WRONG_OWNER, second, third)
    w.pictured(OUT_OF_REACH, first, third)
    w.pictured(OUT_OF_REACH, third, first)


def nought_in_a_picture(w):
    """Desk 0 turns from 4 to 0, which is the newest phase: the byte that is less is later."""
    w.start(3, 5, unlike(3, 40), 2, 4, 2, 2)
    turn_to(w, 4)
    four, heard_four = w.kept_hears(0, 1)
    other = w.kept("local", 2)
    nought = w.kept("reset", 0)
    sent, heard_nought = w.kept_hears(0, 1)
    w.pictured(YES, four, heard_four, other)
    w.pictured(YES, nought, heard_four, other)
    w.pictured(YES, sent, heard_nought, other)
    w.pictured(odds(0, 1), four, heard_nought, other)
    # By one event of the same phase.
    w.pictured(odds(0, 1), nought, heard_nought, other)
    passed_on = w.kept_hears(1, 2)
    w.pictured(YES, sent, *passed_on)
    w.pictured(odds(0, 2), four, heard_four, passed_on[1])
    w.pictured(odds(0, 2), nought, heard_four, passed_on[1])
    w.pictured(odds(1, 2), sent, heard_four, passed_on[1])
    every_picture(w)


def clocks_beside_phases(w):
    """A later phase has the smaller clock, each way."""
    w.start(2, 5, unlike(2, 20), 2, 4, 2, 2)
    for _ in range(5):
        w.say("local", 0, 0)
    early, heard_early = w.kept_hears(0, 1)
    w.say("reset", 0, 0)
    late, heard_late = w.kept_hears(0, 1)
    w.pictured(odds(0, 1), early, heard_late)
    w.pictured(YES, late, heard_early)
    w.pictured(YES, early, heard_early)
    w.pictured(YES, late, heard_late)
    for _ in range(5):
        w.say("local", 1, 0)
    early, heard_early = w.kept_hears(1, 0)
    w.say("reset", 1, 0)
    late, heard_late = w.kept_hears(1, 0)
    w.pictured(odds(0, 1), heard_late, early)
    w.pictured(YES, heard_early, late)


def every_two_of_eight(w):
    """Each two of eight desks are named, first by what the lower knows of the other, then the other way."""
    w.start(8, 3, unlike(8, 40), 1, 2, 1, 2)
    early = [w.kept("local", desk) for desk in range(8)]
    w.pictured(YES, *early)
    # Who tells has heard nothing, and the lowest who has told it is named.
    for desk in range(8):
        for other in range(7, desk, -1):
            one_told(w, early, other, desk, odds(desk, other))
    w.start(8, 3, unlike(8, 40), 1, 2, 1, 2)
    early = [w.kept("local", desk) for desk in range(8)]
    for desk in range(7, -1, -1):
        for other in range(desk - 1, -1, -1):
            one_told(w, early, other, desk, odds(other, desk))


def two_of_four(w):
    """Desks 0 and 3 are at odds, and 1 and 2: the lowest first desk decides, not the lowest second."""
    w.start(4, 3, unlike(4, 40), 1, 2, 1, 2)
    early = [w.kept("local", desk) for desk in range(4)]
    heard_0, heard_1 = (w.kept("receive", to, w.mailed(3 - to, to)) for to in (0, 1))
    w.pictured(odds(0, 3), heard_0, heard_1, *early[2:])
    w.pictured(odds(1, 2), early[0], heard_1, *early[2:])


def one_told(w, early, desk, to, answer):
    """A picture of all as they were early but one, who has been told since."""
    heard = w.kept("receive", to, w.mailed(desk, to))
    w.pictured(answer, *seeds.placed(early, to, heard))
    w.say("drop", heard)


def pictures_of_rings(w):
    """All hear of all and turn, time and again; of each turn and what came of it a picture is taken."""
    for D in (2, 3, 8):
        w.start(D, 3, unlike(D, 40), 1, 2, 2, 1)
        while turned(w.run) < 2:
            lap(w)
            lap(w)
            turns = [w.kept("reset", desk) for desk in range(D)]
            sent, heard = w.kept_hears(1, 0)
            w.pictured(YES, *turns)
            w.pictured(odds(0, 1), heard, *turns[1:])
            w.pictured(YES, heard, sent, *turns[2:])
            w.drop_all()


def unended(w):
    w.start(*X)
    w.say("local", 2, 1)


# Rings as large as a byte holds them, and nearly.
RING_SECTIONS = (ring_start_lines, case_17_and_18, ring_of_256, ring_of_255, ring_of_256_at_eight,
                 may_beyond_the_seam)

# Who may reset; the second ones are longer.
MAY_SECTIONS = (lags_in_their_order, may_on_a_full_shelf, lags_that_are_lowered, lags_lowered_by_receipts,
                lags_lowered_by_a_start, lags_that_are_raised, seats_that_have_not_started, lags_about_nought)
LONG_MAY_SECTIONS = (desks_that_are_not_there, used_rows_alone, may_about_the_bounds, may_round_the_ring)

SECTIONS = (
    no_book_yet, nobody_may_yet, may_by_hand, example, case_1_and_2, case_3_to_8, case_9, case_10,
    case_11_and_12, case_13, case_14_to_16, limits_stay, start_lines,
    pictures, lists_of_slots, wrong_owners, pictures_out_of_reach,
    nought_in_a_picture, clocks_beside_phases, two_of_four, every_two_of_eight, *MAY_SECTIONS,
    setups, odd_numbers, reasons_that_meet, lags_that_meet,
    bad_shapes, odd_wishes, long_lines, full_mail, full_shelf, last_slot, mail_behind,
    shelf_behind, seats_not_started_count, old_mail, all_seven, older_and_newer, *LONG_MAY_SECTIONS, rings,
    kept_rings, clock_of_255, clock_of_2, clock_of_255_beside_2, bench_and_office,
    nought_after_four, one_way_out_of_reach, reset_edge, resets_apart, pictures_of_rings,
    last_clocks, all_last_clocks, more_start_lines, *RING_SECTIONS, unended,
)


@functools.cache
def written():
    w = Writer()
    for section in SECTIONS:
        w.begins[section] = len(w.lines)
        section(w)
    return w


def data():
    """The last line lacks its newline."""
    return b"\n".join(written().lines)


def expected():
    return listing.answers(data())


# The self check

def require(holds, what):
    if not holds:
        raise AssertionError(f"the listing lacks {what}")


def check(w, printed):
    given = b"\n".join(w.lines)
    require(EXAMPLE_ANSWERS in printed and EXAMPLE in given, "the example")
    require(OWN_LIMITS_ANSWERS in printed and OWN_LIMITS in given, "cases 14 to 16")
    require(MAY_ANSWERS in printed and MAY in given, "who may reset by hand")
    numbers = {int(text[:3]) for text in listing.lines_of(printed)}
    wanted = set(range(19)) - set(NO_LINE_GIVES)
    require(numbers == wanted, f"the numbers {wanted ^ numbers}")
    for word in ("yes", "no", *RELATIONS):
        require(f"\n000 {word}\n".encode() in printed, word)
    lengths = {len(text) for text in w.lines}
    require({0, 64, 65} <= lengths, "the lengths 0, 64 and 65")
    check_runs(w.runs)
    check_large_rings(w.runs)
    check_limits(w.runs)
    check_starts(w.lines, listing.lines_of(printed))
    check_ring_starts(w.lines, listing.lines_of(printed))
    check_seam(w.lines)
    check_seam_mail(w.runs)
    check_reach(w.runs)
    check_shelf(w.lines)
    check_learnt(w.runs)
    check_pictures(w.lines, listing.lines_of(printed))
    check_eight_desks(w.lines, listing.lines_of(printed))
    check_may(w.lines)
    check_may_lines(w.lines, listing.lines_of(printed))


def check_runs(runs):
    for D in range(2, 9):
        require(any(run.D == D and turned(run) >= 2 for run in runs),
                f"rings come round at {D} desks")
    require(any(run.P == 3 and run.events for run in runs), "P of 3")


def check_large_rings(runs):
    require(any(run.P == 255 and turned(run) >= 1 for run in runs), "a ring of 255")
    require(any((run.P, run.D) == (256, 2) and turned(run) >= 2 for run in runs),
            "a ring of 256 that comes round twice at both desks")
    require(any((run.P, run.D) == (256, 8) and turned(run) >= 1 for run in runs),
            "a ring of 256 that comes round at each of eight desks")


def check_limits(runs):
    """Limits used up; last clocks in every kind of row, of desks with smaller limits and with larger."""
    require({2, 3, 4, 11, 201, 255} <= used_up(runs), "limits used up")
    seen = set(last_clocks_in(runs))
    require(LAST_CLOCKS <= seen, f"last clocks in {LAST_CLOCKS - seen}")


# A row by its desk, which has a smaller limit than the column's desk, the same or a larger.
LAST_CLOCKS = set(itertools.product(("seat", "sender", "addressee", "slot"), (-1, 0, 1)))


def used_up(runs):
    """The limits of which a desk has come to the last clock."""
    return {run.limits[event.desk] for run in runs for event in run.events
            if event.clock == run.limits[event.desk] - 1}


def last_clocks_in(runs):
    """Where a column's last clock stands, as LAST_CLOCKS has it."""
    for run in runs:
        rows = [("seat", event.desk, event) for event in run.events]
        rows += [("sender", event.mail.desk, event.mail) for event in run.events if event.mail]
        rows += [("addressee", event.desk, event.mail) for event in run.events if event.mail]
        rows += [("slot", event.desk, event) for event in run.shelf if event]
        for kind, desk, row in rows:
            for limit, (_, clock) in zip(run.limits, row.pairs):
                if clock == limit - 1:
                    yield kind, (run.limits[desk] > limit) - (run.limits[desk] < limit)


def check_starts(lines, printed):
    """Each D with each number of limits, and lines of every length about the longest."""
    told = [(listing.SHAPE.fullmatch(text), answer) for text, answer in zip(lines, printed)
            if text.startswith(b"start")]
    seen = {(int(shape[2][1:4]), len(shape[2]) // 4 - 6, answer) for shape, answer in told
            if shape and shape[2]}
    for D, count in itertools.product((0, 1, 9, 255, 256, 999), range(9)):
        require((D, count, b"002") in seen, f"D of {D} and {count} limits")
    for D, count in itertools.product(range(2, 9), range(-5, 10)):
        wanted = b"000" if count == D else b"017"
        require((D, count, wanted) in seen, f"D of {D} and {count} limits")
    lengths = {len(text) for text in lines if text.startswith(b"start")}
    require(set(range(57, 67)) <= lengths, "start lines of 57 to 66 bytes")


# What start answers to P, and to P and A, at the ends of their ranges and beyond.
RING_STARTS = {(P, 1): b"000" if P in (3, 255, 256) else b"002"
               for P in (0, 1, 2, 3, 255, 256, 257, 512, 999)}
RING_STARTS.update({(255, 254): b"000", (255, 255): b"002", (255, 256): b"002",
                    (256, 254): b"000", (256, 255): b"000", (256, 256): b"002"})


def check_ring_starts(lines, printed):
    """P and A at the ends of their ranges, and beside a P of 256 each other number of 256."""
    told = [(listing.parse(text), answer) for text, answer in zip(lines, printed)
            if text.startswith(b"start")]
    setups = [(book.Setup(*parsed[1]), answer) for parsed, answer in told if parsed]
    seen = {(setup.P, setup.A, answer) for setup, answer in setups}
    for (P, A), answer in RING_STARTS.items():
        require((P, A, answer) in seen, f"P of {P} and A of {A}")
    wide = {name for setup, answer in setups if setup.P == 256 and answer == b"002"
            for name in wide_in(setup)}
    wanted = {"D", "M", "A", "m", "n", *itertools.product(("limit",), range(8))}
    require(wanted <= wide, f"beside P of 256 another 256: {wanted - wide}")


def wide_in(setup):
    """The number but P that is 256, where there is one alone."""
    names = [name for name in "DMAmn" if getattr(setup, name) == 256]
    names += [("limit", desk) for desk, limit in enumerate(setup.limits) if limit == 256]
    return names if len(names) == 1 else []


def under_the_full_ring(lines):
    """Of each line in a run under P of 256: what it asks, the book and the shelf before it, and its answer."""
    program = listing.Program()
    for text in lines:
        verb, numbers = listing.parse(text) or (None, ())
        if verb == "start":
            program.answer(text)
        elif verb and program.run and program.run.P == 256:
            yield verb, numbers, program.book, list(program.run.shelf), program.answer(text)


# On both sides of the seam: a question, the phase it goes from and the other's, and the answer.
SEAM_QUESTIONS = {("before", 255, 0, "000 yes"), ("before", 0, 255, "000 no"),
                  ("compare", 255, 0, "000 before"), ("compare", 0, 255, "000 after")}

# With m and n of 127, by the difference and whether it goes from a reset: the number.
SEAM_REACH = {(126, False): 0, (126, True): 0, (127, False): 16, (127, True): 16,
              (-126, False): 0, (-126, True): 0, (-127, False): 16, (-127, True): 0,
              (-128, False): 16, (-128, True): 16}

# With M of 127 and A of 255, beyond the seam: the kind of row, how far it lags, and what a reset answers.
SEAM_LAGS = {("seat", 126, 0), ("seat", 127, 11), ("mail", 253, 0), ("mail", 254, 12),
             ("slot", 254, 0), ("slot", 255, 13)}

SeamFacts = collections.namedtuple("SeamFacts", "questions reaches pictures resets")


def seam_facts(lines):
    """Under P of 256 what is asked and answered about 255 and 0."""
    facts = SeamFacts(set(), set(), set(), set())
    for verb, numbers, given, shelf, answer in under_the_full_ring(lines):
        number = int(answer[:3])
        if verb in listing.QUESTIONS and number in (0, 16):
            two = [shelf[slot] for slot in numbers]
            facts.questions.add((verb, *(event.pairs[two[0].desk][0] % 256 for event in two), answer))
            facts.reaches.update(reach_beyond(verb, number, *two))
        elif verb == "picture" and number == 0:
            facts.pictures.add((len(numbers), across([shelf[slot] for slot in numbers]), answer))
        elif verb == "reset" and number != book.NO_DESK:
            facts.resets.update((numbers[0], *lag, number) for lag in lags_beyond(given, numbers[0]))
    return facts


def check_seam(lines):
    """Questions, their reach, pictures and resets, each from 255 to 0."""
    facts = seam_facts(lines)
    require(SEAM_QUESTIONS <= facts.questions, f"of 255 and 0 {SEAM_QUESTIONS - facts.questions}")
    wanted = {(d, is_reset, number) for (d, is_reset), number in SEAM_REACH.items()}
    require(wanted <= facts.reaches, f"beyond the seam the reach at {wanted - facts.reaches}")
    wanted = {(D, True, answer) for D in (2, 8) for answer in ("000 yes", "000 000 001")}
    require(wanted <= facts.pictures, f"of 255 and 0 the pictures {wanted - facts.pictures}")
    wanted = {(desk, *lag) for desk in (0, 1) for lag in SEAM_LAGS}
    require(wanted <= facts.resets, f"resets where beyond the seam lag {wanted - facts.resets}")


def reach_beyond(verb, number, e, f):
    """The difference that before asks, where one of the two phases has come round once more."""
    other = f.pairs[e.desk][0]
    if verb == "before" and e.phase // 256 != other // 256:
        yield other - e.phase, e.is_reset, number


def across(chosen):
    """Has some desk's entry 255 in one row and 0 in another?"""
    return any({255, 0} <= {phase % 256 for phase, _ in column}
               for column in zip(*(event.pairs for event in chosen)))


def lags_beyond(given, desk):
    """The largest lags behind a desk of each kind of row, where the byte that lags is the larger."""
    own = given[book.own_entry(desk)]
    rooms = (("seat", book.SEAT_AT, book.MAIL_AT), ("mail", book.MAIL_AT, book.SHELF_AT),
             ("slot", book.SHELF_AT, book.BOOK_BYTES))
    for kind, start, end in rooms:
        records = [record for record in range(start, end, book.RECORD_BYTES) if given[record + 2]]
        lags = [book.lag_in(given, record, desk) for record in records]
        if lags and max(lags) > own:
            yield kind, max(lags)


def check_seam_mail(runs):
    """Under P of 256 mail that tells of 0 where 255 is held, and of 255 where 0 is."""
    seen = {(run.D, held[0] % 256, told[0] % 256, changed)
            for run in runs if run.P == 256
            for held, told, changed in told_pairs(run)}
    for D in (2, 8):
        for held, told, changed in ((255, 0, True), (0, 255, False)):
            require((D, held, told, changed) in seen, f"mail of {told} where {held} is held at {D} desks")


def told_pairs(run):
    """Of each receipt for each other desk: the pair held, the one in the mail, and whether it was taken."""
    for event in run.events:
        if event.mail and event.before:
            rows = zip(event.before.pairs, event.mail.pairs, event.pairs)
            for desk, (held, told, taken) in enumerate(rows):
                if desk != event.desk:
                    yield held, told, taken != held


def check_reach(runs):
    """Back to m-1, m and m+1 phases, from a reset and from others, with n below, at and above m."""
    seen = {(e.is_reset, run.m + run.difference(e, f), (run.n > run.m) - (run.n < run.m))
            for run in runs for e in run.shelf for f in run.shelf if e and f}
    wanted = set(itertools.product((False, True), (1, 0, -1), (-1, 0, 1)))
    require(wanted <= seen, f"the reach at {wanted - seen}")


def check_shelf(lines):
    """Each event on both sides of the last slot; the full shelf beside every other reason."""
    seen = set(about_the_shelf(lines))
    for verb, numbers in FULL_SHELF_BESIDE.items():
        require((verb, 1, 1, 0, 0) in seen, f"{verb} kept in the last slot")
        wanted = {(verb, 0, 0, 0, 0)} | {(verb, 1, 0, *pair) for pair in numbers}
        require(wanted <= seen, f"on a full shelf {wanted - seen}")
    wanted = {("reset", 1, 1, number, number) for number in (11, 12, 13)}
    require(wanted <= seen, f"with one slot free {wanted - seen}")


def about_the_shelf(lines):
    """Of each event: the verb, the wish, how many slots are free, its number, and that not kept."""
    program = listing.Program()
    for text in lines:
        verb, numbers = listing.parse(text) or (None, ())
        if verb in listing.EVENTS and program.run:
            unkept = getattr(book, verb)(program.book, *numbers[:-1], 0)[0]
            free = program.run.shelf.count(None)
            yield verb, numbers[-1], free, int(program.answer(text)[:3]), unkept
        else:
            program.answer(text)


def check_learnt(runs):
    """Each number among eight desks as a ring comes round; mail that is older, in all and in part."""
    seen = [receipt for receipt in receipts(runs) if receipt.comes_round]
    for number in range(8):
        require(any(receipt.desks == 8 and receipt.learnt == number for receipt in seen),
                f"mail that tells of {number} as a ring comes round")
    require(any(receipt.older == receipt.desks - 1 for receipt in seen), "mail older in all")
    require(any(receipt.older and receipt.equal and receipt.later for receipt in seen),
            "mail older in part")


def check_pictures(lines, printed):
    """Every answer, each two of eight desks, and lists of every length that a line has room for."""
    told = [(listing.parse(text), answer) for text, answer in zip(lines, printed)
            if text.startswith(b"picture")]
    seen = {(len(parsed[1]), answer) for parsed, answer in told if parsed}
    require({answer[:3] for _, answer in seen} == {b"000", b"001", b"005", b"016", b"018"},
            "every number of a picture")
    two = {b"000 %03d %03d" % pair for pair in itertools.combinations(range(8), 2)}
    wanted = {(8, answer) for answer in two | {b"000 yes"}}
    require(wanted <= seen, f"of eight desks {wanted - seen}")
    lengths = {length for length, answer in seen if answer == b"005"}
    require({0, 1, 2, 4, 13, 14} <= lengths, "lists that are too short and too long")
    refused = {len(text) for text in lines if text.startswith(b"picture") and not listing.parse(text)}
    require({8, 64, 67} <= refused, "pictures that are no line, of 8, 64 and 67 bytes")


Receipt = collections.namedtuple("Receipt", "desks learnt later equal older comes_round")


def receipts(runs):
    """How much each receipt told, and for how many others its mail had which pair beside the held one."""
    for run, event in ((run, event) for run in runs for event in run.events if event.mail):
        held = event.before.pairs if event.before else [(0, 0)] * run.D
        pairs = list(zip(held, event.mail.pairs))
        del pairs[event.desk]
        yield Receipt(run.D, line.learnt(event), sum(told > held for held, told in pairs),
                      sum(told == held for held, told in pairs),
                      sum(told < held for held, told in pairs),
                      any(comes_round(run.P, *two) for two in pairs))


def comes_round(P, held, told):
    """Of two phases the one that is later has the smaller byte."""
    return (told[0] - held[0]) * (told[0] % P - held[0] % P) < 0


def check_eight_desks(lines, printed):
    """Each number printed, kept and not kept; the longest answers, to a kept send and a kept receipt."""
    told = [(*listing.parse(text), answer) for text, answer in zip(lines, printed)
            if answer.count(b".") == 8]
    seen = {(numbers[-1], int(answer.split(b" ")[10]))
            for verb, numbers, answer in told if verb == "receive"}
    wanted = set(itertools.product((0, 1), range(8)))
    require(wanted <= seen, f"the wishes and numbers learnt {wanted - seen}")
    longest = {verb for verb, _, answer in told if len(answer) + 1 == LONGEST_ANSWER}
    require(longest == {"send", "receive"}, f"answers of {LONGEST_ANSWER} bytes")
    require(max(map(len, printed)) < LONGEST_ANSWER, f"answers of {LONGEST_ANSWER} bytes at most")


# By which of a desk's three lags are as large as they may be: what may answers.
MAY_AT = {full: next((number for number, at in zip((11, 12, 13), full) if at), 0)
          for full in itertools.product((False, True), repeat=3)}

# What may answers, whether the reset behind it is kept, and what that is answered.
MAY_RESETS = {(number, keep, told) for number in (0, 11, 12, 13)
              for keep, told in ((0, number), (1, number), (1, 10))}

# What may answers, what is then done, and what may answers then.
MAY_LOWERED = {(13, "drop 0", 0), (12, "discard 0", 0), (11, "receive 0", 0), (12, "receive 0", 0),
               *((number, f"start {told}", number if told else 0)
                 for number in (11, 12, 13) for told in (0, 2, 17)),
               (13, "drop 0", 13), (12, "discard 0", 12), (11, "receive 0", 11),
               (13, "drop 5", 13), (12, "discard 5", 12), (12, "receive 6", 12)}

# A line and its answer; where it asks of a desk that is there, its lags and what is about them.
MayLine = collections.namedtuple("MayLine", "verb numbers answer asked")
MayAsked = collections.namedtuple("MayAsked", "setup lags started own free beyond")
MayFacts = collections.namedtuple("MayFacts", "at below resets lowered zeros unstarted beyond")


def may_facts(lines):
    """What may answers, about which lags and between which lines."""
    facts = MayFacts(*(set() for _ in MayFacts._fields))
    told = [*may_lines(lines), MayLine(None, (), "", None)]
    for may, between, again in zip(told, told[1:], told[2:]):
        if may.asked:
            number, (desk,) = may_number(may.answer), may.numbers
            lag_facts(facts, may.asked, desk, number)
            if between.verb == "reset" and between.numbers[0] == desk:
                facts.resets.add((number, between.numbers[1], int(between.answer[:3])))
            if again.asked and again.numbers == may.numbers:
                done = f"{between.verb} {int(between.answer[:3])}"
                facts.lowered.add((number, done, may_number(again.answer)))
    return facts


def may_number(answer):
    """The number that a reset would be answered, 0 for a yes."""
    return 0 if answer == "000 yes" else int(answer[4:])


def may_lines(lines):
    """The lines as a program answers them; one of no good shape has its word for a verb."""
    program = listing.Program()
    for text in lines:
        verb, numbers = listing.parse(text) or (text.split(b" ")[0].decode("latin-1"), ())
        there = verb == "may" and program.run and numbers and numbers[0] < program.run.D
        asked = may_asked(program.run, program.book, *numbers) if there else None
        yield MayLine(verb, numbers, program.answer(text), asked)


def may_asked(run, given, desk):
    """The lags, also of seats that have started; the own phase, whether places and slots are free; the seam's."""
    started = [run.behind(desk, event.pairs) for event in run.last if event]
    return MayAsked(book.Setup(*run.setup), run.furthest(desk), started, given[book.own_entry(desk)],
                    (None in run.mail, None in run.shelf), list(lags_beyond(given, desk)))


def lag_facts(facts, asked, desk, number):
    """What is to be seen of the lags that may has answered about."""
    D, P, _, M, A, *_ = asked.setup
    kinds = list(zip(("seat", "mail", "slot"), asked.lags, (M, 2 * M, A)))
    facts.at.add((*(lag == bound for _, lag, bound in kinds), number))
    if number == 0:
        facts.below.update(kind for kind, lag, bound in kinds if 0 < lag == bound - 1)
        facts.zeros.update(kind for (kind, _, bound), there in zip(kinds, (D < 8, *asked.free))
                           if there and asked.own == bound)
    if number == 11 and M not in asked.started:
        facts.unstarted.add(D)
    if P == 256:
        facts.beyond.update((desk, *lag, number) for lag in asked.beyond)


def check_may(lines):
    """Each answer by the lags it goes by, and one phase below; beside the reset, and as lags are lowered.

    Zeros of a seat above D, of a free place and of a free slot would lag too far where the answer is yes.
    """
    facts = may_facts(lines)
    wanted = {(*full, number) for full, number in MAY_AT.items()}
    require(facts.at == wanted, f"may by the lags {facts.at ^ wanted}")
    kinds = {"seat", "mail", "slot"}
    for name, wanted in (("below", kinds), ("zeros", kinds), ("unstarted", {2, 8}),
                         ("resets", MAY_RESETS), ("lowered", MAY_LOWERED)):
        require(wanted <= getattr(facts, name), f"may, {name}: {wanted - getattr(facts, name)}")
    wanted = {(desk, *lag) for desk in (0, 1) for lag in SEAM_LAGS}
    require(wanted <= facts.beyond, f"may where beyond the seam lag {wanted - facts.beyond}")


def check_may_lines(lines, printed):
    """Every desk of every D, those that are not there, before any start, and shapes that are none."""
    told, D = set(), 0
    for text, answer in zip(lines, printed):
        verb, numbers = listing.parse(text) or (None, ())
        if verb == "start" and answer == b"000":
            D = numbers[0]
        if text.startswith(b"may"):
            told.add((D, text, answer[:3]))
    wanted = {(D, b"may %03d" % desk, b"000" if desk < D else b"003")
              for D in range(2, 9) for desk in (*range(10), 255, 256, 255 + D, 999)}
    wanted |= {(0, b"may %03d" % desk, b"002") for desk in (0, 1, 255, 256, 999)}
    wanted |= {(0, text, b"017") for text in (b"may", b"may 0", b"may 000 000", b"may  000", b"mays 000")}
    require(wanted <= told, f"may in the lines {wanted - told}")


def turned(run):
    """How often the ring has come round at every desk."""
    return min(run.own(desk)[0] for desk in range(run.D)) // run.P


def main():
    printed = expected()
    check(written(), printed)
    sys.stdout.buffer.write({"stdin": data(), "stdout": printed}[sys.argv[1]])


if __name__ == "__main__":
    main()
