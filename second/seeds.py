"""Listings made from a seed: good runs and damaged lines mixed.

    python3 second/seeds.py SEED > listing

The writer follows the run it writes (line.py), so that it knows which calls
will be accepted, which rooms are full and what stands in the way of a reset.
Where a lag may have changed, and before resets, it is often asked who may reset.
"""

import itertools
import os
import random
import sys

sys.path.insert(0, os.path.dirname(os.path.dirname(os.path.abspath(__file__))))

from second import line
from second.listing import EVENTS, VERBS, parse

# Each at some edge of the ranges or of the four inequalities.
EDGE_SETUPS = (
    (2, 3, (2, 2), 1, 1, 1, 1), (2, 3, (3, 3), 1, 2, 1, 2), (3, 5, (4, 4, 4), 2, 4, 2, 2),
    (2, 5, (4, 2), 2, 4, 2, 2), (2, 5, (2, 4), 2, 4, 2, 2), (3, 5, (2, 4, 3), 2, 4, 2, 2),
    (8, 3, (255,) * 8, 1, 1, 1, 2), (8, 3, (20, 21, 22, 23, 24, 25, 26, 27), 1, 2, 2, 1),
    (4, 3, (12, 200, 10, 255), 1, 2, 1, 2), (2, 5, (2, 255), 2, 2, 3, 2), (2, 7, (2, 3), 3, 6, 3, 4),
    (3, 4, (9, 8, 7), 1, 3, 2, 2), (2, 255, (255, 255), 127, 254, 127, 127),
    (8, 255, (255, 2, 254, 3, 253, 4, 252, 5), 127, 254, 127, 127),
    (2, 255, (2, 2), 127, 127, 1, 127), (3, 255, (5, 2, 255), 127, 127, 127, 1),
    (3, 254, (255, 255, 255), 126, 253, 127, 127), (5, 9, (30, 3, 30, 4, 30), 4, 4, 5, 4),
    (6, 3, (30,) * 6, 1, 1, 1, 1), (7, 6, (40, 10, 200, 10, 40, 11, 12), 2, 5, 3, 3),
    (2, 256, (2, 2), 127, 255, 127, 127), (8, 256, (30,) * 8, 1, 255, 1, 127),
)

EDGE_LIMITS = (2, 3, 4, 10, 11, 200, 201, 254, 255)

# These are no limit, and no D; some would be if they were cut to a byte.
ODD_LIMITS = (0, 1, 256, 257, 258, 260, 511, 512, 999)
ODD_DESKS = (0, 1, 9, 10, 99, 255, 256, 257, 258, 264, 512, 999)

# About both ends of P and the upper one of A; some above would be others of these if they were cut to a byte.
EDGE_PHASES = (0, 1, 2, 3, 254, 255, 256, 257, 258, 259, 511, 512, 768, 999)
EDGE_SHELF_LAGS = (253, 254, 255, 256, 257, 511)

ODD_NUMBERS = (0, 1, 2, 3, 7, 8, 9, 30, 31, 32, 33, 99, 127, 128, 200, 254,
               255, 256, 257, 511, 512, 998, 999)

# A line holds no more slots than the last.
ODD_COUNTS = (0, 1, 2, 3, 7, 8, 9, 13, 14)

# As the last number of an event these say neither to keep its stamp nor not to.
ODD_WISHES = (2, 3, 10, 11, 100, 101, 255, 256, 257, 999)

WORDS = (b"start", b"local", b"send", b"receive", b"reset", b"drop",
         b"discard", b"before", b"compare", b"picture", b"may", b"keep", b"show", b"write", b"newest",
         b"Local", b"SEND", b"stars", b"loca", b"locals", b"pictures", b"mays", b"ma", b"")

# How often the screen asks about a desk beside a line of this verb, before it and after it.
WATCHED = {"reset": 0.2, "receive": 0.15, "drop": 0.25, "discard": 0.25}

ODD_BYTES = b"\0\t\r\v\f \x1f\x7f\x80\xa0\xb2\xc2\xff.,-+_0129azAZ/:"


def text_of(verb, *numbers):
    return " ".join([verb, *(f"{number:03}" for number in numbers)]).encode()


def start_text(D, P, limits, *lags):
    return text_of("start", D, P, *limits, *lags)


def some_reach(rng, P):
    """m and n, often small or with P of just m+n."""
    m = min(P - 1, rng.choice((1, 2, 3, rng.randint(1, min(127, P - 1)))))
    most = min(127, P - m)
    return m, min(most, rng.choice((1, 2, 3, most, rng.randint(1, most))))


def some_limits(rng, D):
    """A limit for each desk: all alike, all but one, all near, all small, or each far from the next."""
    L = rng.choice((2, 4, 6, 8, 10, 15, 20, 40, rng.randint(2, 255)))
    alike, at = [L] * D, rng.randrange(D)
    return rng.choice((alike, placed(alike, at, rng.choice(EDGE_LIMITS)),
                       [min(255, L + rng.randint(0, 3)) for _ in alike],
                       [rng.randint(2, 4) for _ in alike], [rng.randint(5, 20) for _ in alike],
                       rng.choices(EDGE_LIMITS, k=D), [rng.randint(2, 255) for _ in alike]))


def full_ring_setup(rng):
    """P of 256, with lags at both ends of their ranges and between."""
    M = rng.choice((1, 2, 64, 126, 127, rng.randint(1, 127)))
    A = rng.choice((M, 254, 255, rng.randint(M, 255)))
    D = rng.choice((2, 2, 3, 4, 5, 8))
    return D, 256, some_limits(rng, D), M, A, *some_reach(rng, 256)


def good_setup(rng):
    if rng.random() < 0.3:
        return rng.choice(EDGE_SETUPS)
    if rng.random() < 0.08:
        return full_ring_setup(rng)
    M = rng.choice((1, 1, 1, 2, 2, 3, rng.randint(1, 30)))
    A = M + rng.choice((0, 0, 1, 2, rng.randint(0, 60)))
    P = max(2 * M + 1, A + 1) + rng.choice((0, 0, 0, 1, rng.randint(0, 20)))
    D = rng.choice((2, 2, 3, 3, 4, 5, 6, 7, 8))
    return D, P, some_limits(rng, D), M, A, *some_reach(rng, P)


def placed(numbers, at, number):
    """The list with another number at a place."""
    return [*numbers[:at], number, *numbers[at + 1:]]


# Start lines that are mostly refused

def over_an_edge(rng, D, P, limits, M, A, m, n):
    return start_text(D, *rng.choice((
        (P, limits, M, M - 1, m, n), (2 * M, limits, M, M, 1, 1),
        (A, limits, M, A, 1, 1), (P, limits, M, P, m, n),
        (P, limits, M, A, m, P - m), (P, limits, M, A, m, P + 1 - m),
        (P, limits, M, A, P - n, n), (P, limits, M, A, P + 1 - n, n))))


def one_moved(rng, D, P, limits, *lags):
    """Any number, the D and the limits among them."""
    numbers = [D, P, *limits, *lags]
    at = rng.randrange(len(numbers))
    moved = rng.choice((0, 1, 255, 256, 999, numbers[at] - 1, numbers[at] + 1, rng.randint(0, 300)))
    return text_of("start", *placed(numbers, at, moved))


def odd_limit(rng, D, P, limits, *lags):
    at = rng.randrange(D)
    odd = rng.choice((0, 1, 256, 999, rng.choice(ODD_LIMITS), 256 + limits[at], 512 + limits[at]))
    return start_text(D, P, placed(limits, at, odd), *lags)


def odd_desks(rng, D, P, limits, *lags):
    """However many limits there are, as long as it is a line."""
    count = rng.choice((0, 1, D, 8, rng.randint(0, 9)))
    return start_text(rng.choice(ODD_DESKS), P, some_limits(rng, 9)[:count], *lags)


def other_limits(rng, D, P, limits, *lags):
    """None, one, one fewer, one more, or any number of them, sometimes with one that is no limit."""
    count = rng.choice((0, 1, D - 1, D + 1, 8, 9, rng.randint(0, 9)))
    limits = [*limits, *some_limits(rng, 9)][:count]
    if limits and rng.random() < 0.3:
        limits[rng.randrange(count)] = rng.choice(ODD_LIMITS)
    return start_text(D, P, limits, *lags)


def few_numbers(rng, D, P, limits, *lags):
    D = rng.choice((D, rng.choice(ODD_DESKS)))
    return text_of("start", *[D, P, *limits, *lags][:rng.randint(0, 6)])


ODD_STARTS = (over_an_edge, over_an_edge, one_moved, odd_limit, odd_limit, odd_desks, odd_desks,
              other_limits, other_limits, few_numbers)


def odd_start(rng):
    return rng.choice(ODD_STARTS)(rng, *good_setup(rng))


def edge_phases(rng, D, P, limits, *lags):
    """P below, at and above its range, mostly with lags that any ring or the full one permits."""
    lags = rng.choice(((1, 1, 1, 1), (1, 1, 1, 1), (127, 255, 127, 127), lags))
    return start_text(D, rng.choice(EDGE_PHASES), limits, *lags)


def edge_shelf_lag(rng, D, P, limits, M, A, m, n):
    """The largest lags of the shelf, under the largest rings."""
    return start_text(D, rng.choice((255, 256)), limits, rng.choice((1, 127)), rng.choice(EDGE_SHELF_LAGS), 1, n)


def edge_start(rng):
    return rng.choice((edge_phases, edge_phases, edge_shelf_lag))(rng, *good_setup(rng))


# Damaged lines

def damaged(rng, text):
    return rng.choice(DAMAGES)(rng, text)


def long_line(rng, text):
    """Lines about the length of 64, some beginning like a good one."""
    length = rng.choice((63, 64, 64, 65, 65, 66, 128, 129, 130, 200))
    filler = rng.choice((b" ", b"0", b" 000", b"x", b"\0", b"\xff"))
    return (text + filler * length)[:length]


def other_byte(rng, text):
    at = rng.randrange(len(text) + 1)
    return text[:at] + bytes((rng.choice(ODD_BYTES),)) + text[at + 1:]


def more_byte(rng, text):
    at = rng.randrange(len(text) + 1)
    return text[:at] + bytes((rng.choice(ODD_BYTES),)) + text[at:]


def less_byte(rng, text):
    at = rng.randrange(len(text) + 1)
    return text[:at] + text[at + 1:]


def other_width(rng, text):
    verb, *numbers = text.split(b" ")
    if numbers:
        at = rng.randrange(len(numbers))
        numbers[at] = rng.choice((b"7", b"07", b"0007", b"", b"-01", b"+01",
                                  b"0x1", b"1.0", b" 01", b"01 ", b"00a"))
    return b" ".join([verb, *numbers])


def other_count(rng, text):
    fields = text.split(b" ")
    if rng.random() < 0.5:
        return b" ".join(fields[:-1])
    return b" ".join(fields + [b"000"] * rng.randint(1, 8))


def other_last(rng, text):
    return b" ".join(text.split(b" ")[:-1] + [b"%03d" % rng.choice(ODD_WISHES)])


def other_word(rng, text):
    return b" ".join([rng.choice(WORDS)] + text.split(b" ")[1:])


def random_bytes(rng, text):
    length = rng.choice((1, 2, 5, 9, 33, 64, 65, 90))
    return bytes(rng.randrange(256) for _ in range(length)).replace(b"\n", b"\r")


DAMAGES = (
    long_line, other_byte, more_byte, less_byte, other_width, other_count,
    other_last, other_last, other_word, random_bytes,
    lambda rng, text: b"",
    lambda rng, text: text.upper(),
    lambda rng, text: text.capitalize(),
    lambda rng, text: text + b"\r",
    lambda rng, text: text + b"\0",
    lambda rng, text: text + b"#",
    lambda rng, text: b" " + text,
    lambda rng, text: text + b" ",
    lambda rng, text: text.replace(b" ", b"  ", 1),
    lambda rng, text: text.replace(b" ", b"\t"),
    lambda rng, text: text.replace(b" ", b"", 1),
)


class Writer:
    """A listing in the making, and the runs it makes; the last one goes on.

    The screen, where there is one, asks who may reset; it is drawn apart, and all else goes on as if nobody asked.
    """

    def __init__(self, rng, screen=None):
        self.rng = rng
        self.screen = screen
        self.lines = []
        self.asked = 0
        self.run = None
        self.runs = []

    def say(self, verb, *numbers):
        """Write a line, and what the screen asks beside it; hand back the number and values the run answers."""
        watched = self.watched(verb, *numbers)
        self.ask_may(watched)
        answer = self.put(verb, *numbers)
        self.ask_may(watched)
        return answer

    def put(self, verb, *numbers):
        """Write this line alone."""
        self.lines.append(text_of(verb, *numbers))
        if self.run is None:
            return (2 if verb == "may" else 1), ()
        return getattr(self.run, verb)(*numbers)

    def watched(self, verb, *numbers):
        """The desk that the screen asks about beside a line: its own at a reset, at a receipt the sender."""
        if self.screen is None or self.screen.random() >= WATCHED.get(verb, 0):
            return []
        if verb == "receive" and self.run and line.used(self.run.mail, numbers[1]):
            return [self.run.mail[numbers[1]][0].desk]
        return [numbers[0] if verb == "reset" else self.some_desk()]

    def start(self, *setup):
        """Write a start line; hand back its number. Where it is permitted, a run begins."""
        self.lines.append(start_text(*setup))
        good = line.permitted(*setup)
        if good:
            self.run = line.Run(*setup)
            self.runs.append(self.run)
        self.redraw(0.4)
        return 0 if good else 2

    def redraw(self, share, *desks):
        """With this share the screen asks who may reset: each of these desks, or some desk."""
        if self.screen and self.screen.random() < share:
            self.ask_may(desks or [self.some_desk()])

    def ask_may(self, desks):
        for desk in desks:
            self.put("may", desk)
            self.asked += 1

    def some_desk(self):
        """At times one that is not there."""
        if self.run is None or self.screen.random() < 0.1:
            return self.screen.choice(ODD_NUMBERS)
        return self.screen.randrange(self.run.D)

    def length(self):
        """How many lines there are but for those of the screen."""
        return len(self.lines) - self.asked

    def write(self, text):
        """Any line, which the run follows; hand back its number."""
        verb, numbers = parse(text) or (None, ())
        if verb is None:
            self.lines.append(text)
            return 17
        return self.start(*numbers) if verb == "start" else self.say(verb, *numbers)[0]

    def data(self):
        ended = b"\n" if self.rng.random() < 0.7 else b""
        return b"\n".join(self.lines) + ended

    # Numbers that mostly make sense

    def desk(self):
        if self.rng.random() < 0.03:
            return self.rng.choice(ODD_NUMBERS)
        return self.rng.randrange(self.run.D)

    def wish(self):
        """To keep the stamp or not."""
        return int(self.rng.random() < 0.3)

    def used(self, room):
        places = [place for place, held in enumerate(room) if held]
        if not places or self.rng.random() < 0.05:
            return self.rng.choice(ODD_NUMBERS)
        return self.rng.choice(places)

    def place(self):
        return self.used(self.run.mail)

    def slot(self):
        return self.used(self.run.shelf)

    def two_slots(self):
        """Mostly two different slots."""
        first, second = self.slot(), self.slot()
        return first, second if second != first else self.slot()

    def kept_slots(self, desk):
        """The slots with a desk's stamps, in the order of its events."""
        slots = [slot for slot, event in enumerate(self.run.shelf) if event and event.desk == desk]
        return sorted(slots, key=lambda slot: self.run.shelf[slot].turn)

    def one_of_each(self):
        """For each desk its last slot, or mostly so, or any; whatever is there for a desk without one."""
        earlier = self.rng.choice((0, 0.4, 0.4, 1))
        return [self.rng.choice(kept if self.rng.random() < earlier else kept[-1:])
                for kept in (self.kept_slots(desk) or [self.slot()] for desk in range(self.run.D))]

    def answerable(self):
        """A slot for each desk that a picture is not refused of, if one is soon found."""
        for _ in range(8):
            slots = self.one_of_each()
            if self.run.picture_number(slots) == 0:
                return slots
        return slots

    def misfit(self, slots):
        """Too few or too many of them, a slot that is not there, or one that is another desk's."""
        at, other = self.rng.sample(range(len(slots)), 2)
        free = [slot for slot, event in enumerate(self.run.shelf) if not event]
        return self.rng.choice((
            [], slots[:-1], slots[1:], slots + slots[-1:], slots[:1] + slots,
            (slots * 7)[:14], (slots * 7)[:self.rng.choice(ODD_COUNTS)],
            placed(slots, at, self.rng.choice(ODD_NUMBERS)),
            placed(slots, at, slots[at] + self.rng.choice((32, 256, 512))),
            placed(slots, at, self.rng.choice(free or [31])),
            placed(slots, at, slots[other]), placed(slots, at, self.slot()),
            placed(slots, at, self.rng.choice(self.kept_slots(other) or [31])),
            placed(slots, at, (self.kept_slots(other) or [31])[0]),
            placed(placed(slots, at, slots[other]), other, slots[at]), slots[::-1]))

    # Scenes

    def picture(self):
        """Mostly one that is answered, sometimes any, sometimes a misfit."""
        for desk in range(self.run.D):
            if not self.kept_slots(desk) and self.rng.random() < 0.8:
                self.keep_more(desk)
        slots = self.answerable() if self.rng.random() < 0.85 else self.one_of_each()
        self.say("picture", *(self.misfit(slots) if self.rng.random() < 0.3 else slots))

    def stocktaking(self):
        """All hear of all, so that all are within reach; then much is kept, and pictures are taken of it."""
        if min(self.run.limits) < 8 and self.rng.random() < 0.7:
            self.roomy_start()
        for desk in list(range(self.run.D)) * 2:
            self.tell(desk, (desk + 1) % self.run.D)
        for desk in self.rng.sample(range(self.run.D), self.run.D):
            self.keep_more(desk)
        for _ in range(self.rng.randint(5, 15)):
            self.keep_more(self.rng.randrange(self.run.D))
            self.picture()

    def keep_more(self, desk):
        """A kept local, or kept news for another desk; a shelf or a phase that is full is seen to."""
        if None not in self.run.shelf:
            self.make_room()
        if self.run.full(desk):
            self.turn(desk, 1)
        elif self.rng.random() < 0.4:
            self.say("local", desk, 1)
        else:
            others = [other for other in range(self.run.D) if other != desk]
            self.tell(desk, self.rng.choice(others), 1)

    def wander(self):
        for _ in range(self.rng.randint(5, 40)):
            self.move()

    def move(self):
        verb = self.rng.choice((
            "local", "local", "send", "send", "send", "receive", "receive", "receive",
            "reset", "reset", "reset", "drop", "discard", "before", "compare", "compare",
            "picture"))
        if verb in EVENTS:
            self.event(verb, self.wish())
        elif verb in ("before", "compare"):
            self.say(verb, *self.two_slots())
        elif verb == "picture":
            self.picture()
        else:
            self.say(verb, self.slot() if verb == "drop" else self.place())

    def event(self, verb, keep):
        """One of the four, with numbers that mostly make sense; its answer number."""
        if verb == "receive":
            return self.say(verb, *self.mail_taken(), keep)[0]
        if verb == "send":
            return self.say(verb, self.desk(), self.desk(), keep)[0]
        return self.say(verb, self.desk(), keep)[0]

    def mail_taken(self):
        """Some mail, mostly with the desk it is addressed to."""
        place = self.place()
        if place < 32 and self.run.mail[place] and self.rng.random() < 0.9:
            return self.run.mail[place][1], place
        return self.desk(), place

    def tell(self, desk, to, keep=0):
        """Send and receive; a full phase, mail or shelf is made room in."""
        number, values = self.say("send", desk, to, keep)
        if number == 8:
            self.say("reset", desk, keep)
            number, values = self.say("send", desk, to, 0)
        if number == 9:
            self.say("discard", self.rng.randrange(32))
        if number == 10:
            number, values = self.say("send", desk, to, 0)
        if number == 0:
            self.take(to, values[0], keep)

    def take(self, desk, place, keep):
        """Receive; what a full phase or a full shelf refuses still waits."""
        number, _ = self.say("receive", desk, place, keep)
        if number == 8:
            self.say("reset", desk, 0)
        if number in (8, 10):
            self.say("receive", desk, place, 0)

    def turn(self, desk, keep=0):
        """Reset a desk, and clear away what stands in its way."""
        number, _ = self.say("reset", desk, keep)
        if number == 10:
            self.make_room()
        elif number == 11:
            rows = [self.run.behind(desk, self.run.pairs(k)) for k in range(self.run.D)]
            self.tell(desk, rows.index(max(rows)))
            self.redraw(0.3, desk)
        elif number == 12:
            self.clear("discard", [mail and mail[0] for mail in self.run.mail],
                       desk, 2 * self.run.M)
        elif number == 13:
            self.clear("drop", self.run.shelf, desk, self.run.A)
        return number

    def turn_up_to(self, desk, phase, share=0.3):
        """This share of the resets is kept."""
        while self.run.own(desk)[0] < phase:
            self.turn(desk, int(self.rng.random() < share))

    def make_room(self):
        self.say("drop", self.rng.randrange(32))

    def clear(self, verb, room, desk, most):
        for place, event in list(enumerate(room)):
            if event and self.run.behind(desk, event.pairs) >= most:
                self.say(verb, place)
                self.redraw(0.3, desk)

    def sprint(self):
        """One desk turns its ring, others follow when they must."""
        desk = self.rng.randrange(self.run.D)
        for _ in range(self.rng.choice((5, 10, 20, 3 * self.run.P))):
            if self.length() > 260:
                return
            self.turn(desk, self.wish())
            self.now_and_then()

    def gossip(self):
        """News goes round the desks, then every desk turns."""
        for desk in list(range(self.run.D)) * self.rng.randint(1, 2):
            self.tell(desk, (desk + 1) % self.run.D, int(self.rng.random() < 0.1))
        for desk in range(self.run.D):
            self.turn(desk, self.wish())
            self.now_and_then()

    def hearsay(self):
        """What the desks heard is passed on; then comes mail that the first one sent before."""
        desks = self.rng.sample(range(self.run.D), self.run.D)
        self.pass_on(desks, self.say("send", desks[0], desks[-1], self.wish()))

    def pass_on(self, desks, sent):
        """Each hears of all before it, the last of all others; what was sent it is then old."""
        for desk, to in zip(desks, desks[1:]):
            self.tell(desk, to, self.wish())
        self.take_sent(desks[-1], sent)

    def take_sent(self, desk, sent):
        number, values = sent
        if number == 0:
            self.take(desk, values[0], self.wish())

    def come_round(self):
        """On a ring of three a desk turns to 0 again, and the others hear that it is the newest."""
        D = self.rng.choice((3, 5, 8, 8))
        self.start(D, 3, self.rng.choices((30, 40, 60, 200, 255), k=D), 1, self.rng.choice((1, 2)),
                   *self.rng.choice(((1, 2), some_reach(self.rng, 3))))
        desks = self.rng.sample(range(self.run.D), self.run.D)
        self.turn_up_to(desks[0], 2)
        sent = self.say("send", desks[0], desks[-1], 1)
        while self.run.own(desks[0])[0] < 3:
            self.turn(desks[0], 1)
        self.pass_on(desks, sent)
        for desk in desks:
            self.keep_more(desk)
            self.picture()
        self.ask_in_turn(desks[0])

    def past_the_seam(self):
        """On a ring of 256 or 255 desks turn past its end, and what they do about it is kept and asked."""
        D, P = self.rng.choice((2, 2, 3, 8)), self.rng.choice((256, 256, 255))
        M = self.rng.choice((127, 127, self.rng.randint(80, 126)))
        self.start(D, P, self.rng.choices((30, 40, 60, 200, 255), k=D), M,
                   self.rng.choice((P - 2, P - 1, self.rng.randint(M, P - 1))),
                   *self.rng.choice(((2, 2), (127, 127), some_reach(self.rng, P))))
        desks = self.rng.sample(range(D), self.rng.choice((1, 1, 2)))
        for desk in desks:
            self.turn_up_to(desk, P - self.rng.randint(1, 2), 0.03)
        others = [desk for desk in range(D) if desk not in desks]
        self.pass_on([*desks, *others], self.say("send", desks[0], [*desks, *others][-1], 1))
        for _ in range(3):
            self.about_the_seam(desks)

    def about_the_seam(self, desks):
        """Mail of before waits while they turn, and is old when it is taken."""
        other = (desks[0] + 1) % self.run.D
        sent = self.say("send", desks[0], other, 1)
        for desk in desks:
            self.keep_more(desk)
            self.turn(desk, 1)
            self.ask_each_way(self.kept_slots(desk)[-2:])
        self.tell(desks[0], other, 1)
        self.take_sent(other, sent)
        self.picture()
        self.ask_at_the_edges()

    def ask_each_way(self, slots):
        for verb, two in itertools.product(("before", "compare"), itertools.permutations(slots, 2)):
            self.say(verb, *two)

    def ask_in_turn(self, desk):
        """Each kept stamp of a desk beside the next."""
        slots = self.kept_slots(desk)
        for two in zip(slots, slots[1:]):
            self.say(self.rng.choice(("before", "compare")), *two)

    def old_mail(self):
        """Mails to one desk wait, and the last of them is mostly taken first."""
        to, *others = self.rng.sample(range(self.run.D), min(3, self.run.D))
        sent = []
        for _ in range(self.rng.randint(2, 5)):
            desk = self.rng.choice(others)
            sent.append(self.say("send", desk, to, self.wish()))
            self.tell(desk, self.rng.choice((to, *others)))
        if self.rng.random() < 0.3:
            self.rng.shuffle(sent)
        for one in reversed(sent):
            self.take_sent(to, one)

    def now_and_then(self):
        if self.rng.random() < 0.15:
            self.event("send", self.wish())
        if self.rng.random() < 0.2:
            self.say("compare", *self.two_slots())
        if self.rng.random() < 0.2:
            self.say("before", *self.two_slots())
        if self.rng.random() < 0.2:
            self.picture()

    def last_clocks(self):
        """Desks use up their phases, so that their last clocks stand in rows of desks with other limits."""
        for desk in self.rng.sample(range(self.run.D), self.run.D):
            if self.run.left(desk) < 30:
                self.use_up(desk)
        self.ask()

    def use_up(self, desk):
        """The last clock goes to another as kept news; then the desk can do nothing but reset."""
        to = self.rng.choice([other for other in range(self.run.D) if other != desk])
        while self.run.left(desk) > 1:
            self.say("local", desk, 0)
        self.tell(desk, to, 1)
        self.say("local", desk, self.wish())
        self.say("send", desk, to, self.wish())
        self.take_sent(desk, self.say("send", to, desk, self.wish()))

    def packing_bench(self):
        """One desk makes two hundred events or so in its phase, the others few."""
        D = self.rng.choice((2, 3))
        bench, *offices = self.rng.sample(range(D), D)
        limits = placed([self.rng.randint(2, 12) for _ in range(D)], bench,
                        self.rng.choice((200, 201, 254, 255)))
        self.start(D, 5, limits, 2, 4, *some_reach(self.rng, 5))
        while not self.run.full(bench):
            if self.rng.random() < 0.9:
                self.say("local", bench, 0)
            else:
                self.tell(bench, self.rng.choice(offices), self.wish())
        self.use_up(bench)

    def rounds(self):
        """News goes round and desks turn, at times on a small ring, so that all come round; then come pictures."""
        if self.run.P > 5 and self.rng.random() < 0.3:
            self.start(3, 3, some_limits(self.rng, 3), 1, 2, 1, 2)
        for _ in range(self.rng.randint(2, 8)):
            if self.length() < 240:
                self.gossip()
        for desk in self.rng.sample(range(self.run.D), 2):
            self.keep_more(desk)
            self.picture()

    def fill_mail(self):
        for _ in range(self.rng.randint(33, 60)):
            number = self.event("send", self.wish())
            if number == 8 and self.rng.random() < 0.5:
                self.turn(self.rng.randrange(self.run.D))
            if number == 9 and self.rng.random() < 0.5:
                return self.fill_phase()

    def fill_phase(self):
        """A phase full beside full mail or a full shelf, where the desk's limit lets it come to that."""
        desk = min(self.rng.sample(range(self.run.D), 2), key=self.run.left)
        while not self.run.full(desk) and self.rng.random() < 0.95:
            self.say("local", desk, 0)
        self.say("send", desk, (desk + 1) % self.run.D, self.wish())
        self.say("local", desk, 1)

    def fill_shelf(self):
        """Kept events until none finds a slot, then all kinds of them about the last slot."""
        if sum(self.run.limits) < 40:
            self.roomy_start()
        for _ in range(80):
            if None in self.run.shelf:
                self.more_kept()
        for _ in range(self.rng.randint(2, 4)):
            self.about_the_last_slot()
        self.fill_phase()

    def fill_both(self):
        """Kept sends until neither a place nor a slot is free."""
        self.roomy_start()
        for _ in range(40):
            desk, to = self.rng.sample(range(self.run.D), 2)
            if self.say("send", desk, to, 1)[0] == 8:
                self.turn(desk)
        self.about_the_last_slot()
        self.fill_phase()

    def roomy_start(self):
        """An event is kept but once, so a shelf is filled only by many, and where resets are few."""
        D, P, limits, *lags = good_setup(self.rng)
        self.start(D, P, [max(limit, 24) for limit in limits], *lags)

    def more_kept(self):
        verb = self.rng.choice(("local", "local", "local", "send", "receive", "reset"))
        if self.event(verb, 1) in (8, 11, 12, 13):
            self.turn(self.rng.randrange(self.run.D), 1)

    def about_the_last_slot(self):
        """Each of the four, kept and not, where a slot may have been freed or may not."""
        if self.rng.random() < 0.5:
            self.say("drop", self.slot())
        events = [(verb, keep) for verb in EVENTS for keep in (0, 1)]
        for verb, keep in self.rng.sample(events, len(events)):
            self.event(verb, keep)

    def resets(self):
        """Two desks turn, and what they do is kept: resets mostly, and what follows them."""
        desks = self.rng.sample(range(self.run.D), 2)
        for _ in range(self.rng.randint(3, 9)):
            desk = self.rng.choice(desks)
            if self.turn(desk, 1) != 0:
                self.turn(desk, 1)
            if self.rng.random() < 0.4:
                self.say("local", desk, 1)
        self.ask_at_the_edges()

    def ask_at_the_edges(self):
        """Slots whose difference is at an end of the reach, or just beyond it."""
        m, n, shelf = self.run.m, self.run.n, self.run.shelf
        kept = [slot for slot, event in enumerate(shelf) if event]
        for _ in range(self.rng.randint(5, 15)):
            d = self.rng.choice((-m - 1, -m, 1 - m, n - 1, n))
            apart = [(first, second) for first in kept for second in kept
                     if self.run.difference(shelf[first], shelf[second]) == d]
            if apart:
                self.say(self.rng.choice(("before", "compare")), *self.rng.choice(apart))

    def ask(self):
        for _ in range(self.rng.randint(4, 20)):
            self.say(self.rng.choice(("before", "compare")), *self.two_slots())

    def odd_numbers(self):
        odd = lambda: self.rng.choice(ODD_NUMBERS)
        for _ in range(self.rng.randint(2, 8)):
            verb = self.rng.choice([*VERBS, b"picture"])
            count = VERBS.get(verb, self.rng.choice(ODD_COUNTS))
            verb = verb.decode()
            wish = [self.wish()] if verb in EVENTS else []
            numbers = [odd() for _ in range(count - len(wish))]
            if self.rng.random() < 0.2:
                numbers = numbers[:1] * len(numbers)
            self.say(verb, *numbers, *wish)

    def bad_lines(self):
        said = [text for text in self.lines if not text.startswith(b"may")]
        for _ in range(self.rng.randint(3, 12)):
            self.write(damaged(self.rng, self.rng.choice(said)))
        for _ in range(self.screen.randint(0, 3)):
            self.write(damaged(self.screen, text_of("may", self.some_desk())))
            self.asked += 1

    def bad_start(self):
        for _ in range(self.rng.randint(4, 12)):
            self.write(odd_start(self.rng))

    def edge_starts(self):
        """About the ends of P and A; then any good start."""
        for _ in range(self.rng.randint(4, 12)):
            self.write(edge_start(self.rng))
        self.new_start()

    def bad_start_text(self):
        """Start lines of other shapes and lengths."""
        for _ in range(self.rng.randint(1, 5)):
            self.write(damaged(self.rng, start_text(*good_setup(self.rng))))

    def new_start(self):
        self.start(*good_setup(self.rng))


SCENES = ((Writer.wander, 8), (Writer.sprint, 4), (Writer.rounds, 5), (Writer.hearsay, 3),
          (Writer.come_round, 4), (Writer.past_the_seam, 2), (Writer.old_mail, 4),
          (Writer.stocktaking, 6), (Writer.fill_mail, 2), (Writer.fill_shelf, 2),
          (Writer.fill_both, 2), (Writer.ask, 3), (Writer.resets, 5),
          (Writer.last_clocks, 6), (Writer.packing_bench, 3),
          (Writer.odd_numbers, 2), (Writer.bad_lines, 9), (Writer.bad_start, 5),
          (Writer.edge_starts, 2), (Writer.bad_start_text, 2), (Writer.new_start, 1))


# Start lines, and what the book is after each

FIXED_LIMITS = (4, 2, 3, 255, 2, 200, 10, 2, 5, 5)


def counted_starts():
    """Each D with none to ten limits, and with fewer numbers than any setup has."""
    for D in sorted({*range(11), *ODD_DESKS}):
        for count in range(11):
            yield start_text(D, 5, FIXED_LIMITS[:count], 2, 4, 2, 2)
            yield b"local 001 000"
        for count in range(6):
            yield text_of("start", *(D, 5, 2, 4, 2, 2)[:count])


def limited_starts():
    """Each limit below, at and above its range, for each desk of each D."""
    for D in range(2, 9):
        for desk, limit in itertools.product(range(D), (0, 1, 2, 255, 256, 258, 999)):
            yield start_text(D, 5, placed(FIXED_LIMITS[:D], desk, limit), 2, 4, 2, 2)
            yield text_of("local", desk, 0)
            yield text_of("local", desk, 0)


def ring_starts():
    """P about both ends of its range, with A about the end of its own and with none that hangs on P."""
    for P, A in itertools.product(EDGE_PHASES, (1, *EDGE_SHELF_LAGS)):
        yield start_text(2, P, (4, 2), 1, A, 1, 1)
        yield b"reset 001 001"
    for D, lags in ((2, (127, 255, 127, 127)), (8, (127, 127, 1, 127)), (8, (1, 255, 127, 1))):
        yield start_text(D, 256, FIXED_LIMITS[:D], *lags)
        yield b"reset 001 001"
        numbers = (D, 256, *FIXED_LIMITS[:D], *lags)
        for at in range(len(numbers)):
            yield text_of("start", *placed(numbers, at, 256))
            yield b"reset 000 000"


def long_starts():
    """The longest line has 61 bytes; whatever is behind it is too much, within 64 bytes and beyond."""
    for D in (8, 9):
        text = start_text(D, 5, FIXED_LIMITS[:8], 2, 4, 2, 2)
        yield from (text + b" 002 002 002"[:more] for more in range(13))
        yield from (text.ljust(length) for length in (62, 63, 64, 65, 66))
        yield from (text[:length] for length in range(56, 61))


# Input that no run is needed for: ends, lengths and bytes.
SHORT_LISTINGS = (
    b"", b"\n", b"\n\n", b"x", b"\0", b"\r\n", b"\n" * 70000,
    b"\n".join(b"picture" + b" 000" * count + tail for count in range(17) for tail in (b"", b" ")),
    b"start 002 003 003 003 001 001 001 001", b"start 002 003 003 003 001 001 001 001\r\n",
    b"start 256 003 003 003 001 001 001 001\nlocal 000 000\n",
    b"may 000", b"may 000\nmay 999\nmay\nmay 0\nmay 000 000\nmay  000\nmays 000\n",
    *(b"\n".join(lines()) for lines in (counted_starts, limited_starts, ring_starts, long_starts)),
    *(b"x" * length for length in (63, 64, 65, 66)),
    *(b"start 002 005 004 002 002 004 002 002\n" + b" " * length + b"local 000 001\nlocal 000 001"
      for length in (50, 51, 52, 53, 115, 116, 243, 256, 65523, 65536)),
    *(b"start 002 005 004 002 002 004 002 002\nlocal 000 001" + b"x" * length + b"\nlocal 000 001"
      for length in (51, 52, 243, 256, 65523, 65536)),
)


def written(seed):
    rng = random.Random(seed)
    writer = Writer(rng, random.Random(f"screen {seed}"))
    if rng.random() < 0.2:
        writer.odd_numbers()
        writer.bad_start()
    writer.new_start()
    if rng.random() < 0.4:
        writer.bad_start()
    scenes, weights = zip(*SCENES)
    favourite = rng.choice((Writer.rounds, Writer.sprint, Writer.resets, Writer.wander,
                            Writer.stocktaking, Writer.last_clocks))
    wanted = rng.randint(100, 250)
    while writer.length() < wanted:
        scene = favourite if rng.random() < 0.3 else rng.choices(scenes, weights)[0]
        scene(writer)
        writer.redraw(0.3, *range(writer.run.D + 1))
    return writer


def listing(seed):
    return written(seed).data()


if __name__ == "__main__":
    sys.stdout.buffer.write(listing(int(sys.argv[1])))
