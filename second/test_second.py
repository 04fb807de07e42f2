"""Tests of the second opinion itself: python3 second/test_second.py

The example and the cases of docs/RULES.md; that every clock goes by the limit of
its column's desk; that the reach in phases is the reach by resets; that a kept
event without a slot is refused whole and no call answers NoEvent; how much mail
tells; pictures by hand, by sets of events and by ordinary vectors; summaries by
hand, that the office leaves them true and that may answers from them as a reset
would; that the fixed seeds and the stored listing find each error the desks would
make; the full byte ring and the one of 255 at their ends; and that the runners
report.
"""

import collections
import contextlib
import functools
import io
import itertools
import os
import random
import sys
import unittest
from unittest import mock

sys.path.insert(0, os.path.dirname(os.path.dirname(os.path.abspath(__file__))))

from second import book, compare, line, listing, raw, seeds, stored

X = book.Setup(3, 5, (4, 4, 4), 2, 4, 2, 2)
Y = book.Setup(2, 5, (4, 2), 2, 4, 2, 2)


def fresh(setup=X):
    return book.start(bytes(book.BOOK_BYTES), *setup)[2]


@functools.cache
def written(seed):
    return seeds.written(seed)


# A line and its answer; the limits and own clocks of the desks before it, and whether all have come round.
Told = collections.namedtuple("Told", "text answer limits clocks come_round")


@functools.cache
def told(seed):
    """The lines of a seed's listing."""
    program, lines = listing.Program(), []
    for text in listing.lines_of(seeds.listing(seed)):
        run = program.run or NO_RUN
        clocks = [run.own(desk)[1] for desk in range(run.D)]
        come_round = run is not NO_RUN and stored.turned(run) > 0
        lines.append(Told(text, program.answer(text).encode(), run.limits, clocks, come_round))
    return lines


NO_RUN = line.Run(0, 0, (), 0, 0, 0, 0)


@functools.cache
def stored_listing():
    return stored.data(), stored.expected()


def stored_lines():
    return zip(*map(listing.lines_of, stored_listing()))


def calls(given, *steps):
    """Make the steps one after another; the last answer and the book."""
    for verb, *numbers in steps:
        number, values, given = getattr(book, verb)(given, *numbers)
    return number, values, given


def label(owner, *pairs, setup=X):
    row = bytes(number for pair in pairs for number in pair).ljust(16, b"\0")
    return book.record_of(setup, book.Stamp(owner, row))


class Cases(unittest.TestCase):
    """The cases of docs/RULES.md, on both sides of the edge."""

    def test_example(self):
        self.assertEqual(listing.answers(stored.EXAMPLE), stored.EXAMPLE_ANSWERS)

    def test_1_and_2_setup(self):
        zero = bytes(book.BOOK_BYTES)
        self.assertEqual(book.start(zero, *X)[0], book.DONE)
        self.assertEqual(book.start(zero, *X._replace(P=4)), (book.BAD_SETUP, (), zero))
        self.assertEqual(book.start(zero, *X._replace(A=1)), (book.BAD_SETUP, (), zero))

    def test_P_is_at_least_m_and_n(self):
        for P, m, n, number in ((3, 1, 2, book.DONE), (3, 2, 1, book.DONE),
                                (3, 2, 2, book.BAD_SETUP), (3, 1, 3, book.BAD_SETUP),
                                (4, 2, 2, book.DONE), (4, 1, 3, book.DONE),
                                (254, 127, 127, book.DONE), (253, 127, 127, book.BAD_SETUP)):
            setup = book.Setup(2, P, (2, 2), 1, 1, m, n)
            e = label(0, (0, 1), (0, 0), setup=setup)
            self.assertEqual(book.start(bytes(book.BOOK_BYTES), *setup)[0], number)
            self.assertEqual(book.label_before(setup, e, e)[0], number)
            self.assertEqual(line.permitted(*setup), number == book.DONE)
            given = bytearray(fresh(setup._replace(m=1, n=1)))
            given[7:9] = m, n
            self.assertEqual(book.sound(given), number == book.DONE)

    def test_3_and_4_stamp_and_record(self):
        _, (stamp, slot), after = calls(fresh(), ("local", 0, 1))
        self.assertEqual((stamp, slot), ((0, bytes((0, 1)) + bytes(14)), 0))
        record = bytes.fromhex("535400030001") + bytes(14)
        self.assertEqual(book.write(after, 0, b"\xff" * 21), (0, (record + b"\xff",), after))
        self.assertEqual(book.write(after, 0, b"\xff" * 19), (book.NO_ROOM, (), after))
        self.assertEqual(book.show(after, 0), (0, (record[4:],), after))
        self.assertEqual(book.record_of(X, book.read_stamp(X, record)), record)

    def test_6_to_8_refusals(self):
        self.assertEqual(book.send(fresh(), 0, 0, 0)[0], book.SAME_DESK)
        self.assertEqual(book.send(fresh(), 3, 3, 0)[0], book.NO_DESK)
        three = [("local", 0, 0)] * 3
        self.assertEqual(calls(fresh(), *three)[1][0].row[1], 3)
        self.assertEqual(calls(fresh(), *three, ("local", 0, 0))[0], book.PHASE_FULL)
        two = [("reset", 0, 0)] * 2
        self.assertEqual(calls(fresh(), *two)[1][0].row[:2], bytes((2, 0)))
        self.assertEqual(calls(fresh(), *two, ("reset", 0, 0))[0], book.SEAT_BEHIND)

    def test_the_lag_is_the_remainder_of_phases_of_the_ring(self):
        for P in range(3, 257):
            for own in range(P):
                self.assertEqual([book.lag_behind(own, v, P) for v in range(P)],
                                 [(own - v) % P for v in range(P)])

    def test_the_lag_grows_by_one_as_its_desk_turns(self):
        """Until it would be P: then it is 0 again."""
        for P in (3, 4, 5, 128, 254, 255, 256):
            for own in range(P):
                turned = book.next_phase(own, P)
                self.assertEqual([book.lag_behind(turned, v, P) for v in range(P)],
                                 [(book.lag_behind(own, v, P) + 1) % P for v in range(P)])

    def test_9_later_is_the_smaller_lag(self):
        given = bytearray(fresh())
        for own, later in ((0, 0), (4, 4)):
            given[book.own_entry(1)] = own
            for held, told in itertools.permutations((bytes((4, 3)), bytes((0, 0)))):
                pair = told if told[0] == later else held
                self.assertEqual(book.later(given, 1, held, told), (pair, pair is told))

    def reaches_off_the_book(self, e, differences):
        """The differences from e under X, for each r in turn."""
        for r, d in enumerate(differences):
            f = label(1, (r, 0), (0, 1), (0, 0))
            read = book.read_stamp(X, e), book.read_stamp(X, f)
            self.assertEqual(book.difference_off_book(X, *read), d)
            number = book.DONE if d is not None else book.OUT_OF_REACH
            self.assertEqual(book.label_before(X, e, f)[0], number)

    def test_10_reach_off_the_book(self):
        self.reaches_off_the_book(label(0, (0, 1), (0, 0), (0, 0)), (0, 1, None, None, -1))

    def test_reach_of_a_reset_off_the_book(self):
        e, f = label(0, (0, 0), (0, 0), (0, 0)), label(0, (3, 1), (0, 0), (0, 0))
        self.reaches_off_the_book(e, (0, 1, None, -2, -1))
        self.assertEqual(book.label_before(X, e, f), (0, (False,)))
        self.assertEqual(book.label_before(X, f, e), (book.OUT_OF_REACH, ()))
        self.assertEqual(book.label_compare(X, e, f), (book.OUT_OF_REACH, ()))
        self.assertEqual(book.label_compare(X, f, e), (book.OUT_OF_REACH, ()))

    def test_lopsided_reach_off_the_book(self):
        for m, n, answer in ((1, 3, "crossed"), (3, 1, "concurrent")):
            setup = book.Setup(2, 4, (2, 2), 1, 1, m, n)
            e, f = (label(0, (phase, 1), (0, 0), setup=setup) for phase in (0, 2))
            self.assertEqual(book.label_compare(setup, e, f), (0, (answer,)))

    def test_11_one_slot(self):
        given = calls(fresh(), ("local", 0, 1))[2]
        self.assertEqual(book.compare(given, 0, 0)[1], ("same",))
        self.assertEqual(book.before(given, 0, 0)[1], (False,))

    def test_12_not_yours(self):
        given = calls(fresh(), ("send", 0, 1, 0))[2]
        self.assertEqual(book.receive(given, 2, 0, 0), (book.NOT_YOURS, (), given))
        self.assertEqual(book.receive(given, 1, 0, 0)[0], book.DONE)

    def test_13_reach_on_the_book(self):
        first, last = ("local", 0, 1), ("reset", 0, 1)
        given = calls(fresh(), first, last)[2]
        self.assertEqual(book.compare(given, 0, 1)[:2], (0, ("before",)))
        given = calls(fresh(), first, ("reset", 0, 0), last)[2]
        self.assertEqual(book.compare(given, 0, 1)[:2], (book.OUT_OF_REACH, ()))

    def test_reach_of_a_reset_on_the_book(self):
        given = calls(fresh(), ("local", 0, 1), ("local", 1, 1), ("reset", 0, 0),
                      ("reset", 0, 1), ("local", 0, 1))[2]
        for other in (0, 1):
            self.assertEqual(book.before(given, 2, other)[:2], (0, (False,)))
            self.assertEqual(book.before(given, 3, other)[:2], (book.OUT_OF_REACH, ()))
        for first, second, answer in ((2, 1, (0, ("concurrent",))), (3, 1, (16, ())), (2, 0, (16, ()))):
            self.assertEqual(book.compare(given, first, second)[:2], answer)
            self.assertEqual(book.compare(given, second, first)[:2], answer)

    def test_14_phases_full_by_their_own_limits(self):
        for desk, clocks in ((0, 3), (1, 1)):
            steps = [("local", desk, 0)] * clocks
            self.assertEqual(calls(fresh(Y), *steps)[1][0].row[2 * desk + 1], clocks)
            self.assertEqual(calls(fresh(Y), *steps, ("local", desk, 0))[0], book.PHASE_FULL)

    def test_15_a_last_clock_in_mail(self):
        given = calls(fresh(Y), *[("local", 0, 0)] * 2, ("send", 0, 1, 0))[2]
        self.assertEqual(book.row_at(given, book.place_at(0))[:4], bytes((0, 3, 0, 0)))
        _, (stamp, learnt), given = calls(given, ("receive", 1, 0, 0))
        self.assertEqual((stamp, learnt), ((1, bytes((0, 3, 0, 1)) + bytes(12)), 1))
        for desk in (1, 0):
            self.assertEqual(book.local(given, desk, 0), (book.PHASE_FULL, (), given))

    def test_16_a_record_by_the_limits_of_its_columns(self):
        record = bytes.fromhex("5354010200030001") + bytes(12)
        for limits, number in (((4, 2), 0), ((2, 4), 14), ((3, 2), 14), ((4, 4), 0), ((255, 255), 0),
                               ((4, 1), 2), ((1, 2), 2), ((4,), 2), ((4, 2, 2), 2), ((), 2)):
            setup = Y._replace(limits=limits)
            self.assertEqual(book.label_compare(setup, record, record)[0], number, limits)
            self.assertEqual(book.label_before(setup, record, label(0, (0, 0), (0, 0), setup=Y))[0], number)
            self.assertEqual(book.label_newest(setup, label(1, (0, 0), (0, 0), setup=Y), record)[0], number)

    def test_14_to_16_by_lines(self):
        self.assertEqual(listing.answers(stored.OWN_LIMITS), stored.OWN_LIMITS_ANSWERS)

    def test_newest(self):
        old, new = label(0, (4, 3), (0, 0), (0, 0)), label(0, (0, 0), (0, 0), (0, 0))
        later = label(0, (0, 1), (0, 0), (0, 0))
        apart = label(1, (3, 0), (0, 1), (0, 0))
        self.assertEqual(book.label_newest(X, old, new), (0, (2,)))
        self.assertEqual(book.label_newest(X, new, old), (0, (1,)))
        self.assertEqual(book.label_newest(X, new, new), (0, (1,)))
        self.assertEqual(book.label_newest(X, old, apart), (0, (0,)))
        # Two phases back: within reach from a reset, not from the local after it.
        self.assertEqual(book.label_newest(X, new, apart), (0, (0,)))
        self.assertEqual(book.label_newest(X, later, apart), (book.OUT_OF_REACH, ()))
        self.assertEqual(book.label_newest(X, new, new[:19]), (book.BAD_STAMP, ()))
        self.assertEqual(book.label_newest(X._replace(P=4), b"", b""), (book.BAD_SETUP, ()))

    def test_numbers_of_any_size(self):
        given = calls(fresh(), ("local", 0, 1))[2]
        for big in (256, 2**32, 2**64 - 1, 2**64):
            self.assertEqual(book.start(given, *X._replace(D=big))[0], book.BAD_SETUP)
            self.assertEqual(book.send(given, 0, big, 0)[0], book.NO_DESK)
            self.assertEqual(book.receive(given, 0, big, 0)[0], book.NO_PLACE)
            self.assertEqual(book.before(given, 0, big)[0], book.NO_PLACE)
            self.assertEqual(book.local(given, 0, big), book.local(given, 0, 1))


# Limits, each desk's own.

UNLIKE = book.Setup(8, 99, (70, 71, 2, 73, 255, 75, 200, 10), 44, 55, 33, 66)
FREE_ROOMS = (b"MA" + bytes(18)) * 32 + (b"SH" + bytes(18)) * 32


class Limits(unittest.TestCase):
    def test_the_bytes_of_a_fresh_book(self):
        for setup in (UNLIKE, Y, X, UNLIKE._replace(D=5, limits=(255, 2, 3, 254, 100))):
            D, P, limits, M, A, m, n = setup
            seats = [b"SE\0" + bytes((limit,)) + bytes(16) for limit in (*limits, *[0] * (8 - D))]
            made = b"BK" + bytes((D, P, 0, M, A, m, n, 0, 0, 0, 0, 0, 0, 0)) + b"".join(seats) + FREE_ROOMS
            self.assertEqual(book.start(b"\xff" * 1456, *setup), (0, (), made))
            self.assertEqual(line.Run(*setup).book(), made)
            self.assertEqual(book.setup_of(made), setup)

    def test_permitted(self):
        """By start, off the book and on the line alike: one for each desk, each from 2 to 255."""
        zero = bytes(book.BOOK_BYTES)
        for D in range(2, 9):
            for length in (*range(11), 256 + D):
                self.asked(zero, UNLIKE._replace(D=D, limits=[2] * length), length == D)
            for desk in range(D):
                for limit in (0, 1, 2, 3, 254, 255, 256, 258, 2**16 + 2, 2**32 + 2, 2**64 - 1, 2**64 + 2):
                    limits = seeds.placed([4] * D, desk, limit)
                    self.asked(zero, UNLIKE._replace(D=D, limits=limits), 2 <= limit <= 255)
        for D in (0, 1, 9, 10, 256, 258, 2**64):
            for length in (0, 1, 2, 8, 9, 10):
                self.asked(zero, UNLIKE._replace(D=D, limits=[4] * length), False)

    def asked(self, zero, setup, good):
        number = book.DONE if good else book.BAD_SETUP
        started, _, after = book.start(zero, *setup)
        self.assertEqual((started, after == zero), (number, not good), setup)
        self.assertEqual(book.start(zero[1:], *setup)[0], book.BAD_BOOK)
        self.assertEqual(line.permitted(*setup), good)
        self.assertEqual(book.label_before(setup, b"", b"")[0], 14 if good else 2)

    def test_every_byte_of_a_limit(self):
        """2 to 255 below D, started or not, and 0 above; in the header 0 alone."""
        for given in (fresh(X), calls(fresh(X), ("local", 0, 0), ("reset", 2, 1))[2]):
            for desk, byte in itertools.product(range(8), range(256)):
                sound = byte >= 2 if desk < 3 else byte == 0
                self.assertEqual(book.sound(raw.with_byte(given, book.limit_at(desk), byte)), sound)
            for byte in range(1, 256):
                self.assertFalse(book.sound(raw.with_byte(given, 4, byte)))

    def test_one_limit_in_the_header(self):
        for setup in (X, Y, UNLIKE):
            given = fresh(setup)
            for desk in range(8):
                given = raw.with_byte(given, book.limit_at(desk), 0)
            for byte in (0, 4, 255):
                self.assertFalse(book.sound(raw.with_byte(given, 4, byte)))

    def test_every_row_by_the_limits_of_its_columns(self):
        """In each seat, place and slot, for each desk: the last clock is sound, the next two are not."""
        rng = random.Random(8)
        for limits in itertools.permutations((2, 5, 200)):
            given = raw.sound_book_of(rng, X._replace(limits=limits), [True] * 3)
            given = raw.shelf_with(rng, given, 1, 0)
            for place in range(32):
                at, (sender, addressee) = book.place_at(place), rng.sample((1, 2, 3), 2)
                row = book.row_at(given, book.seat_at(0))
                given = given[:at] + b"MA" + bytes((sender, addressee)) + row + given[at + 20:]
            for record in (*range(16, 76, 20), *range(176, 1456, 20)):
                for column, limit in enumerate(limits):
                    at = record + 5 + 2 * column
                    clocks = [raw.with_byte(given, at, limit + more) for more in (-1, 0, 1)]
                    self.assertEqual([book.sound(one) for one in clocks], [True, False, False])

    def test_a_limit_over_a_clock(self):
        """A limit is sound where it is above each clock of its column, wherever that stands."""
        rng = random.Random(9)
        for _ in range(20):
            setup = raw.setup_of_desks(rng, 3)
            given = raw.sound_book_of(rng, setup)
            for column in range(3):
                last = max(given[record + 5 + 2 * column] for record in range(16, 1456, 20))
                for limit in {0, 1, 2, last - 1, last, last + 1, 255} - {-1}:
                    lowered = raw.with_byte(given, book.limit_at(column), limit)
                    self.assertEqual(book.sound(lowered), limit > last and limit >= 2)

    def test_lines_follow_each_limit(self):
        """Every event keeps below the limits, and a desk is refused at its own last clock alone."""
        seen = set()
        for seed in range(1, 101):
            for run in written(seed).runs:
                for event in run.events:
                    self.assertTrue(all(clock < limit for (_, clock), limit in zip(event.pairs, run.limits)))
            seen |= set(full_in(told(seed)))
        self.assertEqual({(verb, own) for verb, own, _ in seen}, set(itertools.product(COUNTING, (True,))))
        self.assertLessEqual(set(itertools.product(COUNTING, (True,), (-1, 0, 1))), seen)

    def test_seeds_use_up_every_kind_of_limit(self):
        runs = [run for seed in range(1, 101) for run in written(seed).runs]
        self.assertLessEqual(stored.LAST_CLOCKS, set(stored.last_clocks_in(runs)))
        self.assertLessEqual({2, 3, 4, 10, 11, 200, 201, 254, 255}, stored.used_up(runs))
        self.assertTrue(any(len(set(run.limits)) == 1 for run in runs))
        self.assertEqual({run.D for run in runs if len(set(run.limits)) > 1}, set(range(2, 9)))

    def test_no_line_but_start_changes_a_limit(self):
        program, limits = listing.Program(), set()
        for one in told(1) + told(2):
            before = program.book
            self.assertEqual(program.answer(one.text).encode(), one.answer)
            if one.text.startswith(b"start") and one.answer == b"000":
                limits.add(program.book[19:176:20])
            else:
                self.assertEqual(before[19:176:20], program.book[19:176:20])
        self.assertGreater(len(limits), 2)


COUNTING = "local", "send", "receive"


def full_in(lines):
    """Of each PhaseFull: the verb, if it is at the last clock, and how the limit is beside the next desk's."""
    for text, _, limits, clocks, _ in (one for one in lines if one.answer == b"008"):
        verb, (desk, *_) = listing.parse(text)
        following = limits[(desk + 1) % len(limits)]
        yield (verb, clocks[desk] == limits[desk] - 1,
               (limits[desk] > following) - (limits[desk] < following))


# The full byte ring, and the largest that is not.

FULL = book.Setup(2, 256, (20, 21), 127, 255, 127, 127)
NEARLY = FULL._replace(P=255, A=254)


def hears(desk, to):
    """Send, and receive at once; no other mail waits."""
    return [("send", desk, to, 0), ("receive", to, 0, 0)]


def turns(desk, count):
    return [("reset", desk, 0)] * count


def turned_to_255(keep=0):
    """The full ring's book when desk 0 has turned to 255 and the other has heard it at 127 and at 254."""
    steps = [*turns(0, 127), *hears(0, 1)] * 2
    return calls(fresh(FULL), *steps, ("reset", 0, keep))[2]


class FullRing(unittest.TestCase):
    def test_the_lag_is_one_byte_subtraction(self):
        """It comes round on its own, and is what the handbook has."""
        for own, v in itertools.product(range(256), repeat=2):
            byte = int.from_bytes((own - v).to_bytes(2, "little", signed=True)[:1], "little")
            handbook = own - v if own >= v else own + 256 - v
            self.assertEqual((book.lag_behind(own, v, 256), handbook), (byte, byte))

    def test_the_phase_after_255_is_0(self):
        self.assertEqual([book.next_phase(phase, 256) for phase in range(256)], [*range(1, 256), 0])
        self.assertEqual([book.next_phase(phase, 255) for phase in range(255)], [*range(1, 255), 0])

    def test_the_bytes_of_a_fresh_book(self):
        """The header's byte is 0 for 256, and P for any other."""
        for P, byte in ((256, 0), (255, 255), (3, 3)):
            setup = FULL._replace(P=P, M=1, A=2, m=1, n=2)
            seats = b"SE\0\x14" + bytes(16) + b"SE\0\x15" + bytes(16) + (b"SE" + bytes(18)) * 6
            made = b"BK" + bytes((2, byte, 0, 1, 2, 1, 2)) + bytes(7) + seats + FREE_ROOMS
            self.assertEqual(book.start(b"\xff" * 1456, *setup), (0, (), made))
            self.assertEqual(line.Run(*setup).book(), made)
            self.assertEqual(book.setup_of(made), setup)
            self.assertTrue(book.sound(made))

    def test_permitted(self):
        """By start, off the book and on the line alike: P to 256 and A below it."""
        for P in raw.RING_NUMBERS:
            self.asked(FULL._replace(P=P, M=1, A=1, m=1, n=1), 3 <= P <= 256)
            self.asked(FULL._replace(P=P), P == 256)
            self.asked(NEARLY._replace(P=P), 255 <= P <= 256)
        for A in (0, 1, 126, *raw.SHELF_LAGS):
            self.asked(FULL._replace(A=A), 127 <= A <= 255)
            self.asked(NEARLY._replace(A=A), 127 <= A <= 254)
            self.asked(FULL._replace(M=1, A=A, m=1, n=1), 1 <= A <= 255)
        for name, number in itertools.product("Mmn", (0, 1, 127, 128, 255, 256)):
            self.asked(FULL._replace(**{name: number}), 1 <= number <= 127)
        for odd in ({"D": 256}, {"D": 258}, {"limits": (256, 2)}, {"limits": (2, 256)}):
            self.asked(FULL._replace(**odd), False)

    def asked(self, setup, good):
        self.assertEqual(book.start(bytes(book.BOOK_BYTES), *setup)[0], 0 if good else 2, setup)
        self.assertEqual(line.permitted(*setup), good, setup)
        self.assertEqual(book.label_compare(setup, b"", b"")[0], 14 if good else 2, setup)

    def test_every_byte_of_P(self):
        """1 and 2 alone are no P; with the largest lags 0 alone is one, or 0 and 255."""
        smallest = fresh(FULL._replace(P=3, M=1, A=1, m=1, n=1))
        for given, good in ((smallest, {*range(256)} - {1, 2}), (fresh(FULL), {0}), (fresh(NEARLY), {0, 255})):
            sound = {byte for byte in range(256) if book.sound(raw.with_byte(given, 3, byte))}
            self.assertEqual(sound, good)

    def test_every_phase_in_every_kind_of_row(self):
        """Under both rings and at each own phase, by how far it lags; on a ring of 255 there is no 255."""
        rng = random.Random(4)
        for setup, kind, own in itertools.product((FULL, NEARLY), raw.ROWS, (0, 1, 127, 128, 253, 254)):
            most = raw.ROWS[kind][1](setup)
            for phase in range(256):
                given = raw.uneven_book(rng, setup, [own, 9], 0, kind, phase)
                good = phase < setup.P and (own - phase) % setup.P <= most
                self.assertEqual(book.sound(given), good, (setup.P, kind, own, phase))
        for setup, good in ((FULL, True), (NEARLY, False)):
            self.assertEqual(book.sound(raw.level_book(setup, [255, 9])), good)

    def test_every_phase_in_a_record(self):
        for setup, column, phase in itertools.product((FULL, NEARLY), (0, 1), range(256)):
            pairs = seeds.placed([(3, 1), (3, 1)], column, (phase, 1))
            read = book.read_stamp(setup, label(0, *pairs, setup=setup))
            self.assertEqual(read is not None, phase < setup.P)

    def test_a_record_does_not_say_its_ring(self):
        """From 254 to 0 it is two phases on a ring of 256, one on a ring of 255."""
        e, f = (label(0, (phase, 1), (0, 0), setup=FULL) for phase in (254, 0))
        for reach, full, nearly in (((2, 2), (16, ()), (0, ("before",))), ((3, 3), *[(0, ("before",))] * 2)):
            setups = (setup._replace(m=reach[0], n=reach[1]) for setup in (FULL, NEARLY))
            self.assertEqual([book.label_compare(setup, e, f) for setup in setups], [full, nearly])
        last = label(0, (255, 1), (0, 0), setup=FULL)
        self.assertEqual(book.label_compare(FULL, last, f), (0, ("before",)))
        self.assertEqual(book.label_compare(FULL, f, last), (0, ("after",)))
        self.assertEqual(book.label_newest(FULL, last, f), (0, (2,)))
        self.assertEqual(book.label_compare(NEARLY, last, f), (book.BAD_STAMP, ()))

    def test_the_reach_off_the_book(self):
        """126 ahead, and back 126, or 127 from a reset; the two of 256 between are out of reach."""
        for phase, clock in itertools.product((0, 1, 128, 254, 255), (0, 1)):
            e = book.Stamp(0, bytes((phase, clock)) + bytes(14))
            told = [book.difference_off_book(FULL, e, book.Stamp(1, bytes(((phase + r) % 256,)) + bytes(15)))
                    for r in range(256)]
            self.assertEqual(told[:127], [*range(127)])
            self.assertEqual(told[127:130], [None, None, -127 if clock == 0 else None])
            self.assertEqual(told[130:], [*range(-126, 0)])

    def test_a_desk_turns_past_255(self):
        given = turned_to_255(1)
        self.assertEqual(given[3], 0)
        self.assertEqual(given[book.own_entry(0)], 255)
        number, (stamp, slot), after = calls(given, ("reset", 0, 1))
        self.assertEqual((number, stamp.row, slot), (0, bytes((0, 0, 0, 0)) + bytes(12), 1))
        for verb, first, second, value in (("before", 0, 1, True), ("before", 1, 0, False),
                                           ("compare", 0, 1, "before"), ("compare", 1, 0, "after")):
            self.assertEqual(getattr(book, verb)(after, first, second)[:2], (0, (value,)))

    def test_mail_of_0_is_later_than_mail_of_255(self):
        given = calls(turned_to_255(), ("send", 0, 1, 0), ("reset", 0, 0), ("send", 0, 1, 0))[2]
        _, (stamp, learnt), after = calls(given, ("receive", 1, 0, 0), ("receive", 1, 1, 0))
        self.assertEqual((stamp.row[:2], learnt), (bytes((0, 1)), 1))
        _, (stamp, learnt), other = calls(given, ("receive", 1, 1, 0), ("receive", 1, 0, 0))
        self.assertEqual((stamp.row[:2], learnt), (bytes((0, 1)), 0))
        self.assertEqual(after, other)

    def test_lags_beyond_the_seam(self):
        """A reset is refused where a seat lags 127, mail 254 or a stamp 255, and not where they lag one less."""
        rng = random.Random(4)
        for own, (kind, (number, bound)) in itertools.product((0, 1, 9, 253, 255), raw.ROWS.items()):
            for more in (-1, 0):
                lag = bound(FULL) + more
                given = raw.uneven_book(rng, FULL, [own, 7], 0, kind, (own - lag) % 256)
                self.assertEqual(book.reset(given, 0, 0)[0], 0 if more else number)
                self.assertEqual(book.reset(given, 1, 0)[0], 0)

    def test_a_stamp_of_255_phases_ago(self):
        """By turns from 0 to 255: at 254 a reset is accepted, at 255 not; dropped, it is."""
        given = calls(fresh(FULL), ("local", 1, 1), *[*turns(0, 127), *hears(0, 1)] * 2)[2]
        number, _, given = book.reset(given, 0, 0)
        self.assertEqual((number, given[book.own_entry(0)]), (0, 255))
        self.assertEqual(book.reset(given, 0, 0), (book.SHELF_BEHIND, (), given))
        number, _, given = calls(given, ("drop", 0), ("reset", 0, 0))
        self.assertEqual((number, given[book.own_entry(0)]), (0, 0))

    def test_lines_by_hand(self):
        for number, numbers in stored.RING_START_LINES:
            text = b" ".join([b"start", *numbers.encode().split()])
            self.assertEqual(listing.answers(text), b"%03d\n" % number, text)
        lines = b"start 002 256 004 004 127 255 127 127\n" + b"reset 000 000\n" * 128
        lines += b"send 000 001 000\nreceive 001 000 000\n" + b"reset 000 000\n" * 128
        lines += b"send 000 001 001\nreceive 001 000 000\n" + b"reset 000 001\n" * 2
        lines += b"compare 000 002\ncompare 002 000\ncompare 001 002\n"
        printed = listing.lines_of(listing.answers(lines))
        self.assertEqual(printed[127:132], [
            b"000 000 127.000 000.000", b"011", b"000 000 000 127.001 000.000",
            b"000 001 127.001 000.001 001", b"000 000 128.000 000.000"])
        self.assertEqual(printed[-8:], [
            b"011", b"000 000 000 254.001 000.000 000", b"000 001 254.001 000.002 001",
            b"000 000 255.000 000.000 001", b"000 000 000.000 000.000 002",
            b"000 before", b"000 after", b"000 before"])

    def test_the_check_misses_each_ring(self):
        runs = stored.written().runs
        stored.check_large_rings(runs)
        for P, D in ((256, 2), (256, 8), (255, 2)):
            with self.assertRaises(AssertionError):
                stored.check_large_rings([run for run in runs if (run.P, run.D) != (P, D)])

    def test_the_check_misses_what_is_asked_at_the_seam(self):
        """Two desks alone are not enough, nor starts without each P and A."""
        lines, _ = zip(*stored_between(stored.ring_of_256, stored.ring_of_255))
        with self.assertRaises(AssertionError):
            stored.check_seam(lines)
        with self.assertRaises(AssertionError):
            stored.check_seam_mail([run for run in stored.written().runs if run.D == 2])
        starts = [one for one in stored_lines() if one[0].startswith(b"start")]
        stored.check_ring_starts(*zip(*starts))
        for P, A in stored.RING_STARTS:
            with self.assertRaises(AssertionError):
                stored.check_ring_starts(*zip(*(one for one in starts if not starts_with(one[0], P, A))))

    def test_seeds_start_and_pass_the_full_ring(self):
        runs = [run for seed in range(1, 101) for run in written(seed).runs]
        full = [run for run in runs if run.P == 256]
        self.assertGreater(10 * len(full), len(runs))
        self.assertLessEqual({2, 3, 8}, {run.D for run in full})
        self.assertLessEqual({1, 254, 255}, {run.A for run in full})
        for P in (255, 256):
            self.assertTrue(any(passes(seed, P) for seed in range(1, 101)))

    def test_seeds_ask_beyond_the_seam(self):
        """Questions of 255 and 0 both ways, and mail of either where the other is held."""
        questions, mail = set(), set()
        for seed in (seed for seed in range(1, 101) if passes(seed, 256)):
            questions |= stored.seam_facts([one.text for one in told(seed)]).questions
            mail |= {(held[0] % 256, pair[0] % 256, changed) for run in written(seed).runs if run.P == 256
                     for held, pair, changed in stored.told_pairs(run)}
        self.assertLessEqual(stored.SEAM_QUESTIONS, questions)
        self.assertLessEqual({(255, 0, True), (0, 255, False)}, mail)

    def test_seeds_start_at_the_ends_of_P_and_A(self):
        seen = {(setup.P, setup.A, one.answer) for seed in range(1, 101) for one in told(seed)
                if one.text.startswith(b"start") for setup in setups_in(one.text)}
        phases = {(P, answer) for P, _, answer in seen}
        self.assertLessEqual({(P, answer) for (P, A), answer in stored.RING_STARTS.items() if A == 1}, phases)
        self.assertLessEqual({(P, A, answer) for (P, A), answer in stored.RING_STARTS.items() if A > 1}, seen)


def setups_in(text):
    """The setup of a start line."""
    verb, numbers = listing.parse(text) or (None, ())
    return [book.Setup(*numbers)] if verb == "start" else []


def starts_with(text, P, A):
    return any((setup.P, setup.A) == (P, A) for setup in setups_in(text))


def passes(seed, P):
    """Does a desk in some run of a seed come round on a ring of P?"""
    return any(run.P == P and max(run.own(desk)[0] for desk in range(run.D)) >= P
               for run in written(seed).runs)


def stored_between(section, following):
    """The stored lines and answers from where one section begins to where another does."""
    begins = stored.written().begins
    return list(stored_lines())[begins[section]:begins[following]]


@functools.cache
def ring_lines():
    """Those about the largest rings, which begin with a start."""
    return stored_between(stored.RING_SECTIONS[0], stored.unended)


# Kept events, under a setup by which 32 of them go on the shelf.

ROOMY = book.Setup(3, 11, (255, 255, 255), 5, 9, 3, 3)
KEPT_EVENTS = (("local", 1), ("send", 1, 2), ("receive", 2, 0), ("reset", 1))


def shelf_of(count):
    """A book with mail for desk 2 in place 0 and so many stamps kept."""
    return calls(fresh(ROOMY), ("send", 1, 2, 0), *[("local", 0, 1)] * count)[2]


def without_slot(given, slot):
    at = book.slot_at(slot)
    return given[:at] + book.SHELF_MARK + book.FREE + given[at + 20:]


class Keeping(unittest.TestCase):
    def test_kept_is_the_event_and_its_row_in_the_lowest_free_slot(self):
        for verb, *numbers in KEPT_EVENTS:
            for free in (0, 5, 31):
                given = without_slot(shelf_of(32), free)
                _, values, after = getattr(book, verb)(given, *numbers, 0)
                stamp, = (value for value in values if isinstance(value, book.Stamp))
                kept = book.SHELF_MARK + bytes((stamp.owner + 1, 0)) + stamp.row
                at = book.slot_at(free)
                self.assertEqual(getattr(book, verb)(given, *numbers, 1),
                                 (0, (*values, free), after[:at] + kept + after[at + 20:]))

    def test_a_kept_event_without_a_slot_is_refused_whole(self):
        given = shelf_of(32)
        for verb, *numbers in KEPT_EVENTS:
            self.assertEqual(getattr(book, verb)(given, *numbers, 1), (book.SHELF_FULL, (), given))
            self.assertEqual(getattr(book, verb)(given, *numbers, 0)[0], book.DONE)

    def test_the_mail_of_a_refused_receipt_waits(self):
        given = calls(shelf_of(32), ("receive", 2, 0, 1))[2]
        number, (stamp, learnt), after = calls(given, ("receive", 2, 0, 0))
        self.assertEqual((number, stamp.row[:6], learnt), (0, bytes((0, 0, 0, 1, 0, 1)), 1))
        self.assertEqual(book.receive(after, 2, 0, 1)[0], book.NO_PLACE)
        self.assertEqual(calls(given, ("drop", 9), ("receive", 2, 0, 1))[1], (stamp, 1, 9))

    def test_lags_are_those_of_the_book_as_it_was(self):
        """A kept reset may leave a row behind, but never its own."""
        given = calls(fresh(X), ("reset", 0, 1), ("reset", 0, 1))[2]
        self.assertEqual(book.reset(given, 0, 1)[0], book.SEAT_BEHIND)
        setup = book.Setup(2, 3, (9, 9), 1, 1, 1, 1)
        steps = [("reset", 0, 1), ("send", 0, 1, 0), ("receive", 1, 0, 0)]
        given = calls(fresh(setup), *steps, *steps)[2]
        self.assertEqual(book.reset(given, 0, 1)[0], book.SHELF_BEHIND)
        self.assertEqual(calls(given, ("drop", 0), ("reset", 0, 1))[:2],
                         (0, ((0, bytes(16)), 0)))

    def test_full_shelf_comes_before_lags_where_it_is_kept(self):
        rng = random.Random(10)
        for number in (book.SEAT_BEHIND, book.MAIL_BEHIND, book.SHELF_BEHIND):
            content, (desk,) = raw.answered(rng, "reset", number, raw.any_setup)
            full = raw.shelf_with(rng, content, desk, 0)
            self.assertEqual(book.reset(full, desk, 0)[0], number)
            self.assertEqual(book.reset(full, desk, 1), (book.SHELF_FULL, (), full))

    def test_no_call_answers_no_event(self):
        asked = {asked.number for batch in raw.batches(raw.DEFAULT_CALLS, 7) for asked in batch}
        self.assertEqual(asked, {*range(19), book.BAD_SUMMARY} - {book.NO_EVENT, book.BAD_LINE})
        printed = {line[1][:3] for lines in (stored_lines(), *map(told, range(1, 101))) for line in lines}
        self.assertNotIn(b"007", printed)


# How much a desk learns, by hand and against the history.

OLD_MAIL = b"""\
start 003 003 009 009 009 001 002 001 002
send 000 001 000
reset 000 000
send 000 001 000
receive 001 001 001
receive 001 000 000
send 001 002 000
receive 002 000 001
"""

OLD_MAIL_ANSWERS = b"""\
000
000 000 000 000.001 000.000 000.000
000 000 001.000 000.000 000.000
000 001 000 001.001 000.000 000.000
000 001 001.001 000.001 000.000 001 000
000 001 001.001 000.002 000.000 000
000 000 001 001.001 000.003 000.000
000 002 001.001 000.003 000.001 002 001
"""


def with_pair(given, record, desk, *pair):
    """The book with another pair for a desk in the row of a record."""
    at = record + 4 + 2 * desk
    return given[:at] + bytes(pair) + given[at + 2:]


class Learning(unittest.TestCase):
    def test_the_number_stands_before_the_slot(self):
        self.assertEqual(listing.answers(OLD_MAIL), OLD_MAIL_ANSWERS)

    def test_changed_is_that_the_pair_differs(self):
        given = with_pair(fresh(), book.seat_at(1), 1, 2, 0)
        for held, told, changed in (((1, 1), (1, 1), False), ((1, 1), (1, 2), True),
                                    ((1, 2), (1, 1), False), ((1, 3), (2, 0), True),
                                    ((2, 0), (1, 3), False), ((3, 3), (0, 0), True)):
            held, told = bytes(held), bytes(told)
            self.assertEqual(book.later(given, 1, held, told), (told if changed else held, changed))

    def test_eight_desks_pass_on_what_they_heard(self):
        given = fresh(ROOMY._replace(D=8, limits=(255,) * 8))
        for desk, number in enumerate((1, 2, 3, 4, 5, 6, 7, 7, 7)):
            desk, to = desk % 8, (desk + 1) % 8
            _, (_, learnt), given = calls(given, ("send", desk, to, 0), ("receive", to, 0, 0))
            self.assertEqual(learnt, number)

    def test_the_own_entry_never_counts(self):
        """Though it grows, and though mail that no run leads to may say more of it."""
        given = calls(fresh(), ("send", 0, 1, 0))[2]
        for told, of_itself, number in (((0, 1), (0, 0), 1), ((0, 1), (0, 3), 1),
                                        ((0, 0), (0, 0), 0), ((0, 0), (0, 3), 0)):
            mail = with_pair(given, book.place_at(0), 0, *told)
            mail = with_pair(mail, book.place_at(0), 1, *of_itself)
            row = bytes((*told, 0, 1)) + bytes(12)
            self.assertEqual(book.receive(mail, 1, 0, 0)[1], ((1, row), number))

    def test_an_entry_changes_by_events_of_its_desk(self):
        for seed in range(1, 41):
            for run in written(seed).runs:
                for event in run.events:
                    self.hold(run, event)

    def hold(self, run, event):
        """In bytes the row changes for just the desks with an event behind this one, not the one before."""
        held, row = (run.row(one.pairs if one else ()) for one in (event.before, event))
        told = {other.desk for other in event.past - line.past_of(event.before)}
        self.assertEqual({at // 2 for at in range(16) if held[at] != row[at]}, told)
        if event.mail:
            self.assertEqual(line.learnt(event), len(told) - 1)

    def test_seeds_tell_of_every_number(self):
        stored.check_learnt([run for seed in range(1, 101) for run in written(seed).runs])


# Pictures by hand, and against the history.

PICTURES = b"""\
start 003 005 009 009 009 002 004 002 002
picture
local 000 001
local 001 001
local 002 001
picture 000 001 002
send 000 001 001
receive 001 000 001
picture 003 004 002
picture 000 004 002
send 001 002 001
receive 002 000 001
picture 003 005 006
picture 003 004 006
picture 000 001 006
picture 000 004 006
picture 003 004
picture 003 004 002 002
picture 256 004 002
picture 003 004 031
picture 004 003 002
picture 003 003 002
reset 000 000
reset 000 001
local 000 001
picture 007 005 006
picture 008 005 006
picture 005 008 006
picture 000 008 006
picture 000 001 002 000 001 002 000 001 002 000 001 002 000 001
picture 000 001 002 000 001 002 000 001 002 000 001 002 000 001 002
picture\x20
"""

PICTURES_ANSWERS = b"""\
000
005
000 000 000.001 000.000 000.000 000
000 001 000.000 000.001 000.000 001
000 002 000.000 000.000 000.001 002
000 yes
000 000 000 000.002 000.000 000.000 003
000 001 000.002 000.002 000.000 001 004
000 yes
000 000 001
000 000 001 000.002 000.003 000.000 005
000 002 000.002 000.003 000.002 002 006
000 yes
000 001 002
000 000 002
000 000 001
005
005
005
005
018
018
000 000 001.000 000.000 000.000
000 000 002.000 000.000 000.000 007
000 000 002.001 000.000 000.000 008
000 yes
016
016
016
005
017
017
"""


def on_shelf(given, slot, owner, *pairs):
    """The book with a stamp of these pairs in a slot."""
    at = book.slot_at(slot)
    kept = book.SHELF_MARK + bytes((owner + 1, 0)) + label(owner, *pairs)[4:]
    return given[:at] + kept + given[at + 20:]


TWO = X._replace(D=2, limits=(4, 4))

# Of a desk at phase 0 its own pair, what the other knows of it, and the answer.
YES, ODDS, TOO_FAR = (0, (True,)), (0, (0, 1)), (book.OUT_OF_REACH, ())
TWO_PAIRS = (
    ((0, 1), (0, 0), YES), ((0, 1), (0, 1), YES), ((0, 1), (0, 2), ODDS), ((0, 2), (0, 1), YES),
    ((0, 0), (0, 0), YES), ((0, 0), (0, 1), ODDS), ((4, 3), (0, 0), ODDS), ((0, 0), (4, 3), YES),
    ((4, 1), (4, 2), ODDS), ((4, 2), (4, 1), YES), ((3, 3), (4, 0), ODDS), ((4, 1), (3, 3), YES),
    ((3, 1), (0, 0), TOO_FAR), ((3, 0), (0, 3), TOO_FAR), ((0, 1), (3, 3), TOO_FAR),
    ((0, 0), (3, 3), YES), ((0, 0), (2, 0), TOO_FAR), ((1, 0), (1, 0), YES), ((1, 0), (1, 3), ODDS),
)


def pictured(given, *slots):
    return book.picture(given, *slots)[:2]


class Picturing(unittest.TestCase):
    def test_by_hand(self):
        self.assertEqual(listing.answers(PICTURES), PICTURES_ANSWERS)

    def test_later_by_the_difference_and_at_0_by_the_clock(self):
        for own, known, answer in TWO_PAIRS:
            given = on_shelf(fresh(TWO), 5, 0, own, (0, 1))
            given = on_shelf(given, 9, 1, known, (0, 1))
            self.assertEqual(pictured(given, 5, 9), answer, (own, known))
            given = on_shelf(fresh(TWO), 5, 0, (0, 1), known)
            given = on_shelf(given, 9, 1, (0, 1), own)
            self.assertEqual(pictured(given, 5, 9), answer, (own, known))

    def test_each_knows_more_of_the_other(self):
        """As no run leads to."""
        given = on_shelf(fresh(TWO), 0, 0, (0, 1), (0, 2))
        given = on_shelf(given, 1, 1, (0, 2), (0, 1))
        self.assertEqual(pictured(given, 0, 1), (0, (0, 1)))

    def test_the_lowest_first_then_the_lowest_second(self):
        setup = X._replace(D=4, limits=(4,) * 4)
        for told, answer in (({}, (True,)), ({(3, 0), (2, 1)}, (0, 3)), ({(0, 3), (1, 2)}, (0, 3)),
                             ({(0, 3), (2, 0)}, (0, 2)), ({(2, 3), (3, 1)}, (1, 3)), ({(3, 2)}, (2, 3)),
                             ({(1, 0), (0, 1)}, (0, 1)), ({(1, 2), (1, 3), (2, 3)}, (1, 2))):
            given = fresh(setup)
            for desk in range(4):
                pairs = [(0, 2 if (desk, other) in told else 1) for other in range(4)]
                given = on_shelf(given, 10 + desk, desk, *pairs)
            self.assertEqual(pictured(given, 10, 11, 12, 13), (0, answer), told)

    def test_refusals_in_their_order(self):
        """Slots 0 and 1 are right, 2 is desk 0's and out of reach of 0, 3 is desk 0's and within reach."""
        given = on_shelf(fresh(TWO), 0, 0, (0, 1), (0, 0))
        given = on_shelf(given, 1, 1, (0, 1), (0, 1))
        given = on_shelf(given, 2, 0, (3, 1), (0, 0))
        given = on_shelf(given, 3, 0, (4, 1), (0, 0))
        for slots, number in (((0, 1), 0), ((0, 3), 18), ((3, 0), 18), ((1, 0), 18), ((0, 0), 18),
                              ((1, 1), 18), ((0, 2), 16), ((2, 0), 16), ((2, 1), 16), ((1, 2), 16),
                              ((), 5), ((0,), 5), ((2,), 5), ((0, 1, 1), 5), ((0, 2, 3), 5),
                              ((2, 31), 5), ((3, 32), 5), ((1, 0, 31), 5), ((0, 1) * 128, 5)):
            self.assertEqual(book.picture(given, *slots)[0], number, slots)
            unsound = b"\0" + given[1:]
            self.assertEqual(book.picture(unsound, *slots), (book.BAD_BOOK, (), unsound))
        for big in (32, 256, 2**16, 2**32, 2**63, 2**64 - 1, 2**64):
            for slots in ((big, 1), (big + 1, 1), (0, big), (0, big + 1)):
                self.assertEqual(book.picture(given, *slots), (book.NO_PLACE, (), given))

    def test_reach_is_asked_at_the_owner_of_the_stamp(self):
        """Swapped, desk 0's stamp reaches the other though at the place's desk it would not, and the reverse."""
        far, near = (3, 1), (0, 1)
        given = on_shelf(on_shelf(fresh(TWO), 0, 0, near, near), 1, 1, near, far)
        self.assertEqual(pictured(given, 1, 0), (book.OUT_OF_REACH, ()))
        given = on_shelf(on_shelf(fresh(TWO), 0, 1, near, near), 1, 1, far, near)
        self.assertEqual(pictured(given, 0, 1), (book.WRONG_OWNER, ()))
        self.assertEqual(pictured(given, 1, 0), (book.WRONG_OWNER, ()))

    def test_ordinary_vectors_count_the_past(self):
        for run in (run for seed in range(1, 21) for run in written(seed).runs):
            for event in run.events:
                counts = [sum(one.desk == desk for one in event.past) for desk in range(run.D)]
                self.assertEqual(event.counts, counts)

    def test_sets_and_vectors_show_the_same(self):
        """Of any events, kept or not, within reach or not; no two are at odds both ways."""
        rng, seen = random.Random(5), set()
        for run in (run for seed in range(1, 41) for run in written(seed).runs):
            made = [[event for event in run.events if event.desk == desk] for desk in range(run.D)]
            for _ in range(10 if all(made) else 0):
                chosen = [rng.choice(events[-rng.randint(1, len(events)):]) for events in made]
                self.assertEqual(run.pictured(chosen), run.pictured_by_counts(chosen))
                self.hold_one_way(run, chosen)
                seen.add(run.pictured(chosen))
        self.assertLessEqual({(True,), (0, 1), (0, 2), (1, 2)}, seen)
        self.assertGreater(len(seen), 12)

    def hold_one_way(self, run, chosen):
        for e, f in itertools.combinations(chosen, 2):
            self.assertFalse(f.counts[e.desk] > e.counts[e.desk] and e.counts[f.desk] > f.counts[f.desk])

    def test_the_present_is_a_picture(self):
        """The last event of each desk, whatever has come round."""
        for run in (run for seed in range(1, 41) for run in written(seed).runs):
            if all(run.last):
                self.assertEqual(run.pictured(run.last), (True,))

    def test_seeds_take_every_picture(self):
        seen = {picture for seed in range(1, 101) for picture in pictures_in(told(seed))}
        self.assertEqual({answer[:3] for _, answer, _ in seen}, {b"000", b"001", b"005", b"016", b"018"})
        two = {answer for _, answer, _ in seen if answer.count(b" ") == 2}
        self.assertGreater(len(two), 15)
        for more in (-1, 0, 1):
            self.assertIn((more, b"005"), {one[:2] for one in seen})
        for answer in (b"000 yes", b"000 000 001", b"016", b"018"):
            self.assertIn((0, answer, True), seen)


def pictures_in(lines):
    """How many slots there are beside D, the answer, and whether each desk has come round."""
    for one in lines:
        verb, slots = listing.parse(one.text) or (None, ())
        if verb == "picture":
            yield len(slots) - len(one.limits), one.answer, one.come_round


# Summaries by hand, the office and who may reset.

# Under X desk 0 has turned to 1, desk 1 knows it at 4 and desk 2 has not started; two mails wait, one stamp is kept.
UNEVEN = (
    b"BK" + bytes((3, 5, 0, 2, 4, 2, 2)) + bytes(7)
    + b"SE\1\4" + bytes((1, 2, 4, 0, 0, 1)) + bytes(10)
    + b"SE\1\4" + bytes((4, 3, 0, 1, 0, 0)) + bytes(10)
    + b"SE\0\4" + bytes(16)
    + (b"SE" + bytes(18)) * 5
    + b"MA" + bytes(18)
    + b"MA\1\2" + bytes((0, 1, 1, 0, 4, 0)) + bytes(10)
    + (b"MA" + bytes(18)) * 29
    + b"MA\3\1" + bytes((2, 0, 0, 0, 3, 3)) + bytes(10)
    + (b"SH" + bytes(18)) * 5
    + b"SH\2\0" + bytes((3, 3, 2, 0, 0, 0)) + bytes(10)
    + (b"SH" + bytes(18)) * 26
)
UNEVEN_SUMMARY = bytes.fromhex("5355 020403 010403 000200") + bytes(15)

# On the full ring desk 0 has come to 3 and desk 1 to 255; a seat, a mail and a stamp lag beyond the seam.
ROUND = (
    b"BK" + bytes((2, 0, 0, 127, 255, 127, 127)) + bytes(7)
    + b"SE\1\x14" + bytes((3, 0, 200, 0)) + bytes(12)
    + b"SE\1\x15" + bytes((132, 0, 255, 0)) + bytes(12)
    + (b"SE" + bytes(18)) * 6
    + b"MA\2\1" + bytes((5, 0, 1, 0)) + bytes(12)
    + (b"MA" + bytes(18)) * 31
    + (b"SH" + bytes(18)) * 31
    + b"SH\1\0" + bytes((4, 0, 0, 0)) + bytes(12)
)
ROUND_SUMMARY = bytes.fromhex("5355 7FFEFF 37FEFF") + bytes(18)

NO_LAGS = bytes.fromhex("5355") + bytes(24)


def counted_lags(given):
    """The summary of a sound book, by the offsets of its bytes and by remainders."""
    D, P = given[2], given[3] or 256
    own = [given[20 + 22 * desk] for desk in range(D)]
    mail = [at for at in range(176, 816, 20) if given[at + 2] > 0]
    shelf = [at for at in range(816, 1456, 20) if given[at + 2] > 0]
    summary = bytearray(NO_LAGS)
    for desk in range(D):
        seats = [16 + 20 * other for other in range(D) if other != desk]
        for kind, records in enumerate((seats, mail, shelf)):
            lags = [(own[desk] - given[at + 4 + 2 * desk]) % P for at in records]
            summary[2 + 3 * desk + kind] = max([0, *lags])
    return bytes(summary)


def some_sound_books(seed, count):
    rng = random.Random(seed)
    yield from raw.books_of_every_kind(rng)
    for _ in range(count):
        yield raw.sound_book_of(rng, raw.either_setup(rng))


class Summaries(unittest.TestCase):
    def test_by_hand(self):
        for given, summary in ((UNEVEN, UNEVEN_SUMMARY), (ROUND, ROUND_SUMMARY)):
            self.assertEqual((len(given), len(summary), book.sound(given)), (1456, 26, True))
            self.assertEqual(book.summary_of(given), summary)

    def test_of_a_fresh_book(self):
        for setup in (X, Y, FULL, UNLIKE):
            self.assertEqual(book.summary_of(fresh(setup)), NO_LAGS)

    def test_each_kind_of_row_has_its_own_number(self):
        """Of the entry for one desk, wherever the row stands and whosever it is."""
        rng = random.Random(6)
        for D, desk, lag in itertools.product((2, 3, 8), (0, 1), (1, 2)):
            setup, own = X._replace(D=D, limits=[4] * D), [rng.randrange(5) for _ in range(D)]
            for at, kind in enumerate(raw.ROWS):
                given = raw.uneven_book(rng, setup, own, desk, kind, (own[desk] - lag) % 5)
                lags = seeds.placed(bytes(24), 3 * desk + at, lag)
                self.assertEqual(book.summary_of(given), b"SU" + bytes(lags))

    def test_zeros_that_are_no_row(self):
        """The own phase is 2: zeros of seats above D, free places and slots do not lag, those of other seats do."""
        given = raw.level_book(X, [2, 0, 0])
        self.assertEqual(book.summary_of(given), NO_LAGS)
        for other in (1, 2):
            at = book.seat_at(other)
            uneven = given[:at] + b"SE\0\4" + bytes(16) + given[at + 20:]
            self.assertTrue(book.sound(uneven))
            self.assertEqual(book.summary_of(uneven), b"SU\2" + bytes(23))

    def test_counted_otherwise(self):
        seen = set()
        for given in some_sound_books(12, 300):
            summary = book.summary_of(given)
            self.assertEqual(summary, counted_lags(given))
            seen |= {(at % 3, lag) for at, lag in enumerate(summary[2:])}
        self.assertLessEqual({(0, 127), (1, 254), (2, 255), (0, 0), (1, 0), (2, 0)}, seen)

    def test_runs_have_the_same(self):
        """By true phases, whatever has come round; after every line of a listing."""
        seen = set()
        for seed in range(1, 6):
            program = listing.Program()
            for one in told(seed):
                program.answer(one.text)
                if program.run:
                    self.assertEqual(program.summary, counted_lags(program.book))
                    self.assertEqual(program.summary, program.run.summary())
                    seen.add(program.summary)
        self.assertGreater(len(seen), 100)


# Changes of the uneven book by hand, and its summary after each.
UNEVEN_CHANGES = (
    (("discard", 31), "020103 010403 000100"), (("discard", 1), "020403 010003 000200"),
    (("drop", 5), "020400 010400 000200"), (("local", 1, 0), "020403 010403 000200"),
    (("local", 0, 1), "020403 010403 000200"), (("receive", 1, 1, 0), "010403 010003 000200"),
    (("receive", 1, 1, 1), "010403 010003 000200"), (("receive", 0, 31, 0), "020103 000403 000100"),
    (("reset", 2, 0), "020403 010403 010301"), (("reset", 2, 1), "020403 010403 010301"),
    (("send", 2, 1, 0), "020403 010403 000200"), (("start", *X), "000000 000000 000000"),
)

# One after another from the first on, which begins with the uneven book: rows go, and others come in their place.
UNEVEN_RUN = (
    (("discard", 31), "020103 010403 000100"), (("discard", 1), "020003 010003 000000"),
    (("drop", 5), "020000 010000 000000"), (("send", 1, 2, 0), "020200 010000 000000"),
    (("local", 1, 1), "020202 010000 000000"), (("receive", 2, 0, 0), "020002 010000 000000"),
    (("send", 0, 1, 0), "020002 010100 000000"), (("reset", 1, 0), "020002 020201 000000"),
    (("receive", 1, 0, 0), "010002 020001 000000"), (("reset", 0, 1), "020003 020002 000000"),
    (("send", 0, 2, 0), "020003 020202 000000"), (("receive", 2, 0, 0), "010003 020002 000000"),
    (("drop", 0), "010000 020002 000000"), (("drop", 1), "010000 020000 000000"),
)


def told_by_hand(lags):
    return b"SU" + bytes.fromhex(lags) + bytes(15)


def by_the_office(name, given, summary, *numbers):
    return getattr(book, f"office_{name}")(given, summary, *numbers)


class Office(unittest.TestCase):
    def test_by_hand(self):
        """Whatever the summary was."""
        for ((verb, *numbers), lags), summary in itertools.product(
                UNEVEN_CHANGES, (UNEVEN_SUMMARY, bytes(26), b"\xff" * 26, bytes(range(26)))):
            number, values, after, told = by_the_office(verb, UNEVEN, summary, *numbers)
            self.assertEqual((number, values, after), getattr(book, verb)(UNEVEN, *numbers))
            self.assertEqual((number, told), (0, told_by_hand(lags)), (verb, *numbers))

    def test_a_run_by_hand(self):
        given, summary = UNEVEN, b"garbage of twenty-six byte"
        for (verb, *numbers), lags in UNEVEN_RUN:
            number, _, given, summary = by_the_office(verb, given, summary, *numbers)
            self.assertEqual((number, summary), (0, told_by_hand(lags)), (verb, *numbers))

    def test_start(self):
        """The book's length, the setup, the summary's length; then all 26 bytes are written."""
        good, bad = bytes(1456), X._replace(P=4)
        for length in (0, 25, 26, 27, 52):
            summary = b"\xee" * length
            self.assertEqual(book.office_start(good[1:], summary, *bad), (1, (), good[1:], summary))
            self.assertEqual(book.office_start(good, summary, *bad), (2, (), good, summary))
            answer = (0, (), fresh(X), NO_LAGS) if length == 26 else (21, (), good, summary)
            self.assertEqual(book.office_start(good, summary, *X), answer)

    def test_book_and_answer_are_those_of_the_book_alone(self):
        """And the summary is true where it is done; where it is not, it is what it was."""
        rng, seen = random.Random(13), set()
        for given, name in itertools.product(some_sound_books(13, 30), listing.CHANGES):
            numbers, summary = raw.some_change(rng, name, given), rng.choice(raw.SUMMARIES)(rng, given)
            number, values, after = getattr(book, name)(given, *numbers)
            told = counted_lags(after) if number == book.DONE else summary
            self.assertEqual(by_the_office(name, given, summary, *numbers), (number, values, after, told))
            seen.add((name, number))
        self.assertLessEqual({(name, 0) for name in listing.CHANGES}, seen)
        self.assertLessEqual({("reset", number) for number in (10, 11, 12, 13)}, seen)

    def test_the_summary_is_asked_last_and_for_its_length_alone(self):
        """Each reason of the book comes first; what is refused leaves every byte."""
        rng = random.Random(14)
        for name, reasons in raw.REASONS.items():
            for number in (*reasons, book.DONE):
                given, numbers = raw.answered_change(rng, name, number, raw.either_setup)
                for length in (0, 1, 2, 25, 27, 52, 282):
                    summary = rng.randbytes(length)
                    self.assertEqual(by_the_office(name, given, summary, *numbers),
                                     (number or book.BAD_SUMMARY, (), given, summary))
                summary = rng.randbytes(26)
                answer = by_the_office(name, given, summary, *numbers)
                self.assertEqual(answer[0], number)
                if number != book.DONE:
                    self.assertEqual(answer, (number, (), given, summary))

    def test_garbage_is_mended_by_the_next_accepted_change(self):
        """A refused one leaves it."""
        given, garbage = calls(fresh(), ("reset", 0, 0))[2], bytes(range(100, 126))
        for verb, *numbers in (("reset", 3, 0), ("drop", 0), ("discard", 9), ("send", 1, 1, 0)):
            self.assertEqual(by_the_office(verb, given, garbage, *numbers)[2:], (given, garbage))
        for (verb, *numbers), lags in ((("local", 1, 0), b"\1\0\0"), (("send", 1, 2, 1), b"\1\1\1")):
            self.assertEqual(by_the_office(verb, given, garbage, *numbers)[3], b"SU" + lags + bytes(21))

    def test_a_false_summary_is_mended(self):
        """Also where the change itself lowers and raises nothing."""
        rng = random.Random(15)
        for given in some_sound_books(15, 20):
            desk = next((desk for desk in range(given[2]) if book.local(given, desk, 0)[0] == 0), None)
            if desk is not None:
                told = {book.office_local(given, made(rng, given), desk, 0)[3] for made in raw.SUMMARIES}
                self.assertEqual(told, {book.summary_of(given)})


# Under X these do not read: by their length, their mark or a lag.
NO_SUMMARIES = (b"", b"SU", NO_LAGS[:25], NO_LAGS + b"\0", bytes(26), b"SV" + bytes(24), b"TU" + bytes(24),
                b"SU\3" + bytes(23), b"SU" + bytes(23) + b"\5", b"SU" + b"\xff" * 24)


def by_lags(setup, seats, mail, shelf):
    """What a reset is answered by three lags that are permitted."""
    return next((number for number, lag, bound in
                 ((11, seats, setup.M), (12, mail, 2 * setup.M), (13, shelf, setup.A)) if lag == bound), 0)


class May(unittest.TestCase):
    def test_by_hand(self):
        self.assertEqual(listing.answers(stored.MAY), stored.MAY_ANSWERS)
        for given, summary, answers in ((UNEVEN, UNEVEN_SUMMARY, (11, 12, 0)), (ROUND, ROUND_SUMMARY, (11, 12))):
            for desk, number in enumerate(answers):
                self.assertEqual(book.may(book.setup_of(given), summary, desk), (0, (number,)))
                self.assertEqual(book.reset(given, desk, 0)[0], number)

    def test_refusals_in_their_order(self):
        for setup, desk, summary in itertools.product(
                (X, X._replace(P=4), X._replace(limits=(4, 4)), X._replace(D=0)),
                (0, 2, 3, 7, 8, 255, 256, 2**32, 2**64 - 1, 2**64), (NO_LAGS, *NO_SUMMARIES)):
            number = 2 if setup != X else 3 if desk > 2 else 21 if summary != NO_LAGS else 0
            values = (0,) if number == 0 else ()
            self.assertEqual(book.may(setup, summary, desk), (number, values), (setup, desk, summary))

    def test_every_byte_of_every_lag(self):
        """All eight desks' are asked, and what is told is told by the three of the one that is asked about."""
        for setup in (X, FULL, ROOMY._replace(D=8, limits=(9,) * 8)):
            for at, lag in itertools.product(range(24), range(256)):
                desk = at // 3 if at // 3 < setup.D else 0
                summary = b"SU" + bytes(seeds.placed(bytes(24), at, lag))
                bound = (setup.M, 2 * setup.M, setup.A)[at % 3]
                told = 11 + at % 3 if lag == bound and desk == at // 3 else 0
                answer = (0, (told,)) if lag <= bound else (21, ())
                self.assertEqual(book.may(setup, summary, desk), answer, (at, lag))
                other = (desk + 1) % setup.D
                self.assertEqual(book.may(setup, summary, other)[1], (0,) if lag <= bound else ())

    def test_lengths_and_marks(self):
        long = UNEVEN_SUMMARY + bytes(300)
        for length in (*range(60), 255, 256, 282):
            self.assertEqual(book.may(X, long[:length], 0)[0], 0 if length == 26 else 21)
        for at, byte in itertools.product((0, 1), range(256)):
            marked = raw.with_byte(UNEVEN_SUMMARY, at, byte)
            self.assertEqual(book.may(X, marked, 2)[0], 0 if byte == b"SU"[at] else 21)

    def test_the_first_of_three_decides(self):
        for setup in (X, FULL, Y, ROOMY):
            bounds = setup.M, 2 * setup.M, setup.A
            for lags in itertools.product(*((0, bound - 1, bound) for bound in bounds)):
                summary = b"SU" + bytes((*lags, 0, 0, 0)) + bytes(18)
                self.assertEqual(book.may(setup, summary, 0), (0, (by_lags(setup, *lags),)))
                self.assertEqual(book.may(setup, summary, 1), (0, (0,)))

    def test_it_is_what_a_reset_would_be_answered(self):
        """On any sound book; kept, the same but for a full shelf, which comes first."""
        seen = set()
        for given in some_sound_books(16, 200):
            setup, summary = book.setup_of(given), book.summary_of(given)
            for desk in range(setup.D):
                (number,) = book.may(setup, summary, desk)[1]
                full = all(book.slot_used(given, slot) for slot in range(32))
                self.assertEqual(book.reset(given, desk, 0)[0], number)
                self.assertEqual(book.reset(given, desk, 1)[0], 10 if full else number)
                seen.add((number, full, setup.P == 256))
        self.assertEqual(seen, set(itertools.product((0, 11, 12, 13), (False, True), (False, True))))

    def test_it_is_what_a_reset_of_a_run_would_be_answered(self):
        """After every line, for every desk, from the summary that the program has held all along."""
        seen = set()
        for seed in range(6, 12):
            program = listing.Program()
            for one in told(seed):
                program.answer(one.text)
                for desk in range(program.run.D if program.run else 0):
                    number, (told_number,) = book.may(program.run.setup, program.summary, desk)
                    self.assertEqual((number, told_number), (0, book.reset(program.book, desk, 0)[0]))
                    self.assertEqual(program.run.may(desk), (0, (told_number or True,)))
                    seen.add(told_number)
        self.assertEqual(seen, {0, 11, 12, 13})

    def test_it_goes_by_what_it_is_told(self):
        """A summary that is false of every book, or another setup than the book's."""
        self.assertEqual(book.may(X, b"SU\2" + bytes(23), 0), (0, (11,)))
        self.assertEqual(book.may(X._replace(P=7, M=3), b"SU\2" + bytes(23), 0), (0, (0,)))
        self.assertEqual(book.may(X._replace(M=1), b"SU\2" + bytes(23), 0), (21, ()))

    def test_the_program_from_zeros_on(self):
        """There is no setup before an accepted start, and refused ones leave the summary."""
        program = listing.Program()
        for text in (b"may 000", b"may 255", b"may 999", b"start 002 004 004 004 002 002 001 001", b"may 000",
                     b"start 002 005 004 002 002 001 001", b"reset 000 000", b"drop 000", b"may 008"):
            answer = program.answer(text)
            self.assertEqual(answer == "002", text.startswith(b"may") or b"start 002 004" in text, text)
            self.assertEqual((program.book, program.summary), (bytes(1456), bytes(26)))
        program.answer(b"start 002 005 004 004 002 002 001 001")
        self.assertEqual((program.answer(b"may 000"), program.summary), ("000 yes", NO_LAGS))

    def test_shapes(self):
        for bad in stored.MAY_SHAPES:
            for given in (b"", b"start 002 005 004 004 002 002 001 001\n"):
                self.assertEqual(listing.answers(given + bad).split(b"\n")[-2], b"017", bad)

    def test_seeds_ask_it_everywhere(self):
        """Each answer, beside the reset it speaks of, where lags are lowered, of no desk and before any start."""
        facts = [stored.may_facts([one.text for one in told(seed)]) for seed in range(1, 31)]
        seen = stored.MayFacts(*(set().union(*parts) for parts in zip(*facts)))
        self.assertEqual(seen.at, {(*full, number) for full, number in stored.MAY_AT.items()})
        self.assertEqual((seen.below, seen.zeros), ({"seat", "mail", "slot"}, {"seat", "mail", "slot"}))
        self.assertLessEqual({(number, keep, number) for number in (0, 11, 12, 13) for keep in (0, 1)}, seen.resets)
        self.assertIn((0, 1, 10), seen.resets)
        self.assertLessEqual({(13, "drop 0", 0), (12, "discard 0", 0), (11, "receive 0", 0)}, seen.lowered)
        self.assertLessEqual({2, 3, 8}, seen.unstarted)
        answers = {(one.answer, bool(one.limits)) for seed in range(1, 101) for one in told(seed)
                   if listing.parse(one.text) and one.text.startswith(b"may")}
        self.assertEqual(answers, {(b"002", False), *((answer, True) for answer in
                                                      (b"000 yes", b"000 011", b"000 012", b"000 013", b"003"))})

    def test_the_check_misses_each(self):
        """Whatever is lacking of what may should answer, and of the lines that ask it."""
        facts = stored.may_facts([text for section in MAY_SECTIONS for text, _ in section_of(section)])
        with mock.patch.object(stored, "may_facts", lambda _: facts):
            stored.check_may(())
        for name, wanted in (("at", {(*full, number) for full, number in stored.MAY_AT.items()}),
                             ("below", {"seat", "mail", "slot"}), ("zeros", {"seat", "mail", "slot"}),
                             ("unstarted", {2, 8}), ("resets", stored.MAY_RESETS), ("lowered", stored.MAY_LOWERED),
                             ("beyond", {(desk, *lag) for desk in (0, 1) for lag in stored.SEAM_LAGS})):
            for fact in wanted:
                lacking = facts._replace(**{name: getattr(facts, name) - {fact}})
                with mock.patch.object(stored, "may_facts", lambda _: lacking), \
                        self.assertRaises(AssertionError, msg=(name, fact)):
                    stored.check_may(())

    def test_the_check_misses_lines(self):
        lines = [one for one in stored_lines() if one[0].startswith((b"may", b"start"))]
        stored.check_may_lines(*zip(*lines))
        for text in (b"may 000", b"may 007", b"may 255", b"may 256", b"may 999", b"may", b"may 0",
                     b"may 000 000", b"may  000", b"mays 000"):
            with self.assertRaises(AssertionError, msg=text):
                stored.check_may_lines(*zip(*(one for one in lines if one[0] != text)))


MAY_SECTIONS = (stored.may_by_hand, *stored.MAY_SECTIONS, *stored.LONG_MAY_SECTIONS, stored.may_beyond_the_seam)


def section_of(section):
    """The stored lines and answers of a section."""
    begins = list(stored.written().begins)
    return stored_between(section, begins[begins.index(section) + 1])


# The reach by the resets themselves, against the reach in phases.

def resets_about(run, e):
    """The m-th reset before e at its desk and the n-th after it; None where there are fewer."""
    resets = [event for event in run.events if event.is_reset and event.desk == e.desk]
    before = [reset for reset in resets if run.leads(reset, e)]
    after = [reset for reset in resets if run.leads(e, reset)]
    return (before[-run.m] if run.m <= len(before) else None,
            after[run.n - 1] if run.n <= len(after) else None)


def reached(first, last, f):
    """The first is f or leads to f, as the beginning does to all; the last does neither."""
    return (first is None or first in f.past) and (last is None or last not in f.past)


class Reach(unittest.TestCase):
    def test_phases_count_resets(self):
        seen = set()
        for seed in range(1, 101):
            for run in written(seed).runs:
                for e in run.events:
                    seen |= self.hold(run, e)
        edges = itertools.product((False, True), ("back", "ahead"), (-1, 0, 1))
        self.assertLessEqual(set(edges), seen)

    def hold(self, run, e):
        """How far the events are from each edge, by the kind of e."""
        first, last = resets_about(run, e)
        for f in run.events:
            self.assertEqual(run.within_reach(e, f), reached(first, last, f))
        differences = {run.difference(e, f) for f in run.events}
        return ({(e.is_reset, "back", run.m + d) for d in differences}
                | {(e.is_reset, "ahead", run.n - d) for d in differences})


class Text(unittest.TestCase):
    def test_ends(self):
        self.assertEqual(listing.answers(b""), b"")
        self.assertEqual(listing.answers(b"\n"), b"017\n")
        self.assertEqual(listing.answers(b"\n\n"), b"017\n017\n")
        self.assertEqual(listing.answers(b"local 000 000"), b"001\n")
        self.assertEqual(listing.answers(b"local 000 001\n\n"), b"001\n017\n")

    def test_shapes(self):
        for bad in (b"local 7 000", b"local 0007 000", b"local  007 000", b"local 007 000 ",
                    b" local 007 000", b"Local 007 000", b"local\t007 000", b"local 007 000\r", b"local",
                    b"local 00\xb2 000", b"show 000", b"keep 000", b"keep 000 001", b"drop 000 000",
                    b"local 000 000" + b" " * 60, b"local 007 000\0"):
            self.assertEqual(listing.answers(bad), b"017\n", bad)

    def test_start_lines(self):
        """Six numbers beside the limits; a bad D is a BadSetup, a good one that is not the count a BadLine."""
        for D, count in itertools.product((*range(300), 512, 999), range(-6, 12)):
            numbers = (D, 5, *[4] * count, 2, 4, 2, 2)[:6 + count]
            answer = b"017\n" if count < 0 or count > 8 else b"002\n"
            if D in range(2, 9):
                answer = b"000\n" if count == D else b"017\n"
            self.assertEqual(listing.answers(seeds.text_of("start", *numbers)), answer, numbers)

    def test_start_lines_by_hand(self):
        for number, numbers in stored.START_LINES:
            text = b" ".join([b"start", *numbers.encode().split()])
            self.assertEqual(listing.answers(text), b"%03d\n" % number, text)
        longest = b"start 008 005 004 002 255 003 002 200 010 254 002 004 002 002"
        self.assertEqual((len(longest), listing.answers(longest)), (61, b"000\n"))
        for more in (b" ", b"0", b" 0", b" 00", b" 002", b"\r", b"\0", b"   "):
            self.assertEqual(listing.answers(longest + more), b"017\n")

    def test_a_refused_start_leaves_the_book(self):
        """Both a BadSetup and a BadLine."""
        given = b"start 002 005 004 002 002 004 002 002\nlocal 001 000\n"
        for text in (b"start 009 005 004 002 002 004 002 002", b"start 002 005 009 002 004 002 002",
                     b"start 002 005 009 001 002 004 002 002", b"start 002 005 009 009 009 002 004 002 002"):
            printed = listing.answers(given + text + b"\nlocal 001 000\nlocal 000 000\n")
            self.assertEqual(printed.split(b"\n")[3:5], [b"008", b"000 000 000.001 000.000"])

    def test_seeds_write_every_start_line(self):
        """Each D with its count of limits and with others, few numbers, and a D that is none."""
        seen = {one for seed in range(1, 101) for one in starts_in(told(seed))}
        self.assertLessEqual({(D, 0, b"000") for D in range(2, 9)}, seen)
        self.assertLessEqual({(2, more, b"017") for more in (-2, -1, 1, 6)}, seen)
        self.assertLessEqual({(8, more, b"017") for more in (-8, -1, 1)}, seen)
        for D in (0, 1, 9, 255, 256, 999):
            self.assertLess(1, len({more for desks, more, answer in seen if (desks, answer) == (D, b"002")}))
        self.assertEqual({answer for _, more, answer in seen if more is None}, {b"017"})

    def test_the_last_number_of_an_event(self):
        """Any but 000 and 001 is a BadLine, whatever the call would answer."""
        mail = b"start 003 005 004 004 004 002 004 002 002\nsend 000 001 000\n"
        for event in (b"local 000", b"send 000 001", b"receive 001 000", b"reset 000",
                      b"local 999", b"send 000 000", b"receive 000 000", b"reset 003"):
            for last in (b" 002", b" 010", b" 100", b" 256", b" 999", b"", b" 000 000", b" 001 001"):
                for given in (b"", mail):
                    self.assertEqual(listing.answers(given + event + last).split(b"\n")[-2], b"017")
            for last in (b" 000", b" 001"):
                self.assertNotIn(b"017", listing.answers(mail + event + last))


def starts_in(lines):
    """Of each start line with a D: its D, how many limits there are more, and the answer."""
    for text, answer, *_ in lines:
        shape = listing.SHAPE.fullmatch(text)
        if shape and shape[1] == b"start" and shape[2]:
            D, count = int(shape[2][1:4]), len(shape[2]) // 4 - 6
            yield D, count - D if count >= 0 else None, answer


class Stored(unittest.TestCase):
    def test_files_are_what_is_written(self):
        folder = os.path.join(os.path.dirname(os.path.abspath(__file__)),
                              "..", "crates", "desks")
        for name, data in zip(("stdin", "stdout"), stored_listing()):
            with open(os.path.join(folder, name), "rb") as file:
                self.assertEqual(file.read(), data, name)


# The errors the desks would make, each put in place of a part of book.py.

TRUE = {name: getattr(book, name) for name in
        ("local", "send", "receive", "reset", "reset_number", "lag_number", "merge", "later",
         "answer_compare", "local_number", "send_number", "receive_number", "put_on_shelf",
         "shelf_full", "says_before", "row_sound", "seats_sound", "mail_sound", "shelf_sound",
         "used_place_sound", "reach", "compare", "label_compare", "difference_on_book",
         "difference_off_book", "permitted", "limited", "start", "fresh_head", "sound",
         "read_both", "read_stamp", "picture", "picture_number", "chosen_number", "at_odds",
         "knows_more", "lag_behind", "next_phase", "phases_told", "phases_byte", "summary_of",
         "through_office", "may", "summary_reads", "told_of_lags", "lags_told")}


def lag_without_adding_P(own, phase, P):
    return own - phase


def own_above_v_subtracts(own, phase, P):
    return own - phase if own > phase else own + P - phase


def larger_byte_is_later(given, desk, held, told):
    return max(held, told), told > held


def nought_is_nothing(given, desk, held, told):
    return larger_byte_is_later(given, desk, held, told) if bytes(2) in (held, told) \
        else TRUE["later"](given, desk, held, told)


def nought_is_never_seen(e, f, d):
    known = f.row[2 * e.owner:2 * e.owner + 2]
    return known != bytes(2) and TRUE["says_before"](e, f, d)


def place_stays_used(given, desk, place, keep):
    number, values, after = TRUE["receive"](given, desk, place, keep)
    if number == book.DONE:
        at = slice(book.place_at(place), book.place_at(place + 1))
        after = after[:at.start] + given[at] + after[at.stop:]
    return number, values, after


def refused_receipt_frees(given, desk, place, keep):
    number, values, after = TRUE["receive"](given, desk, place, keep)
    if number in (book.NOT_YOURS, book.PHASE_FULL):
        after = book.discard(given, place)[2]
    return number, values, after


def receipt_without_a_slot_frees(given, desk, place, keep):
    number, values, after = TRUE["receive"](given, desk, place, keep)
    if number == book.SHELF_FULL:
        after = book.discard(given, place)[2]
    return number, values, after


def receipt_without_a_slot_is_made(given, desk, place, keep):
    number, values, after = TRUE["receive"](given, desk, place, keep)
    if number == book.SHELF_FULL:
        after = TRUE["receive"](given, desk, place, 0)[2]
    return number, values, after


def only_seats_are_checked(given, desk):
    number = TRUE["lag_number"](given, desk)
    return book.DONE if number in (book.MAIL_BEHIND, book.SHELF_BEHIND) else number


def lags_before_the_shelf(given, desk, keep):
    return TRUE["reset_number"](given, desk, 0) or TRUE["reset_number"](given, desk, keep)


def shelf_before_the_phase(given, desk, keep):
    number = TRUE["local_number"](given, desk, keep)
    full = number == book.PHASE_FULL and TRUE["shelf_full"](given, keep)
    return book.SHELF_FULL if full else number


def shelf_before_the_mail(given, desk, to, keep):
    number = TRUE["send_number"](given, desk, to, keep)
    full = number == book.MAIL_FULL and TRUE["shelf_full"](given, keep)
    return book.SHELF_FULL if full else number


def the_shelf_is_always_asked(given, keep):
    return TRUE["shelf_full"](given, 1)


def kept_without_being_asked(after, desk, keep):
    asked = keep or book.lowest_free_slot(after) is not None
    slot = TRUE["put_on_shelf"](after, desk, int(asked))
    return slot if keep else ()


def slot_without_a_stamp(after, desk, keep):
    return TRUE["put_on_shelf"](bytearray(after), desk, keep)


def the_highest_free_slot(after, desk, keep):
    free = [slot for slot in range(32) if not book.slot_used(after, slot)]
    with mock.patch.object(book, "lowest_free_slot", lambda _: free[-1]):
        return TRUE["put_on_shelf"](after, desk, keep)


def kept_before_the_clock_grows(after, desk, keep):
    """The row that the seat had before a local, a send or a receive."""
    seated = bytearray(after)
    seated[book.own_entry(desk) + 1] = max(0, after[book.own_entry(desk) + 1] - 1)
    slot = TRUE["put_on_shelf"](seated, desk, keep)
    after[book.SHELF_AT:] = seated[book.SHELF_AT:]
    return slot


def kept_by_the_last_byte(after, desk, keep):
    return TRUE["put_on_shelf"](after, desk, keep % 256)


def own_phase_from_mail(after, given, desk, place):
    after[book.own_entry(desk)] = given[book.place_at(place) + 4 + 2 * desk]
    return TRUE["merge"](after, given, desk, place)


def own_later(given, desk, place):
    """Of the receiver's own pair and the one in its mail."""
    own, mail = book.own_entry(desk), book.place_at(place) + 4 + 2 * desk
    return TRUE["later"](given, desk, given[own:own + 2], given[mail:mail + 2])


def own_entry_is_merged(after, given, desk, place):
    after[book.own_entry(desk) + 1] = min(own_later(given, desk, place)[0][1], 254)
    return TRUE["merge"](after, given, desk, place)


def the_own_entry_counts(after, given, desk, place):
    """It always grows."""
    return TRUE["merge"](after, given, desk, place) + 1


def the_own_entry_in_mail_counts(after, given, desk, place):
    return TRUE["merge"](after, given, desk, place) + own_later(given, desk, place)[1]


def an_equal_pair_counts(given, desk, held, told):
    pair = TRUE["later"](given, desk, held, told)[0]
    return pair, pair == told


def an_older_pair_counts(given, desk, held, told):
    return TRUE["later"](given, desk, held, told)[0], held != told


def nought_is_no_news(given, desk, held, told):
    pair, changed = TRUE["later"](given, desk, held, told)
    return pair, changed and pair != bytes(2)


def bytes_beside_the_mail_count(after, given, desk, place):
    """Those in which mail and row differ, but for the own entry."""
    TRUE["merge"](after, given, desk, place)
    rows = (book.row_at(given, at) for at in (book.seat_at(desk), book.place_at(place)))
    return sum(one != other for at, (one, other) in enumerate(zip(*rows)) if at // 2 != desk)


def bytes_that_change_count(after, given, desk, place):
    TRUE["merge"](after, given, desk, place)
    rows = (book.row_at(one, book.seat_at(desk)) for one in (given, after))
    return sum(one != other for one, other in zip(*rows))


def told_or_not(after, given, desk, place):
    return min(1, TRUE["merge"](after, given, desk, place))


def the_slot_stands_first(given, desk, place, keep):
    number, values, after = TRUE["receive"](given, desk, place, keep)
    return number, (*values[:1], *values[:0:-1]), after


def unreachable_is_concurrent(e, f, d, back):
    if (d is None) != (back is None):
        return book.DONE, ("concurrent",)
    return TRUE["answer_compare"](e, f, d, back)


def any_filler(row, setup, own, most):
    return TRUE["row_sound"](row[:2 * setup.D] + bytes(16 - 2 * setup.D), setup, own, most)


def phases_come_round(row, setup, own, most):
    """A phase off the ring is read by its remainder."""
    rounded = bytes(byte if at % 2 else byte % setup.P for at, byte in enumerate(row))
    return TRUE["row_sound"](rounded, setup, [phase % setup.P for phase in own], most)


def one_more_lag(row, setup, own, most):
    return TRUE["row_sound"](row, setup, own, most + 1)


def to_oneself_is_sound(given, at, setup):
    return TRUE["used_place_sound"](given, at, setup) or given[at + 2] == given[at + 3]


# Limits

def the_first(limits):
    return limits[:1] * len(limits)


def the_next(limits):
    return limits[1:] + limits[:1]


def the_smallest(limits):
    return (min(limits),) * len(limits)


def the_largest(limits):
    return (max(limits),) * len(limits)


def one_more(limits):
    return tuple(limit + 1 for limit in limits)


def one_less(limits):
    return tuple(limit - 1 for limit in limits)


# The first four are limits that bytes hold.
OTHER_LIMITS = (the_first, the_next, the_smallest, the_largest, one_more, one_less)


def named(name, error, *parts):
    """An error with its name told by what it is made of."""
    error.__name__ = " ".join([name, *(part if isinstance(part, str) else part.__name__ for part in parts)])
    return name, error


def full_by(limits):
    """An error: a phase is full by other limits."""
    def full(given, desk):
        return given[book.own_entry(desk) + 1] >= limits(book.setup_of(given).limits)[desk] - 1
    return named("phase_full", full, limits)


def full_by_desk(name, desk_of):
    """An error: in one event the phase is full by the limit of the other desk."""
    def number(given, desk, other, keep):
        def full(given, desk):
            limit = given[book.limit_at(desk_of(given, other))]
            return given[book.own_entry(desk) + 1] >= limit - 1
        with mock.patch.object(book, "phase_full", full):
            return TRUE[name](given, desk, other, keep)
    return named(name, number, desk_of)


def the_addressee(given, to):
    return to


def the_sender(given, place):
    return given[book.place_at(place) + 2] - 1


def rows_by(limits):
    """An error: every row of a book is held to other limits."""
    def row_sound(row, setup, own, most):
        return TRUE["row_sound"](row, setup._replace(limits=limits(setup.limits)), own, most)
    return named("row_sound", row_sound, limits)


def any_clock(row, setup, own, most):
    return TRUE["row_sound"](row, setup._replace(limits=[256] * setup.D), own, most)


def rows_of(name, records, desk_of, of_two):
    """An error: one kind of row is held to the limit of a desk that it names, or to one of the two."""
    def part(given):
        with mock.patch.object(book, "row_sound", any_clock):
            if not TRUE[name](given):
                return False
        limits = book.setup_of(given).limits
        return all(clock < of_two(limit, limits[desk_of(given, record)])
                   for record in records if given[record + 2]
                   for limit, clock in zip(limits, given[record + 5:record + 20:2]))
    return named(name, part, desk_of, of_two)


def the_desk_of_the_seat(given, record):
    return (record - book.SEAT_AT) // 20


def the_sender_or_owner(given, record):
    return given[record + 2] - 1


def the_addressee_of_the_mail(given, record):
    return given[record + 3] - 1


def the_desks_alone(column, desk):
    return desk


KINDS_OF_ROWS = (
    ("seats_sound", range(book.SEAT_AT, book.MAIL_AT, 20), the_desk_of_the_seat),
    ("mail_sound", range(book.MAIL_AT, book.SHELF_AT, 20), the_sender_or_owner),
    ("mail_sound", range(book.MAIL_AT, book.SHELF_AT, 20), the_addressee_of_the_mail),
    ("shelf_sound", range(book.SHELF_AT, book.BOOK_BYTES, 20), the_sender_or_owner),
)


def reads_by(limits):
    """An error: a record reads under other limits."""
    def read_stamp(setup, record):
        changed = limits(tuple(setup.limits))
        return TRUE["read_stamp"](setup._replace(limits=changed), record)
    return named("read_stamp", read_stamp, limits)


def the_owners_limit_reads(setup, record):
    owner = record[2] if len(record) > 2 and record[2] < setup.D else 0
    return TRUE["read_stamp"](setup._replace(limits=[setup.limits[owner]] * setup.D), record)


def started_with(limits):
    """An error: start writes other limits."""
    def fresh_head(D, P, given, *lags):
        return TRUE["fresh_head"](D, P, limits(tuple(given)), *lags)
    return named("fresh_head", fresh_head, limits)


def a_limit_above_D(D, P, limits, *lags):
    head = TRUE["fresh_head"](8, P, [*limits, *[2] * (8 - D)], *lags)
    return raw.with_byte(head, 2, D)


def the_limit_in_the_header(D, P, limits, *lags):
    return raw.with_byte(TRUE["fresh_head"](D, P, [0] * D, *lags), 4, limits[0])


def limit_lost_by(name, byte_of):
    """An error: an event leaves another limit in the seat of its desk."""
    def event(given, desk, *numbers):
        number, values, after = TRUE[name](given, desk, *numbers)
        if number == book.DONE:
            byte = byte_of(given, desk, *numbers)
            after = raw.with_byte(after, book.limit_at(desk), byte)
        return number, values, after
    return named(name, event, byte_of)


def no_limit(given, *numbers):
    return 0


def the_senders_limit(given, desk, place, keep):
    return given[book.limit_at(the_sender(given, place))]


def a_limit_of_1(D, limits):
    return TRUE["limited"](D, [max(2, limit) if limit else 0 for limit in limits])


def desk_0_alone(D, limits):
    """Of the others no limit is too small."""
    return TRUE["limited"](D, [*limits[:1], *(max(2, limit) for limit in limits[1:])])


def with_limits(name, limits, what):
    """An error: a part takes a setup with the limits that are made of those given."""
    def start(given, D, P, listed, *lags):
        return TRUE["start"](given, D, P, limits(D, listed), *lags)

    def read_both(setup, *labels):
        D, P, listed, *lags = setup
        return TRUE["read_both"]((D, P, limits(D, listed), *lags), *labels)

    def may(setup, *asked):
        D, P, listed, *lags = setup
        return TRUE["may"]((D, P, limits(D, listed), *lags), *asked)
    return named(name, {"start": start, "read_both": read_both, "may": may}[name], what)


def limits_modulo(name, size):
    return with_limits(name, lambda D, limits: [limit % size for limit in limits], f"limits modulo {size}")


def a_longer_list(name):
    return with_limits(name, lambda D, limits: limits[:D], "a longer list will do")


def a_shorter_list(name):
    return with_limits(name, lambda D, limits: [*limits, *[4] * (min(D, 8) - len(limits))],
                       "a shorter list will do")


def limits_counted_by_a_byte(name):
    return with_limits(name, lambda D, limits: limits[:len(limits) % 256], "a count of one byte")


def limits_above_D_are_not_asked(given):
    D = given[2]
    for desk in range(D, 8):
        given = raw.with_byte(given, book.limit_at(desk), 0)
    return TRUE["seats_sound"](given)


def sound_if(change):
    """An error: a book is sound by what is made of its bytes."""
    def sound(given):
        return TRUE["sound"](change(given) if len(given) == book.BOOK_BYTES else given)
    return named("sound", sound, change)


def with_any_limit_not_started(given):
    for desk in range(min(8, given[2])):
        if given[book.seat_at(desk) + 2] == 0:
            given = raw.with_byte(given, book.limit_at(desk), 255)
    return given


def without_the_headers(given):
    return raw.with_byte(given, 4, 0)


def with_the_headers(given):
    """As if one limit in the header were for all."""
    if given[4]:
        for desk in range(min(8, given[2])):
            given = raw.with_byte(given, book.limit_at(desk), given[4])
    return without_the_headers(given)


# The full byte ring, and the one of 255

def nought_is_no_ring(byte):
    return byte


def nought_is_a_ring_of_255(byte):
    return 255 if byte == 0 else byte


def a_ring_written_as(byte):
    """An error: the header's byte for 256 is another."""
    def phases_byte(P):
        return byte if P == 256 else TRUE["phases_byte"](P)
    return named("phases_byte", phases_byte, f"256 as {byte}")


def no_255_in_a_book(row, setup, own, most):
    return 255 not in row[:2 * setup.D:2] and TRUE["row_sound"](row, setup, own, most)


def no_255_in_rows(name):
    """An error: in one kind of row no phase is 255."""
    def part(given):
        with mock.patch.object(book, "row_sound", no_255_in_a_book):
            return TRUE[name](given)
    return named(name, part, "no 255")


def no_255_in_a_record(setup, record):
    return None if 255 in record[4:4 + 2 * setup.D:2] else TRUE["read_stamp"](setup, record)


def with_ring(name, phases, what):
    """An error: a part takes a setup with the P that is made of the one given."""
    def start(given, D, P, *rest):
        return TRUE["start"](given, D, phases(P), *rest)

    def read_both(setup, *labels):
        D, P, *rest = setup
        return TRUE["read_both"]((D, phases(P), *rest), *labels)

    def may(setup, *asked):
        D, P, *rest = setup
        return TRUE["may"]((D, phases(P), *rest), *asked)
    return named(name, {"start": start, "read_both": read_both, "may": may}[name], what)


def ring_modulo(name, size):
    return with_ring(name, lambda P: P % size, f"P modulo {size}")


def nought_taken_for_256(name):
    return with_ring(name, lambda P: P or 256, "0 for 256")


def any_nought_byte_is_256(name):
    return with_ring(name, lambda P: P if P % 256 else 256, "whatever ends in a byte of 0 for 256")


def A_below(most):
    """An error: A has to be smaller than this, too."""
    def permitted(setup):
        return TRUE["permitted"](setup) and setup[4] < most
    return named("permitted", permitted, f"A below {most}")


def A_of_255_is_any_rings(setup):
    """It is permitted with P of 255, too."""
    D, P, limits, M, A, *reach = setup
    return TRUE["permitted"]((D, P, limits, M, 254 if P == 255 == A else A, *reach))


def lag_on(P, other, what):
    """An error: on one ring the lag is another."""
    def lag_behind(own, phase, phases):
        return other(own, phase) if phases == P else TRUE["lag_behind"](own, phase, phases)
    return named("lag_behind", lag_behind, what)


def after(P, phase, following):
    """An error: on one ring another phase follows one."""
    def next_phase(before, phases):
        return following if (phases, before) == (P, phase) else TRUE["next_phase"](before, phases)
    return named("next_phase", next_phase, f"{following} after {phase} of {P}")


RING_ERRORS = (
    ("phases_told", nought_is_no_ring), ("phases_told", nought_is_a_ring_of_255),
    *map(a_ring_written_as, (1, 2, 3, 255)), ("row_sound", no_255_in_a_book),
    *map(no_255_in_rows, ("seats_sound", "mail_sound", "shelf_sound")),
    ring_modulo("start", 256), nought_taken_for_256("start"), any_nought_byte_is_256("start"),
    A_below(255), ("permitted", A_of_255_is_any_rings),
    lag_on(256, lambda own, phase: own - phase if own >= phase else own + 255 - phase, "255 is added"),
    lag_on(256, lambda own, phase: (own - phase) % 255, "modulo 255"),
    lag_on(256, lambda own, phase: abs(own - phase), "never round"),
    lag_on(255, lambda own, phase: (own - phase) % 256, "a byte's on a ring of 255"),
    after(256, 255, 255), after(256, 255, 1), after(256, 254, 0), after(255, 254, 1),
)

# These need records, or a number that no line has.
RAW_RING_ERRORS = (
    ("read_stamp", no_255_in_a_record),
    *(ring_modulo(name, 2**bits) for name in ("start", "read_both") for bits in (16, 32, 63)),
    ring_modulo("read_both", 256), nought_taken_for_256("read_both"), any_nought_byte_is_256("read_both"),
)


# Start lines

TRUE_SETUP_IN = listing.setup_in


def no_limits_are_counted(numbers):
    if len(numbers) < 6:
        return None
    D, P, *limits, M, A, m, n = numbers
    return D, P, limits, M, A, m, n


def limits_are_always_counted(numbers):
    setup = no_limits_are_counted(numbers)
    return setup if setup and len(setup[2]) == setup[0] else None


def another_D_is_a_bad_line(numbers):
    setup = TRUE_SETUP_IN(numbers)
    return setup if setup and setup[0] in range(2, 9) else None


def D_by_its_last_byte(numbers):
    return TRUE_SETUP_IN([numbers[0] % 256, *numbers[1:]] if numbers else numbers)


def limits_that_are_many_are_cut(numbers):
    D, P, limits, *lags = no_limits_are_counted(numbers) or (0, 0, ())
    return (D, P, limits[:D], *lags) if D in range(2, len(limits)) else TRUE_SETUP_IN(numbers)


def one_limit_is_for_all(numbers):
    D, P, limits, *lags = no_limits_are_counted(numbers) or (0, 0, ())
    return (D, P, limits * D, *lags) if D in range(2, 9) and len(limits) == 1 else TRUE_SETUP_IN(numbers)


def another_D_alone_is_asked(numbers):
    """With fewer numbers than any setup has."""
    if numbers and numbers[0] not in range(2, 9):
        return 0, 0, [], 0, 0, 0, 0
    return TRUE_SETUP_IN(numbers)


def six_numbers_are_too_few(numbers):
    return TRUE_SETUP_IN(numbers) if len(numbers) != 6 else None


LINE_ERRORS = [(listing, "setup_in", error) for error in (
    no_limits_are_counted, limits_are_always_counted, another_D_is_a_bad_line, D_by_its_last_byte,
    limits_that_are_many_are_cut, one_limit_is_for_all, another_D_alone_is_asked,
    six_numbers_are_too_few)]


# Pictures

def all_at_odds(given, stamps):
    return [(i, k) for i, k in itertools.combinations(range(len(stamps)), 2)
            if book.at_odds(given, stamps[i], stamps[k])]


def neighbours_alone_are_at_odds(given, stamps):
    return next((pair for pair in all_at_odds(given, stamps) if pair[1] == pair[0] + 1), None)


def the_last_two_are_named(given, stamps):
    return max(all_at_odds(given, stamps), default=None)


def the_lowest_second_comes_first(given, stamps):
    return min(all_at_odds(given, stamps), key=lambda pair: pair[::-1], default=None)


def the_higher_is_named_first(given, stamps):
    pairs = all_at_odds(given, stamps)
    return pairs[0][::-1] if pairs else None


def equal_pairs_are_at_odds(given, f, e):
    known, own = book.known_and_own(e, f, book.phases_between(given, e, f))
    return known >= own


def the_larger_byte_knows_more(given, f, e):
    at = slice(2 * e.owner, 2 * e.owner + 2)
    return f.row[at] > e.row[at]


def nought_is_nothing_known(given, f, e):
    """Nor is it anything of one's own."""
    rows = (stamp.row[2 * e.owner:2 * e.owner + 2] for stamp in (e, f))
    return bytes(2) not in rows and TRUE["knows_more"](given, f, e)


def clocks_alone_count(given, f, e):
    return f.row[2 * e.owner + 1] > e.row[2 * e.owner + 1]


def phases_alone_count(given, f, e):
    return book.phases_between(given, e, f) > 0


def the_first_alone_is_asked(given, e, f):
    return book.knows_more(given, e, f)


def the_second_alone_is_asked(given, e, f):
    return book.knows_more(given, f, e)


def both_ways_cancel(given, e, f):
    return book.knows_more(given, e, f) != book.knows_more(given, f, e)


def at_odds_by_concurrence(given, e, f):
    """As if only an event before the other could be beside it."""
    return not (TRUE["says_before"](e, f, book.phases_between(given, e, f))
                or TRUE["says_before"](f, e, book.phases_between(given, f, e)))


def owners_come_first(given, stamps):
    wrong = any(stamp.owner != desk for desk, stamp in enumerate(stamps))
    return book.WRONG_OWNER if wrong else TRUE["chosen_number"](given, stamps)


def no_owner_is_asked(given, stamps):
    number = TRUE["chosen_number"](given, stamps)
    return book.DONE if number == book.WRONG_OWNER else number


def places_are_asked_for_reach(given, stamps):
    """At the desk that a place is for, whosesoever its stamp is."""
    placed = [stamp._replace(owner=desk) for desk, stamp in enumerate(stamps)]
    number = TRUE["chosen_number"](given, placed)
    return number if number != book.DONE or placed == stamps else book.WRONG_OWNER


def reach_asked_of(two_of):
    """An error: of these two stamps alone is the reach asked."""
    def number(given, stamps):
        with mock.patch.object(book, "permutations", lambda stamps, _: two_of(stamps)):
            return TRUE["chosen_number"](given, stamps)
    number.__name__ = f"reach_asked_of {two_of.__name__}"
    return "chosen_number", number


def neighbours(stamps):
    return [*zip(stamps, stamps[1:]), *zip(stamps[1:], stamps)]


def the_lower_place_first(stamps):
    return itertools.combinations(stamps, 2)


def the_higher_place_first(stamps):
    return itertools.combinations(stamps[::-1], 2)


def different_owners(stamps):
    return [(e, f) for e, f in itertools.permutations(stamps, 2) if e.owner != f.owner]


def own_places(stamps):
    """Those that are where their owner's should be."""
    right = [stamp for desk, stamp in enumerate(stamps) if stamp.owner == desk]
    return itertools.permutations(right, 2)


REACHES_OF_PICTURES = (neighbours, the_lower_place_first, the_higher_place_first,
                       different_owners, own_places)


def a_longer_list_will_do(given, *slots):
    return TRUE["picture"](given, *slots[:given[2]] if book.sound(given) else slots)


def a_shorter_list_will_do(given, *slots):
    """Desks that no slot is given for are not asked."""
    if not book.sound(given) or len(slots) >= given[2]:
        return TRUE["picture"](given, *slots)
    setup = book.setup_of(given)._replace(D=len(slots))
    with mock.patch.object(book, "setup_of", lambda _: setup), \
            mock.patch.object(book, "sound", lambda _: True):
        return TRUE["picture"](given, *slots)


def any_order_will_do(given, *slots):
    """The owners of the stamps say which desks they are for."""
    if TRUE["picture_number"](given, slots) != book.WRONG_OWNER:
        return TRUE["picture"](given, *slots)
    return TRUE["picture"](given, *sorted(slots, key=lambda slot: given[book.slot_at(slot) + 2]))


def slots_modulo(size):
    """An error: a slot is what is left of its number in so many values."""
    def error(given, *slots):
        return TRUE["picture"](given, *(slot % size for slot in slots))
    error.__name__ = f"slots modulo {size}"
    return "picture", error


def a_count_of_one_byte(given, *slots):
    return TRUE["picture"](given, *slots[:len(slots) % 256])


# Summaries, the office and may

def rows_of_seats(given, desks):
    return [book.row_at(given, book.seat_at(desk)) for desk in desks]


def seats_above_D_count(given, setup, desk):
    return rows_of_seats(given, [other for other in range(8) if other != desk])


def seats_not_started_do_not_count(given, setup, desk):
    return rows_of_seats(given, [other for other in range(setup.D)
                                 if other != desk and given[book.seat_at(other) + 2]])


def the_next_seat_alone_counts(given, setup, desk):
    return rows_of_seats(given, [(desk + 1) % setup.D])


def the_first_desks_seat_does_not_count(given, setup, desk):
    return rows_of_seats(given, [other for other in range(1, setup.D) if other != desk])


def free_places_count(given):
    return [book.row_at(given, book.place_at(place)) for place in range(32)]


def free_slots_count(given):
    return [book.row_at(given, book.slot_at(slot)) for slot in range(32)]


def the_last_place_does_not_count(given):
    return [book.row_at(given, book.place_at(place)) for place in range(31) if book.place_used(given, place)]


def the_last_slot_does_not_count(given):
    return [book.row_at(given, book.slot_at(slot)) for slot in range(31) if book.slot_used(given, slot)]


def lags_in(setup, own, desk, rows):
    return [TRUE["lag_behind"](own, row[2 * desk], setup.P) for row in rows]


def the_smallest_lag(setup, own, desk, rows):
    return min(lags_in(setup, own, desk, rows), default=0)


def the_last_rows_lag(setup, own, desk, rows):
    return (lags_in(setup, own, desk, rows) or [0])[-1]


def the_lag_of_the_smallest_byte(setup, own, desk, rows):
    """As if no phase had come round."""
    return TRUE["lag_behind"](own, min((row[2 * desk] for row in rows), default=own), setup.P)


def the_largest_clock(setup, own, desk, rows):
    return max((row[2 * desk + 1] for row in rows), default=0)


def office_leaving(what, summary_left):
    """An error: an accepted change leaves another summary, made of the true one."""
    def office(call, given, summary, numbers):
        number, values, after, told = TRUE["through_office"](call, given, summary, numbers)
        if number == book.DONE:
            told = summary_left(call, given, summary, numbers, told)
        return number, values, after, told
    return named("through_office", office, what)


def untold_of(verb):
    """An error: the office leaves the summary as it was at one kind of change."""
    def left(call, given, summary, numbers, told):
        return summary if call is getattr(book, verb) else told
    return office_leaving(f"untold of {verb}", left)


def of_the_book_before(call, given, summary, numbers, told):
    return TRUE["summary_of"](given) if book.sound(given) else NO_LAGS


def never_lower(call, given, summary, numbers, told):
    return bytes(map(max, summary, told))


def never_higher(call, given, summary, numbers, told):
    return told[:2] + bytes(map(min, summary[2:], told[2:]))


def one_desk_alone(call, given, summary, numbers, told):
    """That of the event; start, drop and discard tell of all."""
    if call.__name__ not in listing.EVENTS:
        return told
    at = 2 + 3 * numbers[0]
    return told[:2] + summary[2:at] + told[at:at + 3] + summary[at + 3:]


def the_mark_is_left(call, given, summary, numbers, told):
    return summary[:2] + told[2:]


def desks_above_D_are_left(call, given, summary, numbers, told):
    D = numbers[0] if call is book.start else given[2]
    return told[:2 + 3 * D] + summary[2 + 3 * D:]


def eights(call, given, summary, numbers, told):
    """All eight numbers of seats first, then those of mail, then those of the shelf."""
    return told[:2] + told[2::3] + told[3::3] + told[4::3]


# By what the three numbers would say to may.

def seats_alone_tell(setup, seats, mail, shelf):
    return TRUE["told_of_lags"](setup, seats, 0, 0)


def mail_by_M(setup, seats, mail, shelf):
    return TRUE["told_of_lags"](setup, seats, 2 * setup.M if mail == setup.M else 0, shelf)


def mail_does_not_tell(setup, seats, mail, shelf):
    return TRUE["told_of_lags"](setup, seats, 0, shelf)


def the_shelf_tells_first(setup, seats, mail, shelf):
    return TRUE["told_of_lags"](setup, 0, 0, shelf) or TRUE["told_of_lags"](setup, seats, mail, 0)


def mail_tells_first(setup, seats, mail, shelf):
    return TRUE["told_of_lags"](setup, 0, mail, 0) or TRUE["told_of_lags"](setup, seats, 0, shelf)


def seats_a_phase_early(setup, seats, mail, shelf):
    return TRUE["told_of_lags"](setup, seats + 1, mail, shelf) or TRUE["told_of_lags"](setup, seats, mail, shelf)


def mail_a_phase_early(setup, seats, mail, shelf):
    return TRUE["told_of_lags"](setup, seats, mail + 1, shelf) or TRUE["told_of_lags"](setup, seats, mail, shelf)


def the_shelf_a_phase_early(setup, seats, mail, shelf):
    return TRUE["told_of_lags"](setup, seats, mail, shelf + 1) or TRUE["told_of_lags"](setup, seats, mail, shelf)


def always_yes(setup, seats, mail, shelf):
    return book.DONE


def desk_0_is_told(summary, desk):
    return TRUE["lags_told"](summary, 0)


def three_eights_are_told(summary, desk):
    """As if all eight numbers of seats came first."""
    return summary[2 + desk::8][:3]


def desks_modulo(size):
    """An error: a desk is what is left of its number in so many values."""
    def may(setup, summary, desk):
        return TRUE["may"](setup, summary, desk % size)
    return named("may", may, f"desks modulo {size}")


def eight_desks_are_there(setup, summary, desk):
    number, values = TRUE["may"](setup, summary, min(desk, setup[0] - 1))
    return (number, values) if desk < max(8, setup[0]) else TRUE["may"](setup, summary, desk)


def the_desk_is_asked_first(setup, summary, desk):
    return (book.NO_DESK, ()) if desk >= setup[0] else TRUE["may"](setup, summary, desk)


def no_setup_is_a_bad_book(setup, summary, desk):
    number, values = TRUE["may"](setup, summary, desk)
    return book.BAD_BOOK if number == book.BAD_SETUP else number, values


def the_summary_is_asked_before(reason):
    """An error: a summary that does not read comes before another reason."""
    def may(setup, summary, desk):
        number, values = TRUE["may"](setup, summary, desk)
        reads = book.summary_reads(book.Setup(*setup), summary)
        return (book.BAD_SUMMARY, ()) if number == reason and not reads else (number, values)
    return named("may", may, f"the summary before {reason}")


def reads_if(what, change):
    """An error: a summary reads by what is made of it, or of the setup."""
    def summary_reads(setup, summary):
        return TRUE["summary_reads"](*change(setup, summary))
    return named("summary_reads", summary_reads, what)


def marked_at(*offsets):
    """Bytes of the mark that are not asked."""
    return lambda setup, summary: (setup, bytes(b"SU"[at] if at in offsets else byte
                                                for at, byte in enumerate(summary)))


def unasked_lags(kept):
    """Lags that are not asked, by where they stand among the 24 and by D."""
    return lambda setup, summary: (setup, summary[:2] + bytes(
        lag if kept(at, setup.D) else 0 for at, lag in enumerate(summary[2:])))


def bounds_as(**more):
    """Bounds that differ from those of the setup by so much."""
    return lambda setup, summary: (setup._replace(**{name: getattr(setup, name) + by
                                                     for name, by in more.items()}), summary)


def its_own_desk_alone(setup, summary, desk):
    """Of the other desks no lag is asked."""
    if not book.permitted(setup) or desk >= setup[0] or len(summary) != 26:
        return TRUE["may"](setup, summary, desk)
    at = 2 + 3 * desk
    alone = summary[:2] + bytes(3 * desk) + summary[at:at + 3] + bytes(21 - 3 * desk)
    return TRUE["may"](setup, alone, desk)


def office_asking(what, asks):
    """An error: of a summary of its length more is asked, or of another's less."""
    def office(call, given, summary, numbers):
        return asks(call, given, summary, numbers) or TRUE["through_office"](call, given, summary, numbers)
    return named("through_office", office, what)


def bad_summary(given, summary):
    return book.BAD_SUMMARY, (), given, summary


def the_summary_first(call, given, summary, numbers):
    return bad_summary(given, summary) if len(summary) != 26 else None


def a_summary_that_reads(call, given, summary, numbers):
    """Of an accepted change it is asked whether the summary is one."""
    done = call(given, *numbers)[0] == book.DONE
    return bad_summary(given, summary) if done and summary[:2] != b"SU" else None


def a_true_summary(call, given, summary, numbers):
    """Whether it is that of the book; start writes it anew."""
    done = call is not book.start and call(given, *numbers)[0] == book.DONE
    return bad_summary(given, summary) if done and summary != TRUE["summary_of"](given) else None


def longer_will_do(fits):
    """A summary that is longer than 26 bytes is taken, by its length."""
    def asks(call, given, summary, numbers):
        if len(summary) <= 26 or not fits(len(summary)) or call(given, *numbers)[0] != book.DONE:
            return None
        number, values, after, told = TRUE["through_office"](call, given, summary[:26], numbers)
        return number, values, after, told + summary[26:]
    return asks


def written_where_refused(call, given, summary, numbers):
    number, values, after, told = TRUE["through_office"](call, given, summary, numbers)
    if number != book.DONE and len(summary) == 26 and book.sound(given):
        return number, values, after, TRUE["summary_of"](given)
    return None


def changed_where_refused(call, given, summary, numbers):
    """The book is changed though the summary has another length."""
    number, values, after = call(given, *numbers)
    refused = number == book.DONE and len(summary) != 26
    return (book.BAD_SUMMARY, (), after, summary) if refused else None


def a_bad_book_by_the_summary(call, given, summary, numbers):
    number = TRUE["through_office"](call, given, summary, numbers)[0]
    return (book.BAD_BOOK, (), given, summary) if number == book.BAD_SUMMARY else None


# What lines can show by asking may.
SUMMARY_ERRORS = (
    *(("other_seats", error) for error in (
        seats_above_D_count, seats_not_started_do_not_count, the_next_seat_alone_counts,
        the_first_desks_seat_does_not_count)),
    ("mail_waiting", free_places_count), ("stamps_kept", free_slots_count),
    *(("largest_lag", error) for error in (
        the_smallest_lag, the_last_rows_lag, the_lag_of_the_smallest_byte, the_largest_clock)),
    *map(untold_of, ("start", "receive", "reset", "drop", "discard")),
    *(office_leaving(left.__name__, left) for left in (
        of_the_book_before, never_lower, never_higher, one_desk_alone, eights)),
    *(("told_of_lags", error) for error in (
        seats_alone_tell, mail_by_M, mail_does_not_tell, the_shelf_tells_first, mail_tells_first,
        seats_a_phase_early, mail_a_phase_early, the_shelf_a_phase_early, always_yes)),
    ("lags_told", desk_0_is_told), ("lags_told", three_eights_are_told),
    desks_modulo(256), ("may", eight_desks_are_there), ("may", the_desk_is_asked_first),
    ("may", no_setup_is_a_bad_book),
)

# Those by which a summary is false of its book.
FALSE_SUMMARIES = [(name, error) for name, error in SUMMARY_ERRORS
                   if name in ("other_seats", "mail_waiting", "stamps_kept", "largest_lag", "through_office")]

# These need summaries that no line has, setups and desks that none gives, or the last place and slot.
RAW_SUMMARY_ERRORS = (
    ("mail_waiting", the_last_place_does_not_count), ("stamps_kept", the_last_slot_does_not_count),
    *map(untold_of, ("local", "send")),
    *(office_leaving(left.__name__, left) for left in (the_mark_is_left, desks_above_D_are_left)),
    *(desks_modulo(2**bits) for bits in (3, 16, 32, 63)),
    the_summary_is_asked_before(book.BAD_SETUP), the_summary_is_asked_before(book.NO_DESK),
    *(reads_if(f"mark unasked at {at}", marked_at(*at)) for at in ((0,), (1,), (0, 1))),
    reads_if("a longer summary reads", lambda setup, summary: (setup, summary[:26])),
    reads_if("a length of one byte", lambda setup, summary: (setup, summary[:len(summary) % 256])),
    reads_if("desks above D are not asked", unasked_lags(lambda at, D: at < 3 * D)),
    reads_if("desk 7 is not asked", unasked_lags(lambda at, D: at < 21)),
    reads_if("desk 0 is not asked", unasked_lags(lambda at, D: at > 2)),
    *(reads_if(f"{kind} are not asked", unasked_lags(lambda at, D, kind=kind: at % 3 != kind)) for kind in range(3)),
    *(reads_if(f"bounds with {more}", bounds_as(**more)) for more in ({"M": 1}, {"M": -1}, {"A": 1}, {"A": -1})),
    ("may", its_own_desk_alone),
    *(office_asking(asks.__name__, asks) for asks in (
        the_summary_first, a_summary_that_reads, a_true_summary, written_where_refused,
        changed_where_refused, a_bad_book_by_the_summary)),
    office_asking("a longer summary will do", longer_will_do(lambda length: True)),
    office_asking("a length of one byte", longer_will_do(lambda length: length % 256 == 26)),
    office_asking("a length of two bytes", longer_will_do(lambda length: length % 2**16 == 26)),
    *(limits_modulo("may", 2**bits) for bits in (8, 16, 32, 63)),
    *(list_of("may") for list_of in (a_longer_list, a_shorter_list, limits_counted_by_a_byte)),
    *(ring_modulo("may", 2**bits) for bits in (8, 16, 32, 63)),
    nought_taken_for_256("may"), any_nought_byte_is_256("may"), A_below(255),
)


# The reach from e to f, back and ahead.

def no_reset_is_known(setup, e, f):
    return setup.m - 1, setup.n - 1


def all_reach_like_resets(setup, e, f):
    return setup.m, setup.n - 1


def resets_reach_ahead(setup, e, f):
    return setup.m - 1, setup.n if book.is_reset(e) else setup.n - 1


def the_other_is_asked(setup, e, f):
    return TRUE["reach"](setup, f)


def the_clock_seen_is_asked(setup, e, f):
    return TRUE["reach"](setup, book.Stamp(e.owner, f.row))


REACHES = (no_reset_is_known, all_reach_like_resets, resets_reach_ahead, the_other_is_asked,
           the_clock_seen_is_asked)


def by_reach(name, reach):
    """An error: the difference of that name, on the book or off it, goes by another reach."""
    def difference(given, e, f):
        with mock.patch.object(book, "reach", lambda setup, _: reach(setup, e, f)):
            return TRUE[name](given, e, f)
    difference.__name__ = f"{name}: {reach.__name__}"
    return name, difference


def the_first_is_asked_both_ways(given, first, second):
    if book.slots_number(given, first, second) != book.DONE:
        return TRUE["compare"](given, first, second)
    e = book.stamp_of_slot(given, first)
    with mock.patch.object(book, "reach", lambda setup, _: TRUE["reach"](setup, e)):
        return TRUE["compare"](given, first, second)


def the_first_label_is_asked_both_ways(setup, first, second):
    e = book.read_both(setup, first, second)[2]
    with mock.patch.object(book, "reach", lambda setup, _: TRUE["reach"](setup, e)):
        return TRUE["label_compare"](setup, first, second)


def a_phase_short(setup):
    """P of m+n-1 is permitted too."""
    D, P, limits, M, A, m, n = setup
    return (TRUE["permitted"]((D, P, limits, M, A, 1, 1)) and 1 <= m <= 127 and 1 <= n <= 127
            and P >= m + n - 1)


def a_phase_short_for(name):
    """An error: so it is where that part asks it, and nowhere else."""
    def part(*given):
        with mock.patch.object(book, "permitted", a_phase_short):
            return TRUE[name](*given)
    part.__name__ = f"{name}: {a_phase_short.__name__}"
    return name, part


# Limits too large are seen where a clock goes beyond its own, limits too small where it comes up to it.
LIMIT_ERRORS = (
    *map(full_by, OTHER_LIMITS), full_by_desk("send_number", the_addressee),
    full_by_desk("receive_number", the_sender),
    *map(rows_by, (the_first, the_next, the_smallest, one_less)),
    *(rows_of(*kind, of_two) for kind in KINDS_OF_ROWS for of_two in (the_desks_alone, min)),
    *map(started_with, OTHER_LIMITS[:4]), ("fresh_head", a_limit_above_D),
    ("fresh_head", the_limit_in_the_header),
    *(limit_lost_by(verb, no_limit) for verb in listing.EVENTS), limit_lost_by("receive", the_senders_limit),
    ("limited", a_limit_of_1), ("limited", desk_0_alone), limits_modulo("start", 256),
)

RAW_LIMIT_ERRORS = (
    *map(rows_by, (the_largest, one_more)), *(rows_of(*kind, max) for kind in KINDS_OF_ROWS),
    *map(reads_by, OTHER_LIMITS), ("read_stamp", the_owners_limit_reads),
    limits_modulo("read_both", 256),
    *(limits_modulo(name, 2**bits) for name in ("start", "read_both") for bits in (16, 32, 63)),
    *(list_of(name) for name in ("start", "read_both")
      for list_of in (a_longer_list, a_shorter_list, limits_counted_by_a_byte)),
    ("seats_sound", limits_above_D_are_not_asked),
    *map(sound_if, (with_any_limit_not_started, without_the_headers, with_the_headers)),
)

KEEPING_ERRORS = (
    ("receive", receipt_without_a_slot_frees), ("receive", receipt_without_a_slot_is_made),
    ("reset_number", lags_before_the_shelf), ("local_number", shelf_before_the_phase),
    ("send_number", shelf_before_the_mail), ("shelf_full", the_shelf_is_always_asked),
    ("put_on_shelf", kept_without_being_asked), ("put_on_shelf", slot_without_a_stamp),
    ("put_on_shelf", the_highest_free_slot), ("put_on_shelf", kept_before_the_clock_grows),
)

LEARNING_ERRORS = (
    ("merge", the_own_entry_counts), ("later", an_equal_pair_counts),
    ("later", an_older_pair_counts), ("merge", bytes_beside_the_mail_count),
    ("merge", bytes_that_change_count), ("merge", told_or_not), ("receive", the_slot_stands_first),
)

PICTURE_ERRORS = (
    ("first_at_odds", neighbours_alone_are_at_odds), ("first_at_odds", the_last_two_are_named),
    ("first_at_odds", the_lowest_second_comes_first), ("first_at_odds", the_higher_is_named_first),
    ("knows_more", equal_pairs_are_at_odds), ("knows_more", the_larger_byte_knows_more),
    ("knows_more", nought_is_nothing_known), ("knows_more", clocks_alone_count),
    ("knows_more", phases_alone_count), ("at_odds", the_first_alone_is_asked),
    ("at_odds", the_second_alone_is_asked), ("at_odds", at_odds_by_concurrence),
    ("chosen_number", owners_come_first), ("chosen_number", no_owner_is_asked),
    ("chosen_number", places_are_asked_for_reach),
    *(reach_asked_of(two_of) for two_of in REACHES_OF_PICTURES),
    ("picture", a_longer_list_will_do), ("picture", a_shorter_list_will_do),
    ("picture", any_order_will_do), slots_modulo(256), slots_modulo(32),
)

ERRORS = (
    ("lag_behind", lag_without_adding_P), ("lag_behind", own_above_v_subtracts),
    ("later", larger_byte_is_later), ("says_before", nought_is_never_seen),
    ("receive", place_stays_used), ("receive", refused_receipt_frees),
    ("lag_number", only_seats_are_checked), ("merge", own_phase_from_mail),
    ("answer_compare", unreachable_is_concurrent), ("permitted", a_phase_short),
    ("compare", the_first_is_asked_both_ways),
    *(by_reach("difference_on_book", reach) for reach in REACHES),
    *LIMIT_ERRORS, *KEEPING_ERRORS, *LEARNING_ERRORS, *PICTURE_ERRORS,
)

# The last ones no listing can show: they need records, books that no run reaches, or a number that no line has.
RAW_ERRORS = (
    ("lag_behind", lag_without_adding_P), ("lag_behind", own_above_v_subtracts),
    ("later", larger_byte_is_later), ("says_before", nought_is_never_seen),
    ("receive", place_stays_used), ("receive", refused_receipt_frees),
    ("lag_number", only_seats_are_checked),
    *LIMIT_ERRORS, *KEEPING_ERRORS, *LEARNING_ERRORS, *PICTURE_ERRORS,
    ("answer_compare", unreachable_is_concurrent), ("compare", the_first_is_asked_both_ways),
    ("label_compare", the_first_label_is_asked_both_ways),
    *(by_reach("difference_on_book", reach) for reach in REACHES),
    *(by_reach("difference_off_book", reach) for reach in REACHES),
    *(a_phase_short_for(name) for name in ("start", "sound", "read_both")),
    ("later", nought_is_nothing), ("later", nought_is_no_news),
    ("merge", own_entry_is_merged), ("merge", the_own_entry_in_mail_counts),
    ("row_sound", any_filler), ("row_sound", one_more_lag),
    ("row_sound", phases_come_round), ("used_place_sound", to_oneself_is_sound),
    ("put_on_shelf", kept_by_the_last_byte), slots_modulo(2**16), slots_modulo(2**32),
    slots_modulo(2**63), ("picture", a_count_of_one_byte), ("at_odds", both_ways_cancel),
    *RAW_LIMIT_ERRORS,
)

# Those of the changes that the office makes, too.
OFFICE_ERRORS = (
    ("later", larger_byte_is_later), ("receive", place_stays_used), ("receive", refused_receipt_frees),
    ("lag_number", only_seats_are_checked), ("merge", own_entry_is_merged), ("merge", own_phase_from_mail),
    *KEEPING_ERRORS, *LEARNING_ERRORS, *map(full_by, OTHER_LIMITS), *map(started_with, OTHER_LIMITS[:4]),
    *(limit_lost_by(verb, no_limit) for verb in listing.EVENTS),
)


# Errors of what is read off sets of events, and of the ordinary vectors.

def all_behind_count(receipt):
    return len({event.desk for event in receipt.past} - {receipt.desk})


def the_receiver_counts(receipt):
    return len({event.desk for event in receipt.past - line.past_of(receipt.before)})


def events_count(receipt):
    told = receipt.past - line.past_of(receipt.before)
    return sum(event.desk != receipt.desk for event in told)


def the_next_causes_alone(events):
    """No cause of a cause."""
    return {cause for event in events for cause in (event, event.before, event.mail) if cause}


def the_chosen_is_beyond(run, choice):
    return {event for event in run.events
            if event.desk == choice.desk and event.turn >= choice.turn}


def all_have_come_in(run, choice):
    """Each desk's events, those beyond the choice too."""
    return {event for event in run.events if event.desk == choice.desk}


def mail_is_not_counted(desks, event):
    counts = list(event.before.counts) if event.before else [0] * desks
    counts[event.desk] += 1
    return counts


def the_sender_alone_is_counted(desks, event):
    counts = mail_is_not_counted(desks, event)
    if event.mail:
        sender = event.mail.desk
        counts[sender] = max(counts[sender], event.mail.counts[sender])
    return counts


def permitted_below_256(D, P, *rest):
    return P != 256 and TRUE_ON_THE_LINE(D, P, *rest)


TRUE_ON_THE_LINE = line.permitted


def left_by_the_first(run, desk):
    return run.limits[0] - 1 - run.own(desk)[1]


def left_by_the_smallest(run, desk):
    return min(run.limits) - 1 - run.own(desk)[1]


def furthest_among(rooms):
    """An error: the lags are those of other rows."""
    def furthest(run, desk):
        own = run.own(desk)[0]
        return [own - min((pairs[desk][0] for pairs in rows), default=own) for rows in rooms(run, desk)]
    return line.Run, "furthest", named("furthest", furthest, rooms)[1]


def rooms_of(run, desk):
    return [[run.pairs(other) for other in range(run.D) if other != desk],
            [mail[0].pairs for mail in run.mail if mail], [event.pairs for event in run.shelf if event]]


def without_seats_not_started(run, desk):
    return [[event.pairs for event in run.last if event], *rooms_of(run, desk)[1:]]


def with_free_places(run, desk):
    seats, mail, shelf = rooms_of(run, desk)
    return seats, mail + [[(0, 0)] * run.D] * run.mail.count(None), shelf


def with_free_slots(run, desk):
    seats, mail, shelf = rooms_of(run, desk)
    return seats, mail, shelf + [[(0, 0)] * run.D] * run.shelf.count(None)


def mail_among_the_stamps(run, desk):
    seats, mail, shelf = rooms_of(run, desk)
    return seats, mail, mail + shelf


def may_by_a_reset_that_is_kept(run, desk):
    """A full shelf is told, too."""
    number, values = TRUE_MAY(run, desk)
    return (number, (10,)) if values and run.no_slot(1) else (number, values)


TRUE_MAY = line.Run.may

# The last one leaves the summary true.
SET_SUMMARY_ERRORS = (
    *map(furthest_among, (without_seats_not_started, with_free_places, with_free_slots, mail_among_the_stamps)),
    (line.Run, "may", may_by_a_reset_that_is_kept),
)

SET_ERRORS = (
    (line, "permitted", permitted_below_256),
    (line.Run, "left", left_by_the_first), (line.Run, "left", left_by_the_smallest),
    (line, "learnt", all_behind_count), (line, "learnt", the_receiver_counts),
    (line, "learnt", events_count), (line, "causes_of", the_next_causes_alone),
    (line.Run, "beyond", the_chosen_is_beyond), (line.Run, "up_to", all_have_come_in),
    (line, "counted", mail_is_not_counted), (line, "counted", the_sender_alone_is_counted),
)


def in_book(errors):
    return [(book, *error) for error in errors]


def is_found(part, name, error, lines):
    """Does a program that makes an error and checks nothing answer some line otherwise?"""
    program = listing.Program()
    with mock.patch.object(part, name, error), \
            mock.patch.object(listing.Program, "hold", lambda *_: None):
        return any(program.answer(text).encode() != answer for text, answer, *_ in lines)


def but_for_may(lines):
    """The lines that do not ask who may reset: they answer the same without the others."""
    return [one for one in lines if not one[0].startswith(b"may")]


@functools.cache
def told_but_for_may(seed):
    return but_for_may(told(seed))


@functools.cache
def may_lines():
    """The stored lines about who may reset, but for those about the largest rings."""
    return [one for section in MAY_SECTIONS[:-1] for one in section_of(section)]


def text_in(lines):
    return b"\n".join(text for text, *_ in lines)


def unheld(*names):
    """A program that does not hold these parts of itself against the run."""
    return mock.patch.multiple(listing.Program, **{name: lambda *_: None for name in names})


class Errors(unittest.TestCase):
    """But for those about summaries each is found by lines that do not ask may, and by no summary."""

    def test_stored_listing_finds_each(self):
        lines = but_for_may(stored_lines())
        for part, name, error in (*in_book(ERRORS), *LINE_ERRORS):
            self.assertTrue(is_found(part, name, error, lines), error.__name__)

    def test_seeds_find_each(self):
        for part, name, error in (*in_book(ERRORS), *LINE_ERRORS):
            found = any(is_found(part, name, error, told_but_for_may(seed)) for seed in range(1, 101))
            self.assertTrue(found, error.__name__)

    def test_the_stored_rings_find_each(self):
        lines = but_for_may(ring_lines())
        for name, error in RING_ERRORS:
            self.assertTrue(is_found(book, name, error, lines), error.__name__)

    def test_seeds_find_each_of_the_rings(self):
        seeds_of_rings = sorted(range(1, 101), key=lambda seed: not (passes(seed, 256) or passes(seed, 255)))
        for name, error in RING_ERRORS:
            found = any(is_found(book, name, error, told_but_for_may(seed)) for seed in seeds_of_rings)
            self.assertTrue(found, error.__name__)

    def test_the_two_routes_disagree_on_rings(self):
        data = text_in(but_for_may(ring_lines()))
        for name, error in RING_ERRORS:
            with mock.patch.object(book, name, error), unheld("hold_summary"), \
                    self.assertRaises(listing.Disagree, msg=error.__name__):
                listing.answers(data)

    def test_the_two_routes_disagree(self):
        data = text_in(but_for_may(stored_lines()))
        # Off the book nothing is held where the run is out of reach, so a reach too wide stays unseen.
        off_book = [by_reach("difference_off_book", reach) for reach in REACHES
                    if reach is not all_reach_like_resets]
        for name, error in (*ERRORS, *off_book):
            with mock.patch.object(book, name, error), unheld("hold_summary"), \
                    self.assertRaises(listing.Disagree, msg=error.__name__):
                listing.answers(data)
        for part, name, error in SET_ERRORS:
            with mock.patch.object(part, name, error), unheld("hold_summary"), \
                    self.assertRaises(listing.Disagree, msg=error.__name__):
                listing.answers(data)

    def test_may_finds_each_of_summaries(self):
        """By the stored lines, and by the seeds."""
        for name, error in SUMMARY_ERRORS:
            self.assertTrue(is_found(book, name, error, may_lines()), error.__name__)
            found = any(is_found(book, name, error, told(seed)) for seed in range(1, 101))
            self.assertTrue(found, error.__name__)

    def test_the_two_routes_disagree_on_summaries(self):
        """By what may answers alone, and by the summaries alone where these are false."""
        data = text_in(may_lines())
        for part, name, error in (*in_book(SUMMARY_ERRORS), *SET_SUMMARY_ERRORS):
            with mock.patch.object(part, name, error), unheld("hold_summary", "hold_reset"), \
                    self.assertRaises(listing.Disagree, msg=error.__name__):
                listing.answers(data)
        for part, name, error in (*in_book(FALSE_SUMMARIES), *SET_SUMMARY_ERRORS[:-1]):
            with mock.patch.object(part, name, error), \
                    self.assertRaises(listing.Disagree, msg=error.__name__):
                listing.answers(text_in(but_for_may(may_lines())))

    def test_may_is_held_against_the_reset(self):
        """Of the four answers about lags each but the right one is refused."""
        program, seen = listing.Program(), set()
        for text in listing.lines_of(stored.MAY):
            answer, told = program.answer(text), ("000 yes", "000 011", "000 012", "000 013")
            if text.startswith(b"may") and answer in told:
                desk = int(text[4:])
                program.hold_reset(desk, answer)
                for other in {*told} - {answer}:
                    with self.assertRaises(listing.Disagree):
                        program.hold_reset(desk, other)
                seen.add(answer)
        self.assertEqual(len(seen), 4)


# The runners

PROGRAM = """\
import sys
sys.path.insert(0, {root!r})
from second import book, listing
listing.Program.hold = lambda *_: None
{change}
sys.stdout.buffer.write(listing.answers(sys.stdin.buffer.read()))
"""


def run_compare(change, first, last):
    """The runner on a program that is the second opinion, changed."""
    root = os.path.dirname(os.path.dirname(os.path.abspath(__file__)))
    told = io.StringIO()
    with contextlib.redirect_stdout(told):
        code = PROGRAM.format(root=root, change=change)
        agreed, _, alike = compare.compare([sys.executable, "-c", code], first, last)
    return agreed, alike, told.getvalue()


class Runner(unittest.TestCase):
    def test_alike(self):
        self.assertEqual(run_compare("", 1, 3),
                         (len(seeds.SHORT_LISTINGS) + 3, True, ""))

    def test_a_difference_is_told(self):
        _, alike, told = run_compare(
            "book.later = lambda given, desk, held, told: (max(held, told), told > held)", 1, 40)
        self.assertFalse(alike)
        for part in ("seed ", "line ", "second:  b'000", "program: b'000"):
            self.assertIn(part, told)

    def test_a_bad_end_is_told(self):
        _, alike, told = run_compare("import atexit, os; atexit.register(os._exit, 3)", 1, 1)
        self.assertFalse(alike)
        self.assertIn("ended with 3", told)


# The C interface, by a library that stands in for it

def stand_in_library(**errors):
    """A library that is book.py with errors."""
    def library(batch):
        with mock.patch.dict(vars(book), errors):
            return [raw.expected(asked.name, asked.arguments) for asked in batch], 0
    return library


def beside(batch):
    """A library that changes the byte after the last buffer of its last call."""
    answers, ended = stand_in_library()(batch)
    memory = answers[-1][1][-1]
    answers[-1][1][-1] = memory[:-raw.GUARD] + bytes((memory[-raw.GUARD] ^ 1,)) + memory[1 - raw.GUARD:]
    return answers, ended


def asks_a_slot_always(batch):
    """A library that finds a slot buffer too short where no stamp is kept."""
    with mock.patch.object(raw, "needs", lambda name, numbers: raw.NEEDS[name]):
        return stand_in_library()(batch)


def asks_a_slot_never(batch):
    """A library that finds no slot buffer too short."""
    unkept = {name: raw.needs(name, [0]) for name in raw.NEEDS}
    with mock.patch.object(raw, "needs", lambda name, numbers: unkept[name]):
        return stand_in_library()(batch)


def asks_learnt_never(batch):
    """A library that finds no learnt buffer too short."""
    with mock.patch.dict(raw.NEEDS, receive=(20, 0, 1)):
        return stand_in_library()(batch)


def asks_learnt_where_kept(batch):
    """A library that finds a learnt buffer too short only where the stamp is kept."""
    needs = raw.needs
    with mock.patch.object(raw, "needs", lambda name, numbers: needs(name, numbers)[
            :1 if name == "receive" and numbers[-1] == 0 else None]):
        return stand_in_library()(batch)


def asks_answer_never(batch):
    """A library that finds no answer buffer of a picture too short."""
    with mock.patch.dict(raw.NEEDS, picture=(0, 2)):
        return stand_in_library()(batch)


def asks_odds_never(batch):
    """A library that finds no odds buffer too short."""
    with mock.patch.dict(raw.NEEDS, picture=(1, 0)):
        return stand_in_library()(batch)


def asks_odds_where_there_are_any(batch):
    """A library that finds an odds buffer too short only where two desks are at odds."""
    answers, ended = stand_in_library()(batch)
    for at, asked in enumerate(batch):
        if asked.name == "picture" and len(raw.answer_of(*asked[:2])[2]) < 2:
            with mock.patch.dict(raw.NEEDS, picture=(1, 0)):
                answers[at] = raw.expected(*asked[:2])
    return answers, ended


def asks_room_last(batch):
    """A library that gives what is due after NoRoom before it."""
    answers, ended = stand_in_library()(batch)
    for at, asked in enumerate(batch):
        number = raw.answer_of(*asked[:2])[0]
        if number > book.NO_ROOM:
            answers[at] = number, answers[at][1]
    return answers, ended


def asks_the_summary_before_room(batch):
    """A library that gives BadSummary before NoRoom."""
    answers, ended = stand_in_library()(batch)
    for at, asked in enumerate(batch):
        if raw.answer_of(*asked[:2])[0] == book.BAD_SUMMARY:
            answers[at] = book.BAD_SUMMARY, answers[at][1]
    return answers, ended


def asks_less(**needs):
    """A library that asks other lengths of the value buffers of a call."""
    def library(batch):
        with mock.patch.dict(raw.NEEDS, needs):
            return stand_in_library()(batch)
    return library


def spoils_where_refused(batch):
    """A library that leaves zeros in the summary of a change that is refused."""
    answers, ended = stand_in_library()(batch)
    for asked, (number, memories) in zip(batch, answers):
        if asked.name in raw.OFFICE_CALLS and number != book.DONE:
            length = len(memories[1]) - 2 * raw.GUARD
            memories[1] = memories[1][:raw.GUARD] + bytes(length) + memories[1][raw.GUARD + length:]
    return answers, ended


def with_odds(change):
    """A library that gives a picture's values as they are changed."""
    answer_of = raw.answer_of

    def changed(name, arguments):
        number, after, values = answer_of(name, arguments)
        return number, after, change(*values) if name == "picture" and values else values

    def library(batch):
        with mock.patch.object(raw, "answer_of", changed):
            return stand_in_library()(batch)
    return library


def zeros_beside_yes(answer, odds=bytes(2)):
    return answer, odds


def the_higher_first(answer, odds=None):
    return (answer, odds[::-1]) if odds else (answer,)


def yes_and_no_swapped(answer, *odds):
    return not answer, *odds


def ends_early(batch):
    return stand_in_library()(batch[:-1])[0], -11


def ends_badly(batch):
    return stand_in_library()(batch)[0], 3


# Every number each call can answer.
POSSIBLE = {
    "start": {0, 1, 2}, "local": {0, 1, 3, 8, 10, 15}, "send": {0, 1, 3, 4, 8, 9, 10, 15},
    "receive": {0, 1, 3, 5, 6, 8, 10, 15}, "reset": {0, 1, 3, 10, 11, 12, 13, 15},
    "drop": {0, 1, 5}, "discard": {0, 1, 5},
    "before": {0, 1, 5, 15, 16}, "compare": {0, 1, 5, 15, 16},
    "picture": {0, 1, 5, 15, 16, 18},
    "show": {0, 1, 5, 15}, "write": {0, 1, 5, 15},
    "label_before": {0, 2, 14, 15, 16}, "label_compare": {0, 2, 14, 15, 16},
    "label_newest": {0, 2, 14, 15, 16}, "may": {0, 2, 3, 15, 21},
}
POSSIBLE.update((f"office_{name}", POSSIBLE[name] | {21}) for name in listing.CHANGES)


def told_of_shelf(trial):
    """The event, its number not kept, the free slots, the wish, the slot buffer's length and the number."""
    name, arguments = trial
    (*numbers, wish), (given, *_, slot) = raw.parted(arguments)
    unkept = getattr(book, name)(given.content(), *numbers, 0)[0]
    free = sum(not book.slot_used(given.content(), number) for number in range(32))
    return name, unkept, free, wish, slot.length, raw.expected(name, arguments)[0]


def ages_of(content, record):
    """Of each pair the lag as a remainder and the clock below 0; its phase goes with them."""
    row, own, P = book.row_at(content, record), book.own_phases(content), book.setup_of(content).P
    pairs = zip(own[:content[2]], row[::2], row[1::2])
    return [((now - phase) % P, -clock, phase) for now, phase, clock in pairs]


def told_of_mail(trial):
    """What a receipt learnt, the kinds of the others' pairs and of the own, and if 0 is later than P-1."""
    (desk, place, _), (given, *_) = raw.parted(trial[1])
    content, records = given.content(), (book.seat_at(desk), book.place_at(place))
    pairs = list(zip(*(ages_of(content, record) for record in records)))
    kinds = [raw.kind_of(*two) for two in pairs]
    apart = [kind * (told[2] - held[2]) for kind, (held, told) in zip(kinds, pairs)]
    own = kinds.pop(desk)
    del apart[desk]
    return raw.answer_of(*trial)[2][1], kinds, own, book.setup_of(content).P - 1 in apart


def unkept(trial):
    """The number of an event if its stamp were not kept, nor asked for room."""
    name, arguments = trial
    (*numbers, _), (given, *_) = raw.parted(arguments)
    return getattr(book, name)(given.content(), *numbers, 0)[0]


def told_of_lag(trial):
    """P, M, A and the own phase of a desk that resets."""
    (desk, _), (given, *_) = raw.parted(trial[1])
    setup = book.setup_of(given.content())
    return setup.P, setup.M, setup.A, given.content()[book.own_entry(desk)]


def told_of_reach(trial):
    """P, m and n; whether it goes from a reset, from which phase and how far round; and the difference."""
    numbers, (limits, *labels, _) = raw.parted(trial[1])
    setup = book.Setup(*raw.setup_in(numbers, limits.content()))
    e, f = (book.read_stamp(setup, label.content()) for label in labels)
    phase, other = (stamp.row[2 * e.owner] for stamp in (e, f))
    return (setup.P, setup.m, setup.n, book.is_reset(e), phase, (other - phase) % setup.P,
            book.difference_off_book(setup, e, f))


def told_of_clock(first, second):
    """Of the clock in which two books differ: whose row it is in, and how their limits are beside the column's."""
    offset = next(at for at in range(book.BOOK_BYTES) if first[at] != second[at])
    record = offset - (offset - book.SEAT_AT) % 20
    limits, column = book.setup_of(first).limits, (offset - record - 5) // 2
    if record < book.MAIL_AT:
        desks = [("seat", (record - book.SEAT_AT) // 20)]
    elif record < book.SHELF_AT:
        desks = [("sender", first[record + 2] - 1), ("addressee", first[record + 3] - 1)]
    else:
        desks = [("slot", first[record + 2] - 1)]
    return {(kind, raw.kind_of(limits[column], limits[desk])) for kind, desk in desks}


def told_of_picture(trial):
    """How many desks there are, the kinds of what any two know of each other, and the values answered."""
    content, listed, *_ = (buffer.content() for buffer in raw.parted(trial[1])[1])
    rows = [ages_of(content, book.slot_at(slot)) for slot in raw.numbers_in(listed)]
    ages = [[pair[:2] for pair in row] for row in rows]
    kinds = {(i, k): (raw.kind_of(ages[k][k], ages[i][k]), raw.kind_of(ages[i][i], ages[k][i]))
             for i, k in itertools.combinations(range(len(rows)), 2)}
    return len(rows), kinds, raw.answer_of(*trial)[2]


def in_batches(asked, size):
    return [asked[at:at + size] for at in range(0, len(asked), size)]


def is_of_the_office(asked):
    return asked.name == "may" or asked.name in raw.OFFICE_CALLS


def told_of_office(trial):
    """The change, what it is answered on the book alone, the summary's length, if it has room, and its number."""
    name, arguments = trial
    numbers, (given, summary, *rest) = raw.parted(arguments)
    alone = raw.made_on_book(name)
    if alone == "start":
        numbers = raw.setup_in(numbers, rest.pop(0).content())
    on_book = getattr(book, alone)(given.content(), *numbers)[0]
    room = all(buffer.length >= need for buffer, need in zip(rest, raw.needs(name, numbers)))
    return alone, on_book, summary.length, room, raw.expected(name, arguments)[0]


def told_of_may(trial):
    """The setup, the summary, the desk, the room for the answer and what is expected, the value with it."""
    name, arguments = trial
    (*numbers, desk), (limits, summary, answer) = raw.parted(arguments)
    number, memories = raw.expected(name, arguments)
    value = memories[2][raw.GUARD] if number == book.DONE else None
    D, P, listed, *lags = raw.setup_in(numbers, limits.content())
    return book.Setup(D, P, tuple(listed), *lags), summary.content(), desk, answer.length, number, value


class Raw(unittest.TestCase):
    @classmethod
    def setUpClass(cls):
        """The same calls for every library, made once; all kinds in each batch, so that errors are soon found."""
        asked = list(itertools.chain.from_iterable(raw.batches(raw.DEFAULT_CALLS, 1)))
        random.Random(1).shuffle(asked)
        cls.every_call = asked
        # The office and may are asked apart, so that each error of the other calls is found by these alone.
        office = [one for one in asked if is_of_the_office(one)]
        asked = [one for one in asked if not is_of_the_office(one)]
        cls.batches = in_batches(asked, raw.BATCH)
        # Few at a time find an error sooner; those of rings go by a P outside of 3 to 254.
        cls.few = in_batches(asked, 50)
        cls.few_of_rings = in_batches([one for one in asked if raw.phases_of(one) not in range(3, 255)], 50)
        cls.few_of_the_office = in_batches(office, 50)
        cls.seen = cls.compare(stand_in_library(), in_batches(cls.every_call, raw.BATCH))

    @classmethod
    def compare(cls, library, batches=None):
        with mock.patch.object(raw, "batches", lambda *_: batches or cls.batches):
            return raw.compare(library, raw.DEFAULT_CALLS, 1)

    def test_every_number_of_every_call(self):
        seen = self.seen.answers
        for name, numbers in POSSIBLE.items():
            self.assertEqual({key[1] for key in seen if key[0] == name}, numbers, name)
            # Under P of 256, too, but for those that hang on lengths alone.
            is_start = raw.made_on_book(name) == "start"
            by_lengths = {book.NO_ROOM, book.BAD_BOOK} if is_start else {book.NO_ROOM}
            full = {key[1] for key in seen if key[0] == name and key[3]}
            self.assertEqual(full - by_lengths, numbers - by_lengths, name)
        for name in ("compare", "label_compare"):
            self.assertEqual({key[2] for key in seen if key[:2] == (name, 0)}, {1, 2, 3, 4, 5})
        self.assertEqual({key[2] for key in seen if key[:2] == ("receive", 0)}, set(range(8)))
        self.assertEqual({key[2] for key in seen if key[:2] == ("office_receive", 0)}, set(range(8)))
        self.assertEqual({key[2] for key in seen if key[:2] == ("picture", 0)},
                         {(), *itertools.combinations(range(8), 2)})
        # Each answer of may, on the full ring and on others.
        self.assertEqual({key[2:] for key in seen if key[:2] == ("may", 0)},
                         set(itertools.product((0, 11, 12, 13), (False, True))))

    def found(self, library, *parts, batches=None):
        with contextlib.redirect_stdout(io.StringIO()) as told:
            self.assertIsNone(self.compare(library, batches))
        for part in parts:
            self.assertIn(part, told.getvalue())

    def test_each_error_is_found(self):
        for errors, batches in ((RAW_ERRORS, self.few), (RING_ERRORS + RAW_RING_ERRORS, self.few_of_rings),
                                (SUMMARY_ERRORS + RAW_SUMMARY_ERRORS, self.few_of_the_office)):
            for name, error in errors:
                with self.subTest(error.__name__):
                    self.found(stand_in_library(**{name: error}), "differs", "second", "library", batches=batches)

    def test_every_phase_is_read_in_every_kind_of_row(self):
        """Of the right books alone, so that a ring of 255 has no 255."""
        kinds = *raw.ROWS, "record"
        self.assertEqual(self.seen.phases,
                         {(P, kind, phase) for P in (255, 256) for kind in kinds for phase in range(P)})

    def test_books_with_every_phase(self):
        """All are sound, and each has every phase of its ring in its slots."""
        for P, turn in itertools.product(raw.LARGE_RINGS, range(8)):
            given = raw.every_phase_book(random.Random(turn), P, turn)
            self.assertTrue(book.sound(given))
            rows = (given[at + 4:at + 20:2] for at in range(book.SHELF_AT, book.BOOK_BYTES, 20))
            self.assertEqual({*itertools.chain(*rows)}, {*range(P)})

    def test_phase_255_in_each_kind_of_row(self):
        """In fours: on a ring of 256 a seat, mail and slot with it are sound, and so is an own one."""
        numbers = [raw.answer_of(*trial)[0] for trial in raw.last_phase_trials(random.Random(3))]
        self.assertNotIn(book.BAD_BOOK, numbers[:32])
        self.assertEqual({*numbers[32:]}, {book.BAD_BOOK})

    def test_lags_about_their_bounds_at_the_seam(self):
        """In threes: accepted, refused by that kind of row, and not sound unless that lag has come round."""
        seen, numbers = set(), []
        for trial in raw.seam_lag_trials(random.Random(3)):
            numbers.append(unkept(trial))
            if len(numbers) == 3:
                seen.add((*told_of_lag(trial), tuple(numbers)))
                numbers = []
        for (P, M, A), (kind, (number, bound)), own in itertools.product(
                raw.SEAM_LAGS, raw.ROWS.items(), raw.SEAM_PHASES):
            most = bound(book.Setup(2, P, (2, 2), M, A, 1, 1))
            if own < P:
                beyond = book.DONE if most == P - 1 else book.BAD_BOOK
                self.assertIn((P, M, A, own, (0, number, beyond)), seen, kind)

    def test_bytes_for_P(self):
        """1 and 2 make no sound book, 0 and any other do where the book keeps to the ring."""
        seen = {(given[3], raw.answer_of(*trial)[0] == book.BAD_BOOK)
                for trial in raw.ring_byte_trials(random.Random(3))
                for given in [raw.parted(trial[1])[1][0].content()]}
        self.assertEqual(seen, {(1, True), (2, True), *itertools.product((0, 3, 4, 254, 255), (False, True))})

    def test_numbers_for_P_and_A(self):
        """Of every width, in range or not, to start and of records."""
        seen = set()
        for name, arguments in raw.ring_number_trials(random.Random(3)):
            (D, P, M, A, m, n), _ = raw.parted(arguments)
            good = 3 <= P <= 256 and A < P and P > 2 * M and P >= m + n
            self.assertEqual(raw.answer_of(name, arguments)[0] == book.BAD_SETUP, not good)
            seen |= {(name, "P", P, good), (name == "start", "A", P, A, good)}
        for P, name in itertools.product(raw.RING_NUMBERS, ("start", *raw.LABEL_CALLS)):
            self.assertIn((name, "P", P, 3 <= P <= 256), seen)
        for P, A, is_start in itertools.product(raw.LARGE_RINGS, raw.SHELF_LAGS, (False, True)):
            self.assertIn((is_start, "A", P, A, A < P), seen)
        self.assertLessEqual({0, 256, 512, 2**16, 2**16 + 256, 2**32, 2**32 + 256, 2**63 + 256, 2**64 - 256},
                             {*raw.RING_NUMBERS})

    def test_records_with_every_phase(self):
        """On a ring of 256 all read; on one of 255 those with 255 do not."""
        read = {P: set() for P in raw.LARGE_RINGS}
        for name, arguments in raw.label_phase_trials(random.Random(3)):
            (_, P, *_), lent = raw.parted(arguments)
            phases = {phase for label in lent[1:3] for phase in label.content()[4::2]}
            bad = raw.answer_of(name, arguments)[0] == book.BAD_STAMP
            self.assertEqual(bad, 255 in phases and P == 255)
            read[P] |= set() if bad else phases
        self.assertEqual(read, {P: {*range(P)} for P in raw.LARGE_RINGS})

    def test_the_reach_of_records_at_the_seam(self):
        """Each end of it and one beyond, from phases about the seam, by whether it goes from a reset."""
        seen = {told_of_reach(trial) for trial in raw.label_seam_trials(random.Random(3))}
        rings = itertools.product(raw.LARGE_RINGS, ((127, 127), (2, 3)), (False, True))
        self.assertEqual(seen, {
            (P, m, n, is_reset, phase, d % P, d if 1 - m - is_reset <= d < n else None)
            for P, (m, n), is_reset in rings
            for phase in (0, 1, P - 2, P - 1) for d in (-m - 1, -m, 1 - m, n - 1, n)})

    def test_the_shelf_beside_each_reason(self):
        """With no slot free and with one, by wishes and lengths of the slot buffer."""
        seen = set(map(told_of_shelf, raw.shelf_trials(random.Random(3))))
        for (name, unkept), room in itertools.product(raw.UNKEPT, (0, 1, 2)):
            full = unkept if unkept in (book.PHASE_FULL, book.MAIL_FULL) else book.SHELF_FULL
            self.assertLessEqual({(name, unkept, 0, wish, room, full if wish else unkept)
                                  for wish in raw.WISHES}, seen)
        for name, room in itertools.product(listing.EVENTS, (0, 1, 2)):
            last = book.NO_ROOM if room == 0 else book.DONE
            self.assertLessEqual({(name, 0, 1, wish, room, last if wish else book.DONE)
                                  for wish in raw.WISHES}, seen)

    def test_mail_tells_of_none_to_all(self):
        """Counted by remainders, whatever the mail says of the rest and of the receiver itself."""
        seen = [told_of_mail(trial) for trial in raw.told_trials(random.Random(3))]
        for learnt, kinds, _, _ in seen:
            self.assertEqual(learnt, kinds.count(raw.LATER))
        self.assertEqual({learnt for learnt, _, _, nought in seen if nought}, set(range(8)))
        every = raw.LATER, raw.EQUAL, raw.OLDER
        self.assertEqual({(learnt, own) for learnt, _, own, _ in seen},
                         set(itertools.product(range(8), every)))
        mixed = {frozenset(kinds) for kinds in itertools.product(every, repeat=3)}
        self.assertEqual({(frozenset(kinds), own) for _, kinds, own, _ in seen},
                         set(itertools.product(mixed, every)))

    def test_the_learnt_buffer_beside_each_reason(self):
        """Too short is NoRoom where nothing else refuses, kept or not; a refusal leaves every byte."""
        seen = set()
        for name, arguments in raw.learnt_room_trials(random.Random(3)):
            (*_, wish), lent = raw.parted(arguments)
            roomy, (number, memories) = raw.answer_of(name, arguments)[0], raw.expected(name, arguments)
            seen.add((roomy, wish > 0, lent[2].length, lent[3].length, number))
            if number != book.DONE:
                self.assertEqual(memories, [buffer.memory for buffer in lent])
        for wish, room, slot in itertools.product((False, True), (0, 1, 2), (0, 1)):
            short = room == 0 or (wish and slot == 0)
            numbers = {(0, 15 if short else 0), (8, 8)} | ({(10, 10)} if wish else set())
            self.assertEqual({(one[0], one[4]) for one in seen if one[1:4] == (wish, room, slot)}, numbers)

    def test_each_two_desks_are_at_odds_each_way(self):
        """Told by remainders: one way, the other and both ways, among eight desks and among fewer."""
        seen = set()
        for desks, kinds, values in map(told_of_picture, raw.odds_trials(random.Random(3))):
            odd = sorted(pair for pair, two in kinds.items() if raw.LATER in two)
            self.assertEqual(values, (False, bytes(odd[0])) if odd else (True,))
            if odd:
                seen.add((desks, odd[0], *(kind == raw.LATER for kind in kinds[odd[0]])))
            else:
                seen.add((desks, frozenset(sum(kinds.values(), ()))))
        ways = (True, False), (False, True), (True, True)
        for desks in (2, 3, 5, 8):
            for pair, way in itertools.product(itertools.combinations(range(desks), 2), ways):
                self.assertIn((desks, pair, *way), seen)
        for desks in range(3, 9):
            self.assertIn((desks, frozenset((raw.EQUAL, raw.OLDER))), seen)

    def test_lists_that_do_not_fit(self):
        """Out of reach by stamps that are not their place's, by two of one owner; wrong owners in reach."""
        seen = set()
        for name, arguments in raw.misfit_trials(random.Random(3)):
            content, listed, *_ = (buffer.content() for buffer in raw.parted(arguments)[1])
            owners = tuple(content[book.slot_at(slot) + 2] - 1 for slot in raw.numbers_in(listed) if slot < 32)
            seen.add((owners, raw.answer_of(name, arguments)[0]))
        for owners in ((0, 0), (1, 1), (1, 0)):
            for number in (book.OUT_OF_REACH, book.WRONG_OWNER):
                self.assertIn((owners, number), seen)
        self.assertLessEqual({((0, 1), number) for number in (book.DONE, book.OUT_OF_REACH)}, seen)
        self.assertLessEqual({number for _, number in seen}, {0, 1, 5, 16, 18})

    def test_lists_of_every_length(self):
        lengths, wide = set(), set()
        for name, arguments in raw.list_trials(random.Random(3)):
            slots = raw.numbers_in(raw.parted(arguments)[1][1].content())
            lengths.add(len(slots))
            wide |= {slot for slot in slots if slot > 31}
            if max(slots, default=0) > 31:
                self.assertEqual(raw.answer_of(name, arguments)[0], book.NO_PLACE)
        self.assertLessEqual({*range(11), 256, 257, 258, 2**16 + 8}, lengths)
        self.assertLessEqual({32, 255, 256, 2**32, 2**64 - 1}, wide)

    def test_no_call_but_start_changes_a_limit(self):
        """Nor any byte of the header, on whatever book."""
        for asked in self.every_call:
            if raw.made_on_book(asked.name) not in ("start", "may", *raw.LABEL_CALLS):
                before = asked.arguments[0].content()
                after = asked.memories[0][raw.GUARD:-raw.GUARD]
                self.assertEqual(before[19:176:20], after[19:176:20])
                self.assertEqual(before[:16], after[:16])

    def test_clocks_about_their_limits(self):
        """In threes: a column's last clock is sound and the next two are not, in every kind of row."""
        trials = list(raw.clock_trials(random.Random(3)))
        self.assertEqual([raw.answer_of(*trial)[0] == book.BAD_BOOK for trial in trials],
                         [False, True, True] * (len(trials) // 3))
        contents = [raw.parted(arguments)[1][0].content() for _, arguments in trials]
        seen = {kind for two in zip(contents[::3], contents[1::3]) for kind in told_of_clock(*two)}
        self.assertEqual(seen, stored.LAST_CLOCKS)

    def test_phases_are_full_by_their_own_limits(self):
        """By turns at the last clock and at the one before."""
        numbers = [raw.answer_of(*trial)[0] for trial in raw.full_trials(random.Random(3))]
        self.assertEqual({*numbers[::2]}, {book.PHASE_FULL})
        self.assertNotIn(book.PHASE_FULL, numbers[1::2])
        self.assertIn(book.DONE, numbers[1::2])

    def test_records_about_their_limits(self):
        """In fours: two clocks too large, the last one, and that under limits exchanged, by which it reads or not."""
        numbers = [raw.answer_of(*trial)[0] for trial in raw.label_limit_trials(random.Random(3))]
        self.assertEqual({*numbers[::4], *numbers[1::4]}, {book.BAD_STAMP})
        self.assertEqual({*numbers[2::4]}, {book.DONE, book.OUT_OF_REACH})
        self.assertEqual({*numbers[3::4]}, {book.DONE, book.OUT_OF_REACH, book.BAD_STAMP})

    def test_lists_of_limits(self):
        """Of every length, right for D or not; limits of every width, in range or not."""
        rng, lists, limits = random.Random(3), set(), set()
        for name, arguments in (*raw.limit_list_trials(rng), *raw.odd_limit_trials(rng)):
            (D, *_), lent = raw.parted(arguments)
            is_start = name == "start"
            listed = raw.numbers_in(lent[is_start].content())
            good = D in range(2, 9) and len(listed) == D and {*listed} <= {*range(2, 256)}
            self.assertEqual(raw.answer_of(name, arguments)[0] == book.BAD_SETUP, not good)
            lists.add((is_start, D, len(listed)))
            limits |= {(is_start, limit) for limit in listed}
        counts = {*itertools.product(range(2, 9), range(11)), *((D, 256 + D) for D in range(2, 9)),
                  (8, 2**16 + 8), (0, 0), (1, 1), (9, 9), (10, 10), (258, 2), (2**32 + 8, 8)}
        self.assertLessEqual({(is_start, *count) for is_start in (False, True) for count in counts}, lists)
        self.assertLessEqual(set(itertools.product((False, True), (0, 1, 2, 255, 256, 257, 2**64 - 1))), limits)

    def test_limits_damaged_in_each_seat(self):
        """A fresh book is not sound by a limit of 0 or 1 below D, nor by any but 0 from D on."""
        trials = list(raw.limit_byte_trials(random.Random(3)))
        for at, (D, desk) in enumerate(itertools.product((2, 5, 8), range(8))):
            numbers = [raw.answer_of(*trial)[0] for trial in trials[12 * at:12 * at + 12]]
            bad = [True, True, False, False] if desk < D else [False, True, True, True]
            self.assertEqual([number == book.BAD_BOOK for number in numbers[:4]], bad)
            for number, never in zip(numbers, bad * 3):
                self.assertTrue(number == book.BAD_BOOK or not never)

    def test_limits_in_the_header(self):
        self.assertEqual({raw.answer_of(*trial)[0] for trial in raw.header_limit_trials(random.Random(3))},
                         {book.BAD_BOOK})

    def test_a_setup_as_it_is_asked(self):
        """The list of limits is lent behind the book, and before records, eight bytes for each limit."""
        rng = random.Random(3)
        limits = b"\4" + bytes(7) + b"\0\1" + bytes(6) + b"\xff" * 8
        setup = 3, 5, [4, 256, 2**64 - 1], 2, 4, 6, 7
        start = raw.call_on(rng, "start", raw.Lent(rng, b"book"), setup)
        newest = raw.label_call(rng, "label_newest", setup, (b"first", b"second"))
        for (name, arguments), place, lengths in ((start, 0, [4, 24]), (newest, 14, [24, 5, 6])):
            numbers, lent = raw.parted(arguments)
            self.assertEqual(numbers, [3, 5, 2, 4, 6, 7])
            self.assertEqual([buffer.length for buffer in lent][:3], lengths)
            self.assertEqual(lent[lengths.index(24)].content(), limits)
            asked = raw.frame(raw.Asked(name, arguments, None, None))
            self.assertEqual(asked[:3], bytes((place, 6, len(lent))))
            self.assertEqual(asked[3:51:8], bytes((3, 5, 2, 4, 6, 7)))
            self.assertEqual(sum(asked[3:51]), 27)
            self.assertEqual(asked[51:59], lengths[0].to_bytes(8, "little"))

    def test_a_picture_as_it_is_asked(self):
        """The list is lent between the book and the value buffers, eight bytes for each slot, the least first."""
        rng = random.Random(3)
        arguments = raw.picture_trial(rng, b"book", [1, 256, 2**64 - 1])[1]
        numbers, lent = raw.parted(arguments)
        self.assertEqual((numbers, [buffer.length for buffer in lent]), ([], [4, 24, 1, 2]))
        slots = b"\1" + bytes(7) + b"\0\1" + bytes(6) + b"\xff" * 8
        self.assertEqual(lent[1].content(), slots)
        asked = raw.frame(raw.Asked("picture", arguments, None, None))
        self.assertEqual(asked[:11], bytes((9, 0, 4)) + b"\4" + bytes(7))
        self.assertEqual(asked[63:71], b"\x18" + bytes(7))
        self.assertEqual(asked[95:119], slots)

    def test_picture_buffers_beside_each_reason(self):
        """Too short is NoRoom after 1 and 5 and before 16 and 18, with a value for it or not."""
        seen = set()
        for name, arguments in raw.picture_room_trials(random.Random(3)):
            lent = raw.parted(arguments)[1]
            (roomy, _, values), (number, memories) = (
                part(name, arguments) for part in (raw.answer_of, raw.expected))
            seen.add((roomy, len(values), lent[2].length, lent[3].length, number))
            if number != book.DONE or len(values) == 1:
                self.assertEqual(memories[3], lent[3].memory)
            if number != book.DONE:
                self.assertEqual(memories, [buffer.memory for buffer in lent])
        self.assertEqual(seen, {
            (number, values, answer, odds,
             15 if number not in (1, 5) and (answer < 1 or odds < 2) else number)
            for number, values in raw.PICTURES for answer in range(3) for odds in range(4)})

    def test_picture_buffers_are_asked_always(self):
        self.found(asks_answer_never, "second answers 15")
        self.found(asks_odds_never, "second answers 15")
        self.found(asks_odds_where_there_are_any, "second answers 15")
        self.found(asks_room_last, "second answers 15")

    def test_odds_are_written_where_there_are_any(self):
        for change in (zeros_beside_yes, the_higher_first, yes_and_no_swapped):
            self.found(with_odds(change), "picture differs", "buffer ")

    def test_slot_buffers_are_asked_where_it_is_kept(self):
        self.found(asks_a_slot_always, "library 15")
        self.found(asks_a_slot_never, "second answers 15")

    def test_learnt_buffers_are_asked_always(self):
        self.found(asks_learnt_never, "second answers 15")
        self.found(asks_learnt_where_kept, "second answers 15")

    def test_the_office_finds_each_error_of_a_change(self):
        """As the calls on the book alone do."""
        for name, error in OFFICE_ERRORS:
            with self.subTest(error.__name__):
                self.found(stand_in_library(**{name: error}), "office_", "differs", batches=self.few_of_the_office)

    def test_summaries_of_every_length(self):
        """26 alone will do, for each change that is done on its book."""
        seen = {told_of_office(trial) for trial in raw.summary_length_trials(random.Random(3))}
        self.assertEqual(seen, {(name, 0, length, True, 0 if length == 26 else 21)
                                for name in listing.CHANGES for length in raw.SUMMARY_LENGTHS})
        self.assertLessEqual({*range(41), 256, 282, 2**16 + 26}, {*raw.SUMMARY_LENGTHS})

    def test_summaries_of_every_kind(self):
        """Whatever they were, they are true of the book that is left; also where they were true before."""
        seen = set()
        for name, arguments in raw.summary_content_trials(random.Random(3)):
            given, summary = arguments[:2]
            number, (after, told, *_) = raw.expected(name, arguments)
            after, told = (memory[raw.GUARD:-raw.GUARD] for memory in (after, told))
            self.assertEqual((number, told), (0, counted_lags(after)))
            seen.add((name, summary.content()[:2] == b"SU", summary.content() == counted_lags(given.content())))
        self.assertEqual(seen, {(f"office_{name}", *kind) for name in listing.CHANGES
                                for kind in ((True, True), (True, False), (False, False))})

    def test_room_comes_before_the_summary(self):
        seen = {told_of_office(trial) for trial in raw.summary_room_trials(random.Random(3))}
        self.assertEqual(seen, {(name, 0, length, room, 15 if not room else 0 if length == 26 else 21)
                                for name in listing.EVENTS for length in (0, 25, 26, 27) for room in (False, True)})

    def test_the_book_comes_before_the_summary(self):
        """Each reason, under P of 256 and under any; nothing is changed."""
        seen = set()
        for name, arguments in raw.summary_reason_trials(random.Random(3)):
            alone, on_book, length, _, number = told_of_office((name, arguments))
            self.assertEqual(number, on_book)
            memories = raw.expected(name, arguments)[1]
            self.assertEqual(memories, [buffer.memory for buffer in raw.parted(arguments)[1]])
            seen.add((alone, number, length))
        self.assertEqual(seen, {(name, number, length) for name in listing.CHANGES
                                for number in POSSIBLE[name] - {0, 15} for length in (0, 25, 26, 27)})

    def test_books_of_every_kind(self):
        """All sound: full shelves, desks that have not started, both large rings, and each lag at its bound."""
        seen = set()
        for given in raw.books_of_every_kind(random.Random(3)):
            self.assertTrue(book.sound(given))
            setup, summary = book.setup_of(given), counted_lags(given)
            owners, started = given[818::20], given[18:18 + 20 * setup.D:20]
            seen |= {("P", setup.P), ("full", min(owners) > 0), ("all", min(started) > 0)}
            for at, bound in enumerate((setup.M, 2 * setup.M, setup.A)):
                lags = summary[2 + at:2 + 3 * setup.D:3]
                seen |= {("lag", at, "bound") for lag in lags if lag == bound}
                seen |= {("lag", at, "below") for lag in lags if 0 < lag == bound - 1}
        self.assertLessEqual({("P", 255), ("P", 256), *itertools.product(("full", "all"), (False, True)),
                              *itertools.product(("lag",), range(3), ("bound", "below"))}, seen)

    def test_mail_tells_through_the_office(self):
        trials = raw.office_told_trials(random.Random(3))
        self.assertEqual([raw.answer_of(*trial)[2][1] for trial in trials], [*range(8)])

    def test_lags_of_summaries_about_their_bounds(self):
        """Each of the 24 at its bound, where it reads, and above it, where it does not; of any desk."""
        seen = set()
        for setup, summary, desk, _, number, value in map(told_of_may, raw.may_bound_trials(random.Random(3))):
            bounds = (setup.M, 2 * setup.M, setup.A) * 8
            good = all(lag <= bound for lag, bound in zip(summary[2:], bounds))
            self.assertEqual((number, value), (0, by_lags(setup, *summary[2 + 3 * desk:5 + 3 * desk]))
                             if good else (21, None))
            seen |= {(*setup[:2], at, lag - bound if lag - bound < 2 else "far", desk == at // 3)
                     for at, (lag, bound) in enumerate(zip(summary[2:], bounds)) if lag >= bound}
        for (D, P), at in itertools.product(((2, 200), (5, 9), (8, 254)), range(24)):
            self.assertLessEqual({(D, P, at, more) for more in (0, 1, "far")}, {one[:4] for one in seen})
        self.assertLessEqual({(D, at, 0) for D in (2, 8) for at in range(24)},
                             {(D, at, more) for D, P, at, more, _ in seen if P == 256})
        self.assertEqual({one[3:] for one in seen}, set(itertools.product((0, 1, "far"), (False, True))))

    def test_what_may_is_asked(self):
        """Lengths, marks, desks and setups, each in the order of the reasons."""
        seen = set()
        for trials in (raw.may_summary_trials, raw.may_desk_trials, raw.may_setup_trials, raw.may_reason_trials):
            for setup, summary, desk, room, number, _ in map(told_of_may, trials(random.Random(3))):
                reads = book.summary_reads(setup, summary)
                self.assertEqual(number, 2 if not book.permitted(setup) else 3 if desk >= setup.D
                                 else 15 if room < 1 else 0 if reads else 21)
                seen |= {("length", len(summary), number), ("mark", summary[:2], number), ("desk", desk, number),
                         ("reasons", book.permitted(setup), desk < setup.D, room, len(summary) == 26),
                         ("reads", reads, number)}
        self.assertLessEqual({("length", length, 0 if length == 26 else 21) for length in raw.SUMMARY_LENGTHS}, seen)
        self.assertLessEqual({("mark", mark, 21) for mark in (b"ST", b"TU", b"US", bytes(2))}, seen)
        self.assertLessEqual({("desk", desk, 3) for desk in (2, 7, 8, 255, 256, 2**32, 2**64 - 1)}, seen)
        every = itertools.product(("reasons",), (False, True), (False, True), (0, 1, 2), (False, True))
        self.assertLessEqual({*every, *itertools.product(("reads",), (False, True), (3, 15))}, seen)

    def test_may_beside_the_reset(self):
        """By turns: what may tells of a true summary is what the reset of its book is answered."""
        trials, seen = list(raw.may_reset_trials(random.Random(3))), set()
        for may, (name, arguments) in zip(trials[::2], trials[1::2]):
            setup, summary, desk, _, number, value = told_of_may(may)
            given = arguments[0].content()
            self.assertEqual((name, arguments[1:3], summary), ("reset", [desk, 0], counted_lags(given)))
            self.assertEqual((setup, number, value), (book.setup_of(given), 0, book.reset(given, desk, 0)[0]))
            seen.add((value, setup.P == 256))
        self.assertEqual(seen, set(itertools.product((0, 11, 12, 13), (False, True))))

    def test_the_office_and_may_as_they_are_asked(self):
        """The summary is lent behind the book, or behind the limits, and the desk is may's last number."""
        rng, lent = random.Random(3), lambda content: raw.Lent(rng, content)
        start = raw.office_call(rng, "start", lent(b"book"), lent(b"summary"), (3, 5, [4], 2, 4, 6, 7))
        send = raw.office_call(rng, "send", lent(b"book"), lent(b"summary"), [8, 9, 1], (20, 1, 1))
        drop = raw.office_call(rng, "drop", lent(b"book"), lent(b"summary"), [8])
        may = raw.may_call(rng, (3, 5, [4], 2, 4, 6, 7), b"summary", 9)
        for (name, arguments), place, numbers, lengths in (
                (start, 15, [3, 5, 2, 4, 6, 7], [4, 7, 8]), (send, 17, [8, 9, 1], [4, 7, 20, 1, 1]),
                (drop, 20, [8], [4, 7]), (may, 22, [3, 5, 2, 4, 6, 7, 9], [8, 7, 1])):
            asked = raw.frame(raw.Asked(name, arguments, None, None))
            self.assertEqual(asked[:3], bytes((place, len(numbers), len(lengths))))
            self.assertEqual([*asked[3:3 + 8 * len(numbers):8]], numbers)
            self.assertEqual([buffer.length for buffer in raw.parted(arguments)[1]], lengths)
        self.assertEqual([*raw.NEEDS][15:], ["office_start", "office_local", "office_send", "office_receive",
                                             "office_reset", "office_drop", "office_discard", "may"])

    def test_a_driver_that_asks_the_office_otherwise(self):
        """The summary before the room, no room for a value, and a summary that a refusal spoils."""
        short = [asks_less(**{name: seeds.placed(raw.NEEDS[name], at, 0)})
                 for name in (*raw.OFFICE_CALLS, "may") for at in range(len(raw.NEEDS[name]))]
        self.assertEqual(len(short), 11)
        for library in (asks_the_summary_before_room, asks_a_slot_never, *short):
            self.found(library, "second answers 15", batches=self.few_of_the_office)
        self.found(asks_a_slot_always, "library 15", batches=self.few_of_the_office)
        self.found(spoils_where_refused, "buffer 1, byte ", batches=self.few_of_the_office)

    def test_a_bad_driver_is_told(self):
        self.found(beside, f"call {raw.BATCH} of seed 1", "buffer ")
        self.found(ends_early, f"call {raw.BATCH} of seed 1", "ends with -11")
        self.found(ends_badly, "ends with 3")


if __name__ == "__main__":
    unittest.main()
