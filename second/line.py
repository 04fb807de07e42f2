"""The same calls by another route: phases that never come round.

Each event knows the set of all events that lead to it (and itself). A row is
read off that set: for each desk the pair of its last event there, 0.0 if none.
No pair is ever merged, and no lag goes round a ring. How much a receipt told is
counted on these sets, and a picture is judged by them, too. Whether a desk may
reset is told by the true phases that are furthest behind it. Phases come round
only where they are printed or laid out as bytes.

Beside its set each event has an ordinary vector, the counts of the events that
it knows of, by which a picture is judged once more.
"""

from itertools import combinations

PLACES = SLOTS = 32


def permitted(D, P, limits, M, A, m, n):
    if D not in range(2, 9) or P not in range(3, 257):
        return False
    if [limit in range(2, 256) for limit in limits] != [True] * D:
        return False
    if M not in range(1, 128) or m not in range(1, 128) or n not in range(1, 128):
        return False
    return A in range(M, P) and 2 * M < P and m + n <= P


class Event:
    """The event before it at its desk, and the one that sent its mail, lead to it."""

    def __init__(self, desks, desk, pair, before, mail, is_reset):
        self.desk = desk
        self.before = before
        self.mail = mail
        self.is_reset = is_reset
        self.turn = before.turn + 1 if before else 0
        self.phase, self.clock = pair
        self.past = frozenset((self,)).union(past_of(before), past_of(mail))
        self.pairs = last_pairs(desks, self.past)
        self.counts = counted(desks, self)


def past_of(event):
    """The event's set, which is empty where there is no event."""
    return event.past if event else frozenset()


def learnt(receipt):
    """How many other desks have an event behind it that the event before it had not."""
    told = receipt.past - past_of(receipt.before)
    return len({event.desk for event in told} - {receipt.desk})


def last_pairs(desks, past):
    """The pair of each desk's last event in a set of events."""
    last = [None] * desks
    for event in past:
        known = last[event.desk]
        if known is None or event.turn > known.turn:
            last[event.desk] = event
    return [(event.phase, event.clock) if event else (0, 0) for event in last]


def counted(desks, event):
    """The ordinary vector: of what is known the larger counts, and one more at the event's own desk."""
    known = [cause.counts for cause in (event.before, event.mail) if cause]
    counts = [max(column) for column in zip([0] * desks, *known)]
    counts[event.desk] += 1
    return counts


def causes_of(events):
    """These events and all that lead to one of them."""
    return frozenset().union(*(event.past for event in events))


def first_free(room):
    return room.index(None) if None in room else None


def used(room, number):
    return number < len(room) and room[number] is not None


class Run:
    """All calls since one accepted start."""

    def __init__(self, *setup):
        self.setup = setup
        self.D, self.P, self.limits, self.M, self.A, self.m, self.n = setup
        self.events = []
        self.last = [None] * self.D
        self.mail = [None] * PLACES
        self.shelf = [None] * SLOTS

    # What a desk has seen

    def pairs(self, desk):
        event = self.last[desk]
        return event.pairs if event else [(0, 0)] * self.D

    def own(self, desk):
        return self.pairs(desk)[desk]

    def left(self, desk):
        """How many clock values of its own the desk has left in its phase."""
        return self.limits[desk] - 1 - self.own(desk)[1]

    def full(self, desk):
        return self.left(desk) == 0

    def behind(self, desk, pairs):
        """How many true phases a row is behind a desk."""
        return self.own(desk)[0] - pairs[desk][0]

    # Events

    def happen(self, desk, pair, mail=None, is_reset=False):
        event = Event(self.D, desk, pair, self.last[desk], mail, is_reset)
        self.events.append(event)
        self.last[desk] = event
        return event

    def tick(self, desk, mail=None):
        phase, clock = self.own(desk)
        return self.happen(desk, (phase, clock + 1), mail)

    def no_slot(self, keep):
        return bool(keep) and None not in self.shelf

    def kept(self, event, keep):
        """Where it is kept, the slot that the event itself stands behind."""
        if not keep:
            return ()
        slot = first_free(self.shelf)
        self.shelf[slot] = event
        return (slot,)

    def local(self, desk, keep):
        if desk >= self.D:
            return 3, ()
        if self.full(desk):
            return 8, ()
        if self.no_slot(keep):
            return 10, ()
        event = self.tick(desk)
        return 0, (event, *self.kept(event, keep))

    def send(self, desk, to, keep):
        if max(desk, to) >= self.D:
            return 3, ()
        if desk == to:
            return 4, ()
        if self.full(desk):
            return 8, ()
        place = first_free(self.mail)
        if place is None:
            return 9, ()
        if self.no_slot(keep):
            return 10, ()
        event = self.tick(desk)
        self.mail[place] = (event, to)
        return 0, (place, event, *self.kept(event, keep))

    def receive(self, desk, place, keep):
        if desk >= self.D:
            return 3, ()
        if not used(self.mail, place):
            return 5, ()
        sent, to = self.mail[place]
        if to != desk:
            return 6, ()
        if self.full(desk):
            return 8, ()
        if self.no_slot(keep):
            return 10, ()
        self.mail[place] = None
        event = self.tick(desk, sent)
        return 0, (event, learnt(event), *self.kept(event, keep))

    def reset(self, desk, keep):
        if desk >= self.D:
            return 3, ()
        if self.no_slot(keep):
            return 10, ()
        seats = [self.pairs(other) for other in range(self.D)]
        if any(self.behind(desk, seat) >= self.M for seat in seats):
            return 11, ()
        waiting = [mail[0].pairs for mail in self.mail if mail]
        if any(self.behind(desk, row) >= 2 * self.M for row in waiting):
            return 12, ()
        shelf = [event.pairs for event in self.shelf if event]
        if any(self.behind(desk, row) >= self.A for row in shelf):
            return 13, ()
        event = self.happen(desk, (self.own(desk)[0] + 1, 0), is_reset=True)
        return 0, (event, *self.kept(event, keep))

    # What stands in the way of a reset

    def furthest(self, desk):
        """How many true phases other seats, waiting mail and kept stamps are behind a desk at most."""
        rooms = ([self.pairs(other) for other in range(self.D) if other != desk],
                 [mail[0].pairs for mail in self.mail if mail],
                 [event.pairs for event in self.shelf if event])
        own = self.own(desk)[0]
        return [own - min((pairs[desk][0] for pairs in rows), default=own) for rows in rooms]

    def may(self, desk):
        """Yes, or the number for the first that can be no further behind."""
        if desk >= self.D:
            return 3, ()
        bounds = {11: self.M, 12: 2 * self.M, 13: self.A}
        behind = [number for (number, most), phases in zip(bounds.items(), self.furthest(desk))
                  if phases >= most]
        return 0, tuple(behind[:1]) or (True,)

    # Shelf and mail

    def drop(self, slot):
        return self.free(self.shelf, slot)

    def discard(self, place):
        return self.free(self.mail, place)

    def free(self, room, number):
        if not used(room, number):
            return 5, ()
        room[number] = None
        return 0, ()

    # Comparing, by chains

    def difference(self, e, f):
        """How many true phases of e's desk f is ahead of e."""
        return f.pairs[e.desk][0] - e.phase

    def within_reach(self, e, f):
        """The m-th reset before e is a phase further back where e is a reset itself."""
        furthest = -self.m if e.is_reset else 1 - self.m
        return furthest <= self.difference(e, f) < self.n

    def leads(self, e, f):
        """A chain leads from e to f, and they are two events."""
        return e is not f and e in f.past

    def before_events(self, e, f):
        if not self.within_reach(e, f):
            return 16, ()
        return 0, (self.leads(e, f),)

    def compare_events(self, e, f):
        if not (self.within_reach(e, f) and self.within_reach(f, e)):
            return 16, ()
        if e is f:
            return 0, ("same",)
        if self.leads(e, f):
            return 0, ("before",)
        return 0, ("after" if self.leads(f, e) else "concurrent",)

    def before(self, first, second):
        if not (used(self.shelf, first) and used(self.shelf, second)):
            return 5, ()
        return self.before_events(self.shelf[first], self.shelf[second])

    def compare(self, first, second):
        if not (used(self.shelf, first) and used(self.shelf, second)):
            return 5, ()
        return self.compare_events(self.shelf[first], self.shelf[second])

    # A picture, by the events up to each chosen one and those beyond it

    def picture_number(self, slots):
        if len(slots) != self.D or not all(used(self.shelf, slot) for slot in slots):
            return 5
        chosen = [self.shelf[slot] for slot in slots]
        if not all(self.within_reach(e, f) for e in chosen for f in chosen):
            return 16
        if [event.desk for event in chosen] != list(range(self.D)):
            return 18
        return 0

    def picture(self, *slots):
        number = self.picture_number(slots)
        if number != 0:
            return number, ()
        return 0, self.pictured([self.shelf[slot] for slot in slots])

    def pictured(self, chosen):
        """Yes where the prefixes hold all causes of their events, else the first two desks at odds."""
        inside = [self.up_to(choice) for choice in chosen]
        causes = [causes_of(events) for events in inside]
        if frozenset().union(*causes) <= frozenset().union(*inside):
            return (True,)
        beyond = [self.beyond(choice) for choice in chosen]
        return next((i, k) for i, k in combinations(range(self.D), 2)
                    if causes[i] & beyond[k] or causes[k] & beyond[i])

    def up_to(self, choice):
        return {event for event in self.events
                if event.desk == choice.desk and event.turn <= choice.turn}

    def beyond(self, choice):
        return {event for event in self.events
                if event.desk == choice.desk and event.turn > choice.turn}

    def pictured_by_counts(self, chosen):
        """The same by ordinary vectors: neither counts more events of the other's desk than the other."""
        for i, k in combinations(range(self.D), 2):
            one, other = chosen[i].counts, chosen[k].counts
            if other[i] > one[i] or one[k] > other[k]:
                return i, k
        return (True,)

    # The bytes this run should have

    def row(self, pairs):
        row = [number for phase, clock in pairs for number in (phase % self.P, clock)]
        return bytes(row).ljust(16, b"\0")

    def label(self, event):
        return b"ST" + bytes((event.desk, self.D)) + self.row(event.pairs)

    def book(self):
        # The header's byte for 256 phases is 0.
        parts = [b"BK", bytes((self.D, self.P % 256, 0, self.M, self.A, self.m, self.n)), bytes(7)]
        for limit, event in zip(self.limits, self.last):
            parts += [b"SE", bytes((bool(event), limit)), self.row(event.pairs if event else ())]
        parts += [b"SE", bytes(18)] * (8 - self.D)
        for mail in self.mail:
            parts += [b"MA", self.mail_bytes(*mail) if mail else bytes(18)]
        for event in self.shelf:
            parts += [b"SH", self.slot_bytes(event) if event else bytes(18)]
        return b"".join(parts)

    def summary(self):
        """Those beside its book."""
        lags = [phases for desk in range(self.D) for phases in self.furthest(desk)]
        return b"SU" + bytes(lags).ljust(24, b"\0")

    def mail_bytes(self, event, to):
        return bytes((event.desk + 1, to + 1)) + self.row(event.pairs)

    def slot_bytes(self, event):
        return bytes((event.desk + 1, 0)) + self.row(event.pairs)
