"""The program's text by docs/RULES.md: listing in, answers out.

    python3 second/listing.py < listing > answers

Each call is made on the bytes (book.py) and, since the last accepted start, on
the run whose phases never come round (line.py). Both must give the same answer
and the same book, else Disagree is raised: that is demand 3, held line by line.
A picture that is answered must be the one that ordinary vectors show as well.
Start and every change go through the office, with a summary beside the book,
which must be that of the run, too. What may answers from it must be what a reset
of the book would answer.
"""

import os
import re
import sys

sys.path.insert(0, os.path.dirname(os.path.dirname(os.path.abspath(__file__))))

from second import book, line

# How many numbers follow each verb; a start has any number of limits, a picture any number of slots.
VERBS = {b"local": 2, b"send": 3, b"receive": 3, b"reset": 2,
         b"drop": 1, b"discard": 1, b"before": 2, b"compare": 2, b"may": 1}
LIST_VERBS = (b"start", b"picture")
EVENTS = ("local", "send", "receive", "reset")
CHANGES = ("start", *EVENTS, "drop", "discard")
QUESTIONS = ("before", "compare")
LONGEST = 64
SHAPE = re.compile(rb"([a-z]+)((?: [0-9]{3})*)")


class Disagree(Exception):
    """The two routes of the second opinion differ."""


def lines_of(data):
    """Only the last line may lack its newline; nothing after it is no line."""
    lines = data.split(b"\n")
    return lines[:-1] if lines[-1] == b"" else lines


def parse(text):
    """The verb and its numbers, or None for a BadLine."""
    shape = SHAPE.fullmatch(text) if len(text) <= LONGEST else None
    if shape is None:
        return None
    verb, numbers = shape[1].decode(), [int(field) for field in shape[2].split()]
    if shape[1] not in LIST_VERBS and VERBS.get(shape[1]) != len(numbers):
        return None
    if verb in EVENTS and numbers[-1] not in (0, 1):
        return None
    if verb == "start":
        numbers = setup_in(numbers)
    return None if numbers is None else (verb, numbers)


def setup_in(numbers):
    """The setup of a start line: limits are counted where D is good; None where it is a BadLine."""
    if len(numbers) < 6:
        return None
    D, P, *limits, M, A, m, n = numbers
    if D in range(2, 9) and len(limits) != D:
        return None
    return D, P, limits, M, A, m, n


def in_words(number, fields=()):
    return " ".join([f"{number:03}", *map(in_field, fields)])


def in_field(field):
    if isinstance(field, bool):
        return "yes" if field else "no"
    if isinstance(field, tuple):
        return f"{field[0]:03}.{field[1]:03}"
    return field if isinstance(field, str) else f"{field:03}"


def yes_or_number(number):
    """What a reset would be answered: a yes, or the number that stands in its way."""
    return number or True


def fields_of_bytes(values, desks):
    """Printed fields of what book.py hands back."""
    for value in values:
        if isinstance(value, book.Stamp):
            yield value.owner
            yield from list(zip(value.row[0::2], value.row[1::2]))[:desks]
        else:
            yield value


def fields_of_run(values, phases):
    """Printed fields of what line.py hands back; here phases come round."""
    for value in values:
        if isinstance(value, line.Event):
            yield value.desk
            yield from ((phase % phases, clock) for phase, clock in value.pairs)
        else:
            yield value


class Program:
    def __init__(self):
        self.book = bytes(book.BOOK_BYTES)
        self.summary = bytes(book.SUMMARY_BYTES)
        self.run = None

    def answer(self, text):
        parsed = parse(text)
        if parsed is None:
            return in_words(book.BAD_LINE)
        verb, numbers = parsed
        number, values = self.call(verb, numbers)
        answer = in_words(number, fields_of_bytes(values, self.book[2]))
        self.hold(verb, numbers, answer)
        return answer

    def call(self, verb, numbers):
        """By the bytes: a change through the office, may without the book, any other on the book."""
        if verb in CHANGES:
            office = getattr(book, f"office_{verb}")
            number, values, self.book, self.summary = office(self.book, self.summary, *numbers)
        elif verb == "may":
            number, values = book.may(book.setup_of(self.book), self.summary, *numbers)
            values = map(yes_or_number, values)
        else:
            number, values, self.book = getattr(book, verb)(self.book, *numbers)
        return number, values

    def hold(self, verb, numbers, answer):
        """Raise Disagree unless the other route answers alike."""
        other = self.start(numbers) if verb == "start" else self.other(verb, numbers)
        if other != answer:
            raise Disagree(f"{verb} {numbers}: bytes {answer!r}, events {other!r}")
        if self.run and self.run.book() != self.book:
            raise Disagree(f"{verb} {numbers}: the books differ")
        if verb in CHANGES:
            self.hold_summary(verb, numbers)
        if verb in EVENTS and answer.startswith("000"):
            self.hold_newest_labels()
        if verb in QUESTIONS and answer.startswith("000"):
            self.hold_label(*(self.run.shelf[slot] for slot in numbers))
        if verb == "picture" and answer.startswith("000"):
            self.hold_counts(numbers, answer)
        if verb == "may" and answer.startswith("000"):
            self.hold_reset(*numbers, answer)

    def start(self, numbers):
        if not line.permitted(*numbers):
            return in_words(book.BAD_SETUP)
        self.run = line.Run(*numbers)
        return in_words(book.DONE)

    def other(self, verb, numbers):
        if self.run is None:
            return in_words(book.BAD_SETUP if verb == "may" else book.BAD_BOOK)
        number, values = getattr(self.run, verb)(*numbers)
        return in_words(number, fields_of_run(values, self.run.P))

    def hold_counts(self, slots, answer):
        """Ordinary vectors show the same picture."""
        values = self.run.pictured_by_counts([self.run.shelf[slot] for slot in slots])
        if in_words(book.DONE, values) != answer:
            raise Disagree(f"picture {slots}: bytes {answer!r}, vectors {values}")

    def hold_summary(self, verb, numbers):
        """The one beside the book is that of the run."""
        if self.run and self.run.summary() != self.summary:
            raise Disagree(f"{verb} {numbers}: the summaries differ")

    def hold_reset(self, desk, answer):
        """A reset that is not kept would be answered so."""
        number = book.reset(self.book, desk, 0)[0]
        if in_words(book.DONE, [yes_or_number(number)]) != answer:
            raise Disagree(f"may {desk}: summary {answer!r}, reset {number}")

    def hold_newest_labels(self):
        """The newest stamp with the one before it and one from long ago."""
        events = self.run.events
        for other in {events[-2:][0], events[len(events) // 2]}:
            self.hold_label(events[-1], other)
            self.hold_label(other, events[-1])

    def hold_label(self, e, f):
        """Stamps off the book answer as the chains do, where demand 3 says so."""
        labels = self.run.setup, self.run.label(e), self.run.label(f)
        number, values = self.run.before_events(e, f)
        if number == book.DONE and book.label_before(*labels) != (number, values):
            raise Disagree(f"before off the book: {labels}")
        number, values = self.run.compare_events(e, f)
        if number == book.DONE and book.label_compare(*labels) != (number, values):
            raise Disagree(f"compare off the book: {labels}")


def answers(data):
    program = Program()
    return "".join(program.answer(text) + "\n" for text in lines_of(data)).encode()


if __name__ == "__main__":
    sys.stdout.buffer.write(answers(sys.stdin.buffer.read()))
