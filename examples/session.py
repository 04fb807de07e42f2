"""The session of examples/session.in, made from Python and printed as the listing prints it."""

import ctypes
from pathlib import Path

LIBRARY = ctypes.CDLL(str(Path(__file__).parent.parent / "target/gulambitok/gulambitok.so"))
RELATIONS = {1: "before", 2: "after", 3: "same", 4: "concurrent", 5: "crossed"}


def lent(value):
    """A buffer or a list is lent as pointer and length. ctypes would cut a wider number short unasked."""
    if not isinstance(value, int):
        return [value, ctypes.c_size_t(len(value))]
    if not 0 <= value < 2**64:
        raise OverflowError(f"{value} is no size_t")
    return [ctypes.c_size_t(value)]


def call(name, *values):
    function = LIBRARY["gulambitok_" + name]
    function.restype = ctypes.c_uint8
    return function(*(word for value in values for word in lent(value)))


def print_line(answer, *fields):
    """On a refusal nothing else was written, so the number stands alone."""
    print(f"{answer:03}", *(fields if answer == 0 else ()))


def stamp_fields(stamp):
    owner, desks, row = stamp[2], stamp[3], stamp[4:]
    return [f"{owner:03}"] + [f"{row[2 * k]:03}.{row[2 * k + 1]:03}" for k in range(desks)]


def buffer(size):
    return (ctypes.c_uint8 * size)()


# An event that is not kept has no slot to write.
NOTHING = buffer(0)

# One for each desk.
limits = (ctypes.c_size_t * 2)(3, 3)

book, stamp = buffer(1456), buffer(20)
place, learnt, first, second, relation = (buffer(1) for _ in range(5))

print_line(call("start", book, len(limits), 3, limits, 1, 1, 1, 1))
print_line(call("local", book, 0, 1, stamp, first), *stamp_fields(stamp), f"{first[0]:03}")
print_line(call("send", book, 0, 1, 0, stamp, place, NOTHING), f"{place[0]:03}", *stamp_fields(stamp))
print_line(call("receive", book, 1, place[0], 1, stamp, learnt, second),
           *stamp_fields(stamp), f"{learnt[0]:03}", f"{second[0]:03}")
print_line(call("compare", book, first[0], second[0], relation), RELATIONS.get(relation[0]))
print_line(call("reset", book, 0, 0, stamp, NOTHING), *stamp_fields(stamp))
print_line(call("reset", book, 0, 0, stamp, NOTHING), *stamp_fields(stamp))
