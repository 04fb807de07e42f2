"""The program held against the second opinion, byte for byte.

    python3 second/compare.py PROGRAM                 the fixed seeds
    python3 second/compare.py PROGRAM --seeds A B     seeds A to B
    python3 second/compare.py PROGRAM --forever       from seed A on, until stopped

PROGRAM reads standard input and writes standard output. A prefix to run it by
is given by --runner or the environment variable DESKS_RUNNER. The first
difference is printed with its seed, its line and both answers, and ends with 1.
`python3 second/seeds.py SEED` prints the listing of a seed.
"""

import argparse
import itertools
import os
import shlex
import subprocess
import sys
import threading

sys.path.insert(0, os.path.dirname(os.path.dirname(os.path.abspath(__file__))))

from second import listing, seeds

FIXED_SEEDS = (1, 300)
PIECES = (1, 7, 64, 65)
IN_PIECES = 2
SECONDS = 120


def feed(stream, data, piece):
    """Write in pieces; a program that stops reading is found by its answers."""
    rest = memoryview(data)
    try:
        while rest:
            rest = rest[stream.write(rest[:piece]):]
        stream.close()
    except BrokenPipeError:
        pass


def run_program(command, data, piece):
    """What the program prints, and how it ended (by a signal if it took too long)."""
    with subprocess.Popen(command, stdin=subprocess.PIPE, stdout=subprocess.PIPE,
                          bufsize=0) as program:
        feeder = threading.Thread(target=feed, args=(program.stdin, data, piece),
                                  daemon=True)
        late = threading.Timer(SECONDS, program.kill)
        late.daemon = True
        feeder.start()
        late.start()
        printed = program.stdout.readall()
        feeder.join()
        ended = program.wait()
        late.cancel()
    return printed, ended


def first_difference(data, printed, expected):
    """The line number, the line and both answers where they first differ."""
    rows = itertools.zip_longest(listing.lines_of(data), expected.split(b"\n"),
                                 printed.split(b"\n"))
    for number, (line, wanted, given) in enumerate(rows, 1):
        if wanted != given:
            return number, line, wanted, given
    return None


def differs(command, name, data, expected, piece):
    """Say where the program differs; False when it does not."""
    printed, ended = run_program(command, data, piece)
    where = first_difference(data, printed, expected)
    if where is None and ended == 0:
        return False
    print(f"{name}, fed {piece} bytes at a time: ", end="")
    if where is None:
        print(f"the answers agree, but the program ended with {ended}")
        return True
    number, line, wanted, given = where
    print(f"line {number} differs (the program ended with {ended})")
    print(f"  line:    {told(line)}\n  second:  {told(wanted)}\n  program: {told(given)}")
    return True


def told(text):
    return "nothing" if text is None else repr(text)


def listings(first, last):
    """Names, listings and the pieces they are fed in."""
    for number, data in enumerate(seeds.SHORT_LISTINGS):
        yield f"short listing {number}", data, (len(data) or 1,)
    for seed in itertools.count(first) if last is None else range(first, last + 1):
        data = seeds.listing(seed)
        pieces = PIECES if seed < first + IN_PIECES else ()
        yield f"seed {seed}", data, (len(data), *pieces)


def compare(command, first, last):
    """How many listings and lines agreed, and whether all did."""
    agreed = lines = 0
    try:
        for name, data, pieces in listings(first, last):
            expected = listing.answers(data)
            if any(differs(command, name, data, expected, piece) for piece in pieces):
                return agreed, lines, False
            agreed += 1
            lines += len(listing.lines_of(data))
    except KeyboardInterrupt:
        print("stopped")
    return agreed, lines, True


def main():
    parser = argparse.ArgumentParser(description="the program against the second opinion")
    parser.add_argument("program")
    parser.add_argument("--seeds", nargs=2, type=int, metavar=("A", "B"),
                        default=FIXED_SEEDS)
    parser.add_argument("--forever", action="store_true")
    parser.add_argument("--runner", default=os.environ.get("DESKS_RUNNER", ""))
    options = parser.parse_args()
    first, last = options.seeds
    command = shlex.split(options.runner) + [os.path.abspath(options.program)]
    agreed, lines, alike = compare(command, first, None if options.forever else last)
    print(f"{agreed} listings, {lines} lines agreed")
    return 0 if alike else 1


if __name__ == "__main__":
    sys.exit(main())
