"""The second opinion: the rules of docs/RULES.md, from their words and not from the code.

book.py     the book as bytes, every call on raw bytes and plain numbers
line.py     the same calls by sets of events and phases that never come round
listing.py  the program's text, each call by both routes; a filter
seeds.py    listings made from a seed
compare.py  a program held against the second opinion
stored.py   the stored listing of crates/desks and its expected output
raw.py      the C interface held against the second opinion
test_second.py  the tests of all these
"""
