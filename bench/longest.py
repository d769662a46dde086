#!/usr/bin/env python3
"""Prints crates/split/stdin: the longest first line, and a text of exactly 65,536 bytes whose listing is long.

The listing has 4,000 entries of 10 bytes, the most and the longest that there are: rows and columns of
100..300. The text has comments, blank lines, blanks, tabs, leading zeros, LF and CR LF, and ends with its
last digit. An entry takes 8 bytes of it at least and about 13 here, so that some room is left for comments.
"""
import sys

LIMIT = 65536
state = 1


def below(n):
    """The next of a fixed sequence of numbers below n."""
    global state
    state = (state * 6364136223846793005 + 1442695040888963407) % 2**64
    return (state >> 33) % n


def shuffled(items):
    items = list(items)
    for i in range(len(items) - 1, 0, -1):
        j = below(i + 1)
        items[i], items[j] = items[j], items[i]
    return items


def blanks(least, most):
    return "".join(" \t"[below(4) == 0] for _ in range(least + below(most - least + 1)))


def number(n):
    return str(n).zfill([3, 3, 3, 4, 5, 9][below(6)])


def end():
    return ["\n", "\r\n"][below(2)]


def entry(cell):
    return blanks(0, 1) + number(cell[0]) + blanks(1, 2) + number(cell[1])


def comment(length):
    """A comment of so many bytes, its LF among them."""
    return "%" + "".join(chr(32 + below(95)) for _ in range(length - 2)) + "\n"


cells = shuffled((i, j) for i in range(100, 301) for j in range(100, 301))[:4000]

body = ""
for cell in cells[:-1]:
    body += entry(cell) + blanks(0, 1) + end()
    if below(40) == 0:
        body += blanks(0, 3) + end()
body += entry(cells[-1])

head = "%%MatrixMarket MATRIX\tCoordinate  pattern General \r\n"
sizes = " 000000300\t300  000004000 \r\n"
left = LIMIT - len(head) - len(sizes) - len(body)
comments = ""
while left > 200:
    size = 2 + below(120)
    comments += comment(size)
    left -= size
comments += comment(left)

text = head + comments + sizes + body
assert len(text) == LIMIT
sys.stdout.write("percent 000000000 budget 001000000\n" + text)
