"""Alters one number in the answers to a journal, for negative controls: a test that compares answers must notice.

usage: altered.py ANSWERS PLACE

The place is any number, and tells which number is altered. 1,000 is added to it: a smaller change might be met by Look,
which may name any of several late obligations."""
import re
import sys
from pathlib import Path

SPREAD = 7919  # a prime, so that neighbouring places lie far from each other


def altered(answers, place):
    """The answers with one number altered."""
    lines = answers.splitlines(keepends=True)
    at = place * SPREAD % len(lines)
    numbers = list(re.finditer(rb"\d+", lines[at]))
    number = numbers[place % len(numbers)]
    lines[at] = b"%s%d%s" % (lines[at][:number.start()], int(number[0]) + 1000, lines[at][number.end():])
    return b"".join(lines)


if __name__ == "__main__":
    sys.stdout.buffer.write(altered(Path(sys.argv[1]).read_bytes(), int(sys.argv[2])))
