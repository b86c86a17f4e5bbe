#!/usr/bin/env python3
"""Finds a short journal on which a program's answers still differ from those of `second`.

usage: shrink.py JOURNAL PROGRAM SECOND [--calls LIST]

PROGRAM and SECOND are commands (with arguments, if they are quoted). A journal differs if
`SECOND --check` does not accept what PROGRAM answers to it; a program that fails or hangs
differs too. The shortest journal found goes to standard output, the difference that it
shows to standard error. A last line that lacks its line feed keeps it lacking where the
difference needs that; else the line feed is put there. The journal found may be empty, as
an empty text has an answer too.
"""

import argparse
import os
import shlex
import subprocess
import sys
import tempfile

SECONDS = 60


class Comparison:
    """Plays journals on both programs."""

    def __init__(self, program, second, calls, directory):
        self.program = shlex.split(program)
        self.answers = os.path.join(directory, "answers")
        self.check = shlex.split(second) + ["--check", self.answers]
        if calls:
            self.check += ["--calls", calls]
        self.runs = 0

    def difference(self, lines):
        """What `second` reports on the journal, or None if the answers agree."""
        self.runs += 1
        journal = b"".join(lines)
        failure = self.play(journal)
        if failure:
            return failure
        checked = subprocess.run(self.check, input=journal, stdout=subprocess.PIPE, check=False)
        if checked.returncode == 0:
            return None
        if checked.returncode == 1:
            return checked.stdout
        sys.exit(f"shrink.py: {self.check[0]} failed with status {checked.returncode}")

    def play(self, journal):
        """Writes the program's answers; returns how it failed, if it did."""
        with open(self.answers, "wb") as answers:
            try:
                played = subprocess.run(
                    self.program,
                    input=journal,
                    stdout=answers,
                    stderr=subprocess.DEVNULL,
                    timeout=SECONDS,
                    check=False,
                )
            except subprocess.TimeoutExpired:
                return b"the program did not end in time\n"
        if played.returncode != 0:
            return f"the program ended with status {played.returncode}\n".encode()
        return None


def cut_after_difference(lines, comparison):
    """Drops what follows the line that the first difference is at."""
    report = comparison.difference(lines)
    words = report.split(None, 2)
    if words[0] == b"line":
        number = int(words[1].rstrip(b":"))
        if comparison.difference(lines[:number]):
            return lines[:number]
    return lines


def remove_chunks(lines, comparison):
    """Delta debugging: removes ever smaller chunks, until no single line can go."""
    size = max(1, len(lines) // 2)
    while True:
        removed = False
        start = len(lines)
        while start > 0:
            end, start = start, max(0, start - size)
            candidate = lines[:start] + lines[end:]
            if comparison.difference(candidate):
                lines, removed = candidate, True
        if size > 1:
            size = (size + 1) // 2
        elif not removed:
            return lines


def mend_last_line(lines, comparison):
    """Tries a torn last line with its line feed: a whole line is plainer."""
    if lines and not lines[-1].endswith(b"\n"):
        mended = lines[:-1] + [lines[-1] + b"\n"]
        if comparison.difference(mended):
            return mended
    return lines


def shrink(lines, comparison):
    while True:
        before = lines
        lines = cut_after_difference(lines, comparison)
        lines = remove_chunks(lines, comparison)
        lines = mend_last_line(lines, comparison)
        if lines == before:
            return lines


def main():
    parser = argparse.ArgumentParser(description="Shrinks a journal that shows a difference.")
    parser.add_argument("journal")
    parser.add_argument("program")
    parser.add_argument("second")
    parser.add_argument("--calls", metavar="LIST")
    options = parser.parse_args()
    with open(options.journal, "rb") as journal:
        lines = split_lines(journal.read())
    with tempfile.TemporaryDirectory() as directory:
        comparison = Comparison(options.program, options.second, options.calls, directory)
        if not comparison.difference(lines):
            sys.exit("shrink.py: the journal shows no difference")
        lines = shrink(lines, comparison)
        report = comparison.difference(lines)
    sys.stdout.buffer.write(b"".join(lines))
    sys.stdout.flush()
    sys.stderr.write(f"{len(lines)} lines after {comparison.runs} runs\n")
    sys.stderr.buffer.write(report)


def split_lines(journal):
    """The lines with their line feeds, which a torn last one lacks; no other byte ends a line."""
    lines = [line + b"\n" for line in journal.split(b"\n")]
    lines[-1] = lines[-1][:-1]
    return [line for line in lines if line]


if __name__ == "__main__":
    main()
