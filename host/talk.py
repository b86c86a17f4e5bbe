#!/usr/bin/env python3
"""A client of a book that host/keep keeps with --socket: `host/talk.py SOCKET [LINE ...]`. It sends each line as a
call, waits for its whole answer, and prints it. Without lines on the command line it takes them from standard input. A
back office's own program can do the same with the class Talk."""
import socket
import sys
import time

WAIT = 3  # seconds for a keeper that is just starting
LONGEST = 1 << 20  # bytes of a line that a keeper takes


class Talk:
    """A connection to the keeper of a book."""

    def __init__(self, path):
        limit = time.monotonic() + WAIT
        while True:
            self.connection = socket.socket(socket.AF_UNIX)
            try:
                self.connection.connect(path)
                break
            except OSError:
                if limit < time.monotonic():
                    raise
                time.sleep(0.05)
        self.file = self.connection.makefile("rb")

    def line(self):
        """The next line of an answer. A line counts only with its line feed."""
        try:
            line = self.file.readline().decode()
        except ConnectionError:
            line = ""
        if not line.endswith("\n"):
            raise EOFError("the keeper ended before the answer was whole: look for the call before you send it again")
        return line

    def call(self, line):
        """Sends one line and returns its answer as a list of lines. A comment has none. The answer to a close or an
        again reaches to its line `kept`. One that starts with `?` or `!` is always one line: settle took it for no
        call, or the keeper did not take it."""
        if "\n" in line or LONGEST < len(line.encode()):
            raise ValueError(f"this is not one line, or it is too long: {line[:40]!r}")
        self.connection.sendall(line.encode() + b"\n")
        if not line or line.startswith("#"):
            return []
        answer = [self.line()]
        if line.split(" ")[0] in ("close", "again") and not answer[0].startswith(("?", "!")):
            while not answer[-1].startswith("  kept"):
                answer.append(self.line())
        return answer


def lines_of(file):
    """The lines of a text. The last one may be torn, and then it is not sent."""
    for line in file:
        if not line.endswith("\n"):
            raise ValueError(f"a last line without its line feed was not sent: {line[:40]!r}")
        yield line[:-1]


def main():
    """The exit status is 1 if the keeper did not take a line, or if something failed."""
    if not sys.argv[1:]:
        sys.exit(__doc__)
    path, *lines = sys.argv[1:]
    talk = Talk(path)
    status = 0
    for line in lines or lines_of(sys.stdin):
        answer = "".join(talk.call(line))
        print(answer, end="", flush=True)
        status = 1 if answer.startswith("!") else status
    return status


if __name__ == "__main__":
    try:
        sys.exit(main())
    except (OSError, EOFError, ValueError) as error:
        sys.exit(f"talk.py: {error}")
