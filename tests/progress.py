#!/usr/bin/env python3
"""progress: looks at what `querier` tells a terminal of the directories that it reads.

    tests/progress.py

It runs `check`, `select` and `serve` with a terminal as standard error, with and without --quiet, and with a
file in place of the terminal. The terminal is told of each directory once, or with --quiet of none, and the
file of none; standard output and the exit status are the same each time. The program is the one that QUERIER
names, or else is built where its crate stands (RT).
"""
import os
import pty
import subprocess
import sys
import tempfile

sys.dont_write_bytecode = True
from lib import TOP, find_program  # noqa: E402

DIRECTORIES = ["examples/" + "./" * number + "good" for number in range(9)]
SERVE = ["serve", "--port", "0", "--workers", "1", "--requests", "0"]
LINES = [["check"], ["select", "up"], SERVE]


def run(words, stderr):
    done = subprocess.run(words, cwd=TOP, stdin=subprocess.DEVNULL, stdout=subprocess.PIPE, stderr=stderr)
    return done.returncode, done.stdout


def on_terminal(words):
    """The exit status and standard output of a command, and the lines that its terminal shows."""
    ours, theirs = pty.openpty()
    ended = run(words, theirs)
    os.close(theirs)
    shown = b""
    try:
        while piece := os.read(ours, 4096):
            shown += piece
    except OSError:  # the other side is closed
        pass
    os.close(ours)
    return ended, shown.decode().splitlines()


def in_file(words):
    """The exit status and standard output of a command, and the lines that it writes to a file."""
    with tempfile.TemporaryFile() as file:
        ended = run(words, file)
        file.seek(0)
        return ended, file.read().decode().splitlines()


def complaints(program, line, directories):
    """What is wrong with the runs of one line."""
    words = [program, *line, *directories]
    ended, shown = on_terminal(words)
    count = len(directories)
    numbers = [f"reading {number + 1} of {count}" for number in range(count)]
    if sorted(text.split(": ")[0] for text in shown) != sorted(numbers):
        yield f"{line}: the terminal was told {shown}"
    if sorted(text.split(": ")[1] for text in shown) != sorted(directories):
        yield f"{line}: the terminal was told {shown}"
    quietly = [program, line[0], "--quiet", *line[1:], *directories]
    for name, other in (("a file", in_file(words)), ("a quiet terminal", on_terminal(quietly))):
        if other[1]:
            yield f"{line}: {name} was told {other[1]}"
        if line != SERVE and other[0] != ended or other[0][0] != ended[0]:
            yield f"{line}: with {name} it ends otherwise"


def main():
    program = find_program("querier")
    found = [
        text
        for line in LINES
        for some in ([], DIRECTORIES[:1], DIRECTORIES)
        if some or line != ["check"]
        for text in complaints(program, line, some)
    ]
    print("\n".join(found + [f"{len(found)} complaints"]))
    return 1 if found else 0


if __name__ == "__main__":
    sys.exit(main())
