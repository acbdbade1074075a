#!/usr/bin/env python3
"""Runs a command, the gate if none is given, and tells where its time goes.

    tests/gate-times.py [COMMAND ..]

Twice a second it looks at which checks and compilations of which crate the command has at work, and at the
processor time that each has taken. When the command has ended it prints two tables on standard error. The
first has, for each crate, the processor seconds of its proof, of the proofs of its tests, of its must-fail
edits and of the compilation of a program, and from which minute to which they were at work. The second has
the same by kind, the minutes in which nothing was proved or compiled (tests and programs ran then), and the
minutes of the whole. The exit status is the command's.
"""
import collections
import os
import re
import subprocess
import sys
import threading
import time

KINDS = ("proof", "tests", "edits", "programs")
TICKS = os.sysconf("SC_CLK_TCK")


def kind_of(words, folder):
    """What a call of the prover is for."""
    if re.search(r"/rt-edit-[^/]*$", folder):
        return "edits"
    if "--crate-checked" in words:
        return "programs"
    return "tests" if "--test" in words else "proof"


def fields_of(process):
    """What the system tells of a process: its state, its parent, and so on."""
    with open(f"/proc/{process}/stat", encoding="utf-8", errors="replace") as file:
        return file.read().rpartition(")")[2].split()


def is_below(process, top):
    """Whether a process was started by another, or by one that it started."""
    while process > 1 and process != top:
        process = int(fields_of(process)[1])
    return process == top


def words_of(process):
    """The words that a process was called with."""
    with open(f"/proc/{process}/cmdline", "rb") as file:
        return file.read().decode(errors="replace").split("\0")


def is_call(words):
    """Whether these words call the prover for a crate."""
    return words[0].endswith("/rattle") and "--crate-name" in words


def at_work(top):
    """The calls of the prover that run below a process: for each its number and start, crate, kind and
    processor seconds."""
    for entry in filter(str.isdigit, os.listdir("/proc")):
        try:
            words = words_of(entry)
            if not is_call(words) or not is_below(int(entry), top):
                continue
            folder, fields = os.readlink(f"/proc/{entry}/cwd"), fields_of(entry)
            # a copy that a call made of itself: its time is added to that of the call when it ends
            if is_call(words_of(fields[1])):
                continue
        except OSError:
            continue
        crate = words[words.index("--crate-name") + 1]
        # the time of its own, and of the copies and compilers that it started and that have ended
        seconds = sum(map(int, fields[11:15])) / TICKS
        yield (entry, fields[19]), (crate, kind_of(words, folder)), seconds


def main():
    command = sys.argv[1:] or ["rt", "ci"]
    began = before = time.monotonic()
    running = subprocess.Popen(command)
    ended = threading.Event()
    threading.Thread(target=lambda: (running.wait(), ended.set()), daemon=True).start()
    calls, first, last, idle = {}, {}, {}, 0.0
    while not ended.wait(0.5):
        now, found = time.monotonic(), False
        for call, task, seconds in at_work(running.pid):
            found = True
            calls[call] = task, seconds
            first.setdefault(task, now - began)
            last[task] = now - began
        idle += 0 if found else now - before
        before = now
    whole = time.monotonic() - began
    seconds = collections.Counter()
    for task, spent in calls.values():
        seconds[task] += spent
    tell = lambda *cells: print(f"| {' | '.join(map(str, cells))} |", file=sys.stderr)
    print("\nProcessor seconds, and from which minute to which.\n", file=sys.stderr)
    tell("Crate", "Proof", "Tests", "Edits", "Programs", "From", "Until")
    tell(*["---"] * 7)
    for crate in sorted(
        {it[0] for it in first}, key=lambda it: min(first[task] for task in first if task[0] == it)
    ):
        mine = [it for it in first if it[0] == crate]
        ends = min(first[it] for it in mine), max(last[it] for it in mine)
        tell(
            f"`{crate}`", *(round(seconds[crate, kind]) for kind in KINDS), *(f"{it / 60:.1f}" for it in ends)
        )
    print("", file=sys.stderr)
    tell("Kind", "Processor seconds")
    tell("---", "---")
    for kind in KINDS:
        tell(kind, round(sum(spent for task, spent in seconds.items() if task[1] == kind)))
    tell("all", round(sum(seconds.values())))
    print(
        f"\nNothing proved or compiled: {idle / 60:.1f} minutes. The whole: {whole / 60:.1f} minutes.",
        file=sys.stderr,
    )
    return running.returncode


if __name__ == "__main__":
    sys.exit(main())
