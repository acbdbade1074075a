#!/usr/bin/env python3
"""store_audits: has `auditor --store` judge replies of a server that keeps its store.

    tests/store_audits.py [--replies N] [--seed SEED] [--speed]

It has four parts, and what the auditor says is compared with kept_states.py, which reads the folder of the
store and tries each state:

  known    a session whose lines are known, words that are at fault, folders that are damaged
  quiet    random changes, checkpoints, kills, starts and a join; replies as they are and changed
  busy     N replies (1,000) of a server that clients change meanwhile, each behind a mark that was taken
           before it; the journal is begun anew while it runs, and the server is killed, started, and its
           blocks are joined. None may be refused, but if the auditor says `ask again`, it is: the journal
           was begun anew since the mark, or the mark is ahead of the server. Of each third a lie is told.
  speed    only with --speed, and nothing else then: how long a start of a large store and an audit over it
           take, and how much memory

Lies have names (LIES, ACTED). QUERIER, AUDITOR and BLOCKTOOL name programs that are built already; else they
are built where they stand (RT). Exit status 0 if all is as it should be.
"""
import argparse
import collections
import contextlib
import copy
import http.client
import json
import os
import random
import re
import shutil
import signal
import subprocess
import sys
import tempfile
import threading
import time
import traceback
import urllib.error
import urllib.parse
import urllib.request
import zlib

sys.dont_write_bytecode = True
from kept_states import Asked, Journal, Query, Store, label_order, merged, rows_of  # noqa: E402
from lib import Running, end_all, failed, find_program, holds  # noqa: E402
from read_block import checksum  # noqa: E402

NAMES = ["up", "down", "http_requests"]
SELECTORS = [
    "up", '{job="a"}', '{job!="a",zone=~"x|y"}', '{zone=""}', "down", '{__name__=~"up|down|http.*"}',
    "no_such",
]
LATEST = 2**62 - 1
FILES = ["index", "chunks/000001", "tombstones", "meta.json"]


class Gone(Exception):
    """No whole reply came: the server was ended."""


class Rolled(Exception):
    """The auditor says that the journal was begun anew since the mark."""


class Keeper:
    """A server over a folder, and what it was told."""

    def __init__(self, querier, folder, *words):
        self.querier, self.folder, self.words = querier, folder, words
        self.start()

    def start(self):
        self.server = Running(
            [self.querier, "serve", "--port", "0", "--workers", "6", "--data", self.folder, *self.words]
        )
        assert self.server.wait(), self.server.told
        self.at = f"http://127.0.0.1:{self.server.port}"

    def again(self, how=signal.SIGKILL, blocktool=None):
        """Ends the server, joins its blocks if a program for that is given, and starts it again."""
        self.server.end(how)
        if blocktool:
            done = subprocess.run(
                [blocktool, "join", self.folder], capture_output=True, text=True, timeout=300
            )
            holds(f"a join: {done}", done.returncode == 0 and not done.stderr)
        self.start()

    def asked(self, path, body=None):
        """The status of a reply, and its text."""
        asked = urllib.request.Request(f"{self.at}/{path}", body)
        try:
            with urllib.request.urlopen(asked, timeout=120) as reply:
                return reply.status, reply.read()
        except urllib.error.HTTPError as refusal:
            return refusal.code, b""
        except (OSError, http.client.HTTPException):
            raise Gone from None

    def post(self, path, body):
        """Whether a change is made."""
        return self.asked(path, json.dumps(body).encode())[0] == 200

    def write(self, *rows):
        return self.post("write", [{"labels": dict(labels), "samples": samples} for labels, samples in rows])

    def delete(self, selector, first, last):
        return self.post("delete", {"from": first, "selector": selector, "to": last})

    def cut(self, time_):
        return self.post("cut", {"at": time_})

    def select(self, selector, first=0, last=LATEST):
        words = urllib.parse.urlencode({"selector": selector, "from": first, "to": last})
        status, text = self.asked(f"select?{words}")
        if status != 200:
            raise AssertionError(f"{selector} is refused with {status}")
        return json.loads(text)

    def rolls(self):
        """How often the journal was begun anew since the start."""
        return sum(line.startswith("rolled the journal") for line in self.server.told_err)

    def checkpoint(self, clock):
        """Writes from a time on until the server begins its journal anew; gives the time behind that. It
        needs `--journal-mb 1`, and a cut just before."""
        before, labels = self.rolls(), {"__name__": "padding", "zone": "pad"}
        for _ in range(40):
            samples = [(clock + k, 2**62 - clock - k) for k in range(1, 4001)]
            holds("a write", self.write((labels, samples)))
            clock += 4001
            for _ in range(20):
                if self.rolls() > before:
                    return clock
                time.sleep(0.01)
        holds("the journal is begun anew while the server runs", False)
        return clock


class Auditor:
    def __init__(self, program, folder):
        self.program, self.folder, self.count, self.lock = program, folder, 0, threading.Lock()

    def run(self, *words, text=""):
        """The exit status of a run, its lines, and what it says of a fault."""
        with self.lock:
            self.count += 1
        done = subprocess.run(
            [self.program, *words], input=text, capture_output=True, text=True, timeout=600
        )
        return done.returncode, done.stdout.splitlines(), done.stderr

    def mark(self):
        status, lines, told = self.run("--store", self.folder, "--mark")
        if status or told or len(lines) != 1 or not re.fullmatch("mark [0-9a-f]{8}:[0-9]+", lines[0]):
            raise AssertionError(f"no mark: {status} {lines} {told}")
        return lines[0][5:]

    def judge(self, reply, selector, first=0, last=LATEST, since=None):
        words = ["--store", self.folder, "--selector", selector, f"--from={first}", f"--to={last}"]
        return self.run(*words, *(["--since", since] if since else []), text=json.dumps(reply))


def place_in(line):
    """The event that the last line of a right reply tells."""
    return int(line.split()[2])


# ---- lies that one reply is made into


def changed(reply, change):
    """A reply that is changed; None if there is nothing to change."""
    other = copy.deepcopy(reply)
    try:
        change(other)
    except (IndexError, StopIteration, KeyError):
        return None
    return other if other != reply else None


def searched(reply):
    return [part for part in reply["parts"] if not part.get("skipped")]


def merge(reply):
    """Makes the rows of all those of the parts."""
    rows = [(dict(labels), list(map(list, samples))) for labels, samples in merged(reply["parts"])]
    reply["rows"] = [{"labels": labels, "samples": samples} for labels, samples in rows]


def without_a_head_row(reply):
    reply["parts"][-1]["rows"].pop(0)
    merge(reply)


def with_a_hidden_head_row(reply):
    """The certificate says that the series has no sample in the range."""
    head = reply["parts"][-1]
    next(one for one in head["intervals"] if one["verdict"] == "match")["verdict"] = "none"
    head["rows"].pop(0)
    merge(reply)


def without_a_block_row(reply):
    next(part for part in searched(reply)[:-1] if part["rows"])["rows"].pop(0)
    merge(reply)


def with_another_value(reply):
    next(part for part in searched(reply) if part["rows"])["rows"][0]["samples"][0][1] += 1
    merge(reply)


def with_merged_intervals(reply):
    part = next(part for part in searched(reply) if len(part["intervals"]) > 1)
    one = part["intervals"].pop(0)
    part["intervals"][0]["from"] = one["from"]
    part["separators"].pop(0)


def with_the_head_twice(reply):
    reply["parts"].append(copy.deepcopy(reply["parts"][-1]))


def without_a_part(reply):
    gone = reply["parts"].pop(0)
    if gone["part"] == "head":
        raise IndexError
    merge(reply)


def without_the_head(reply):
    reply["parts"].pop()
    merge(reply)


def with_a_separator_less(reply):
    next(part for part in searched(reply) if part["separators"])["separators"].pop()


def with_other_rows_of_all(reply):
    reply["rows"][0]["samples"].pop()


def with_a_skip(reply):
    place = next(n for n, part in enumerate(reply["parts"][:-1]) if part.get("rows"))
    reply["parts"][place] = {"part": reply["parts"][place]["part"], "skipped": True}
    merge(reply)


def told_blocks(reply):
    """Two blocks that say different things."""
    one = next(part for part in searched(reply)[:-1] if part["rows"])
    same = [{**part, "part": one["part"]} for part in reply["parts"][:-1]]
    return one, next(part for part, other in zip(reply["parts"], same) if other != one)


def with_names_exchanged(reply):
    one, other = told_blocks(reply)
    one["part"], other["part"] = other["part"], one["part"]


def with_a_block_under_anothers_name(reply):
    with_names_exchanged(reply)
    reply["parts"][:-1] = sorted(reply["parts"][:-1], key=lambda part: int(part["part"].split()[1]))
    merge(reply)


LIES = {
    "a row left out of the head and of the rows": without_a_head_row,
    "the same, and hidden by the certificate": with_a_hidden_head_row,
    "a row left out of a block and of the rows": without_a_block_row,
    "another value": with_another_value,
    "two intervals as one": with_merged_intervals,
    "the head told twice": with_the_head_twice,
    "a block left out": without_a_part,
    "the head left out": without_the_head,
    "a separator less": with_a_separator_less,
    "rows of all that lack a sample": with_other_rows_of_all,
    "a block skipped": with_a_skip,
    "two blocks in another order": with_names_exchanged,
    "a block under another's name": with_a_block_under_anothers_name,
}


# ---- lies that are made of several replies, or of one and a change


def beside(blocks, head):
    """The blocks of a reply beside the head of another, with the rows that these parts list."""
    reply = {"parts": copy.deepcopy([*blocks["parts"][:-1], head["parts"][-1]])}
    merge(reply)
    return reply


def without_a_sample(reply, labels, time_):
    """A reply that lacks the sample of a series at a time, in the part that has it and in the rows."""
    other = copy.deepcopy(reply)
    part = next(
        part for part in searched(other) for row in part["rows"]
        if row["labels"] == labels and any(sample[0] == time_ for sample in row["samples"])
    )
    for row in part["rows"]:
        if row["labels"] == labels:
            row["samples"] = [sample for sample in row["samples"] if sample[0] != time_]
    part["rows"] = [row for row in part["rows"] if row["samples"]]
    merge(other)
    return other


def put_back(before, after):
    """A reply that still has one sample that an earlier one of the same parts had."""
    other = copy.deepcopy(after)
    for old, part in zip(before["parts"], other["parts"]):
        if old.get("skipped") or part.get("skipped"):
            continue
        there = dict(rows_of(part["rows"]))
        for labels, samples in rows_of(old["rows"]):
            for sample in samples:
                if sample not in there.get(labels, []):
                    there[labels] = sorted([*there.get(labels, []), sample])
                    part["rows"] = [
                        {"labels": dict(one), "samples": list(map(list, there[one]))}
                        for one in sorted(there, key=label_order)
                    ]
                    merge(other)
                    return other
    raise StopIteration


# ---- a session whose lines are known

UP = {"__name__": "up", "job": "a"}
UP_B = {"__name__": "up", "job": "b"}
UP_GONE = {"__name__": "up", "job": "gone"}
NOTE = "or the reply is from before the head"


class Session:
    """What is told, and what the auditor says, each line of it. Of each reply kept_states.py is asked too."""

    def __init__(self, keeper, auditor):
        self.keeper, self.auditor = keeper, auditor
        self.sum = auditor.mark().split(":")[0]

    def says(self, name, reply, wanted, since=None, first=0, last=LATEST):
        """An audit prints these lines, and ends with 0 exactly if the last one tells a state."""
        got = self.auditor.judge(reply, "up", first, last, since=since)
        status = 0 if wanted[-1].startswith("at event") else 1
        holds(f"{name}: wanted {status} {wanted}, got {got}", got == (status, wanted, ""))
        store = Store(self.keeper.folder)
        least = int(since.split(":")[1]) if since and since.startswith(store.journal.sum) else 0
        states = store.right_states(Query("up", first, last), reply, least)
        told = [place_in(wanted[-1])] if status == 0 else []
        holds(f"{name}: kept_states.py has it right of {states}, wanted {told}", set(told) <= set(states))
        holds(f"{name}: kept_states.py has a lie right of {states}", bool(told) == bool(states))

    def before(self, name, reply, place, of, since):
        """The reply is right of a state before the mark, and of none from there on."""
        got = self.auditor.judge(reply, "up", since=since)
        wanted = (3, [], f"at event {place} of {of}, before mark {since}: ask again\n")
        holds(f"{name}: wanted {wanted}, got {got}", got == wanted)
        states = Store(self.keeper.folder).right_states(Query("up", 0, LATEST), reply)
        is_so = place in states and max(states) < int(since.split(":")[1])
        holds(f"{name}: kept_states.py has it right of {states}", is_so)

    def right(self, name, reply, lines, place, of, **more):
        self.says(name, reply, [*lines, f"at event {place} of {of}, mark {self.sum}:{place}"], **more)

    def lie(self, name, reply, lines, of, since=None, told=None):
        least, told = int(since.split(":")[1]) if since else 0, of if told is None else told
        line = f"at no event from {least} to {of}, told of event {told}, mark {self.sum}:{told}"
        self.says(name, reply, [*lines, line, *([] if since else [NOTE])], since=since)


def session(keeper, auditor):
    them, up = Session(keeper, auditor), '{job="a"}'
    valid = ["head: valid", "rows: valid"]
    holds("the mark of a new store", auditor.mark() == f"{them.sum}:0")
    empty = keeper.select("up")
    them.right("an empty head", empty, valid, 0, 0, since=auditor.mark())
    keeper.write((UP, [(10, 1), (20, 2)]), (UP_B, [(10, 3)]))
    first, before = keeper.select("up"), auditor.mark()
    them.right("a write", first, valid, 1, 1)
    them.right("an empty head, behind the write", empty, valid, 0, 1)
    # so it is too if the mark is taken while the write is synced
    them.before("an empty head, since the write", empty, 0, 1, before)
    keeper.write((UP, [(30, 3)]), (UP_B, [(30, 4)]))
    behind = auditor.mark()
    them.right("an older answer", first, valid, 1, 2)
    them.right("an older answer, since the write before", first, valid, 1, 2, since=before)
    name = "an answer older than the reader's own write"
    them.before(name, first, 1, 2, behind)
    name = f"{name}, with rows that lack a sample"
    short = changed(first, with_other_rows_of_all)
    them.lie(name, short, ["head: F6", "rows: F10"], 2, since=behind)
    them.lie(f"{name}, without a mark", short, ["head: valid", "rows: F10"], 2, told=1)

    second = keeper.select("up")
    them.right("two writes", second, valid, 2, 2)
    short = without_a_sample(second, UP_B, 30)
    for since in [None, before, behind]:
        them.lie(f"half of a batch, since {since}", short, ["head: F6", "rows: valid"], 2, since=since)
    for name, lines in [
        ("a row left out of the head and of the rows", ["head: F6", "rows: valid"]),
        ("the same, and hidden by the certificate", ["head: F8", "rows: valid"]),
        ("another value", ["head: F6", "rows: valid"]),
        ("two intervals as one", ["head: F2", "rows: valid"]),
        ("the head told twice", ["head: valid", "head: valid", "parts: F11", "rows: valid"]),
        ("the head left out", ["head: F9", "parts: F11", "rows: valid"]),
        ("a separator less", ["head: F4", "rows: valid"]),
        ("rows of all that lack a sample", ["head: valid", "rows: F10"]),
    ]:
        them.lie(name, changed(second, LIES[name]), lines, 2)

    # the auditor numbers the block of a cut otherwise, until a roll writes it
    numbered = ", numbered otherwise"
    valid = [f"block 0: valid{numbered}", *valid]
    keeper.cut(25)
    third = keeper.select("up")
    them.right("a cut", third, valid, 3, 3)
    keeper.delete(up, 20, 30)
    fourth = keeper.select("up")
    them.right("a deletion", fourth, valid, 4, 4)
    them.right("the answer before it", third, valid, 3, 4)
    mixed = beside(third, fourth)
    holds("two states have other blocks and heads", mixed not in (third, fourth))
    name, wrong = "the blocks before a deletion beside the head after it", ["block 0: F1", *valid[1:]]
    them.lie(name, mixed, wrong, 4)
    name = "the blocks after a deletion beside the head before it"
    them.lie(name, beside(fourth, third), [valid[0], "head: F2", valid[2]], 4)
    them.lie("a sample that a deletion took", put_back(third, fourth), wrong, 4)

    keeper.write((UP_GONE, [(40, 5)]))
    keeper.write((UP, [(50, 6)]))
    fifth = keeper.select("up")
    them.right("a series that is cut away next", fifth, valid, 6, 6)
    keeper.cut(45)
    sixth = keeper.select("up")
    valid = [valid[0], f"block 1: valid{numbered}", *valid[1:]]
    them.right("a series that was cut away", sixth, valid, 7, 7)
    old = beside(sixth, fifth)
    holds("the rows of both are the same", old["rows"] == fifth["rows"] == sixth["rows"])
    name = "a series that was cut away, under its old number"
    them.lie(name, old, [*valid[:2], "head: F1", valid[3]], 7)
    for name, lines in [
        ("a row left out of a block and of the rows", ["block 0: F1", *valid[1:]]),
        ("a block skipped", ["block 0: F9", *valid[1:]]),
        ("a block left out", [*valid[1:3], "block 0: F9", "parts: F11", valid[3]]),
        ("two blocks in another order", ["block 1: F1", "block 0: F1", valid[2], "parts: F11", valid[3]]),
        ("a block under another's name", ["block 0: F1", "block 1: F1", *valid[2:]]),
    ]:
        them.lie(name, changed(sixth, LIES[name]), lines, 7)

    old = auditor.mark()
    # a start behind a cut begins the journal anew
    keeper.again()
    rolled = auditor.mark()
    holds("a roll begins another head", rolled.split(":")[0] != them.sum and rolled.endswith(":0"))
    them.sum = rolled.split(":")[0]
    valid = ["block 0: valid", "block 1: valid", *valid[2:]]
    seventh = keeper.select("up")
    them.right("behind a roll", seventh, valid, 0, 0)
    them.right("behind a roll, since the old mark", seventh, valid, 0, 0, since=old)
    for mark in [old, f"{them.sum}:7"]:
        ended = auditor.judge(first, "up", since=mark)
        told = (3, [], f"rolled since {mark}: ask again\n")
        holds(f"a reply from before the head, since {mark}: {ended}", ended == told)
    lines = ["head: F1", "block 0: F9", "block 1: F9", "parts: F11", "rows: valid"]
    them.lie("a reply from before the head, without a mark", first, lines, 0)

    keeper.delete(up, 0, 19)
    them.right("all of a series of a block is deleted", keeper.select("up"), valid, 1, 1)
    # a roll writes the block anew, and the server that runs has the old numbers
    keeper.write((UP_B, [(60, 7)]))
    keeper.cut(55)
    keeper.checkpoint(60)
    rolled, (them.sum, count) = them.sum, auditor.mark().split(":")
    holds("a roll of a server that runs begins another head", them.sum != rolled)
    valid = [f"block 0: valid{numbered}", "block 1: valid", "block 2: valid", *valid[-2:]]
    them.right("numbered otherwise", keeper.select("up", 0, 59), valid, count, count, last=59)
    keeper.again()
    valid[0] = "block 0: valid"
    them.right("numbered anew", keeper.select("up", 0, 59), valid, count, count, last=59)


def words(auditor):
    """Words that are at fault, and what cannot be read."""
    store, selector = ["--store", auditor.folder], ["--selector", "up"]
    for line in [
        [*store, *selector, "kept"], ["--mark"], ["--since", "00000000:0", *selector],
        [*store, *selector, "--mark"], [*store], [*store, *selector, "--from", "x"], ["--store", *selector],
        [*store, *store, *selector],
    ]:
        status, lines, told = auditor.run(*line)
        holds(f"{line}: {status} {lines} {told}", status == 2 and not lines and told)
    whole = "5d3163ef"
    for mark in ["7", whole, f"{whole}:", "5d3163e:1", "5d3163eg:1", f"{whole}:-1", ":1", f"{whole}:1:2"]:
        ended = auditor.run(*store, *selector, f"--since={mark}")
        holds(f"the mark {mark}: {ended}", ended == (2, [], "--since: no mark\n"))
    reply = '{"parts":[],"rows":[]}'
    for line, text, wanted in [
        ([*store, "--selector", "up{"], reply, (1, [], "refused M4 at 3\n")),
        ([*store, *selector, "--from=1", "--to=0"], reply, (1, [], "refused Q1\n")),
        ([*store, *selector], "", (3, [], "bad reply\n")),
        (["--store", "/nowhere", *selector], reply, (3, [], "cannot read /nowhere/journal\n")),
        (["--store", "/nowhere", "--mark"], reply, (3, [], "cannot read /nowhere/journal\n")),
    ]:
        ended = auditor.run(*line, text=text)
        holds(f"{line}: {ended}", ended == wanted)
    status, lines, _ = auditor.run(*store, "--help")
    holds("help of a store", status == 0 and any("--since" in line for line in lines))


def damage(auditor, work):
    """Copies of a store that are damaged."""
    head = '{"intervals":[],"part":"head","rows":[],"separators":[]}'
    reply, folder = f'{{"parts":[{head}],"rows":[]}}', auditor.folder

    def ends(name, wanted, change, reply=reply):
        copied = f"{work}/{name}"
        shutil.copytree(folder, copied)
        change(copied)
        ended = auditor.run("--store", copied, "--selector", "up", text=reply)
        status, lines, told = wanted
        holds(f"{name}: wanted {wanted}, got {ended}", ended == (status, lines, told.replace("DIR", copied)))

    def put(file, at, byte):
        with open(file, "r+b") as out:
            out.seek(at)
            out.write(bytes([byte]))

    block = Store(folder).journal.folders[0]
    ends("changed-head", (3, [], "refused J3\n"), lambda d: put(f"{d}/journal", 14, 255))
    ends("other-magic", (3, [], "refused J1\n"), lambda d: put(f"{d}/journal", 0, 0))
    index = f"blocks/{block}/index"
    ends("no-file", (3, [], f"cannot read DIR/{index}\n"), lambda d: os.remove(f"{d}/{index}"))
    ends("changed-index", (1, ["block 0: refused I2"], ""), lambda d: put(f"{d}/{index}", 0, 0))

    def append(content):
        def change(d):
            length = len(content).to_bytes(4, "big")
            with open(f"{d}/journal", "ab") as out:
                out.write(length + checksum(length) + content + checksum(content))

        return change

    count = len(Store(folder).journal.events)
    ends("no-event", (3, [], f"refused K2 at {count}\n"), append(b"\x09"))
    # a cut at 1, below the floor
    refused = (3, [], f"refused K3 at {count}\n"), append(b"\x03\x02")
    ends("refused-event", *refused)
    ends("refused-event-of-no-head", *refused, reply='{"parts":[],"rows":[]}')


# ---- random changes, and a server that is quiet while the auditor reads


def agrees(name, store, states, judged, least=0):
    """What the auditor says of a reply, since so many events, is what the states say of it, after how many
    events they are."""
    status, lines, told = judged
    count = len(store.journal.events)
    name = f"{name}, since {least}: right of {states[-3:]}, got {status} {lines[-2:]} {told}"
    if any(place >= least for place in states):
        place = place_in(lines[-1]) if status == 0 else None
        wanted = f"at event {place} of {count}, mark {store.journal.mark(place)}"
        holds(name, place in states and place >= least and lines[-1] == wanted)
    elif states:
        place = place_in(told) if status == 3 and told.startswith("at event ") else None
        wanted = f"at event {place} of {count}, before mark {store.journal.mark(least)}: ask again\n"
        holds(name, place in states and not lines and told == wanted)
    else:
        end = f"at no event from {least} to {count}, told of event "
        holds(name, status == 1 and any(line.startswith(end) for line in lines[-2:]))


class Quiet:
    """Random changes, of times that rise, and replies that are judged some changes later."""

    def __init__(self, keeper, auditor, seed):
        self.keeper, self.auditor, self.random = keeper, auditor, random.Random(seed)
        self.clock, self.floor, self.right, self.refused, self.by_chance = 0, 0, 0, collections.Counter(), 0
        # how many were right of states before a mark alone
        self.early = 0

    def labels(self):
        pairs = {"__name__": self.random.choice(NAMES), "job": self.random.choice("abc")}
        if zone := self.random.choice(["", "x", "y"]):
            pairs["zone"] = zone
        return pairs

    def change(self):
        kind = self.random.random()
        if kind < 0.8:
            rows = []
            for _ in range(self.random.randint(1, 4)):
                self.clock += self.random.randint(1, 4)
                rows.append((self.labels(), [(self.clock, self.random.randint(0, 99))]))
            self.keeper.write(*rows)
        elif kind < 0.9:
            first = self.random.randint(0, self.clock)
            self.keeper.delete(self.random.choice(SELECTORS[1:3]), first, first + self.random.randint(0, 20))
        else:
            self.floor = self.random.randint(self.floor + 1, max(self.clock, self.floor + 1))
            self.keeper.cut(self.floor)

    def judges(self, name, mark, reply, selector, later):
        told = [(TRUE, reply)]
        for kind, change in self.random.sample(list(LIES.items()), 4):
            told.append((kind, changed(reply, change)))
        if later and later[2] == selector and len(later[1]["parts"]) == len(reply["parts"]):
            told.append(("the blocks of a state beside a later head", beside(reply, later[1])))
        told = [(kind, one) for kind, one in told if one]
        store = Store(self.keeper.folder)
        found = store.right_of([Asked(Query(selector, 0, LATEST), one) for _, one in told])
        for (kind, one), states in zip(told, found):
            agrees(f"{name}: {kind}", store, states, self.auditor.judge(one, selector))
            least = self.random.randint(0, len(store.journal.events))
            judged = self.auditor.judge(one, selector, since=store.journal.mark(least))
            agrees(f"{name}: {kind}", store, states, judged, least)
            self.early += bool(states) and max(states) < least
            if kind == TRUE:
                holds(f"{name}: a right reply is found", states)
                self.right += bool(states)
            elif states:
                self.by_chance += 1
            else:
                self.refused[kind] += 1
        status, lines, _ = self.auditor.judge(reply, selector, since=mark)
        holds(
            f"{name}: since {mark}: {status} {lines[-1:]}",
            status == 0 and place_in(lines[-1]) >= int(mark.split(":")[1]),
        )

    def checkpoint(self):
        """The server begins its journal anew while it runs."""
        self.floor = self.clock + 1
        self.keeper.cut(self.floor)
        self.clock = self.keeper.checkpoint(self.floor)

    def rounds(self, name, count):
        kept = []
        for number in range(count):
            self.change()
            if number % 3 == 0:
                selector = self.random.choice(SELECTORS)
                kept.append((self.auditor.mark(), self.keeper.select(selector), selector))
            if len(kept) > 3 or number == count - 1:
                one, later = kept.pop(0), kept[0] if kept else None
                self.judges(f"{name}, change {number}, {one[2]}", *one, later)


# ---- a server that is busy

CLIENTS = 4
CHANGES = 10  # between one reply and the next, of each client
PHASE = 250  # replies between two ends of the server
TRUE = "as it is"  # what is no lie
OLD = 20_000  # samples that are older are deleted now and then
AT = re.compile(r"at event (\d+) of (\d+), mark ([0-9a-f]{8}):(\d+)")
BEFORE = re.compile(r"at event (\d+) of (\d+), before mark ([0-9a-f]{8}):(\d+): ask again\n")
AT_NONE = re.compile(r"at no event from (\d+) to (\d+), told of event (\d+), mark ([0-9a-f]{8}):(\d+)")


class Journals(threading.Thread):
    """Links each journal of a store, and the blocks of its head, into a folder of its own, since a store that
    begins its journal anew removes them."""

    def __init__(self, folder, work):
        super().__init__(daemon=True)
        self.folder, self.work, self.inode, self.ended = folder, work, None, threading.Event()
        # of each journal the folder, by the checksum of its head
        self.folders, self.count = {}, 0

    def look(self):
        if os.stat(f"{self.folder}/journal").st_ino == self.inode:
            return
        self.count += 1
        to = f"{self.work}/{self.count}"
        os.makedirs(to)
        os.link(f"{self.folder}/journal", f"{to}/journal")
        self.inode = os.stat(f"{to}/journal").st_ino
        with open(f"{to}/journal", "rb") as file:
            journal = Journal(file.read())
        for number in journal.folders:
            os.makedirs(f"{to}/blocks/{number}/chunks")
            for name in FILES:
                os.link(f"{self.folder}/blocks/{number}/{name}", f"{to}/blocks/{number}/{name}")
        self.folders[journal.sum] = to

    def run(self):
        while not self.ended.wait(0.005):
            # a file that is gone belonged to a journal that is gone, too
            with contextlib.suppress(FileNotFoundError):
                self.look()


class Row:
    """An audit: what was told, the query, the reply, the mark, and what the auditor said."""

    def __init__(self, kind, query, reply, judged):
        self.kind, self.query, self.reply = kind, query, zlib.compress(json.dumps(reply).encode())
        status, self.lines, told = judged
        line = next((line for line in self.lines if line.startswith("at ")), told)
        self.is_right, self.is_early = status == 0, status == 3
        found = (AT if self.is_right else BEFORE if self.is_early else AT_NONE).fullmatch(line)
        # the states, after so many events to so many, that are said to be right, and not to be
        self.sum, self.right, self.wrong = None, None, None
        if not found or bool(told) != self.is_early or (self.is_early and self.lines):
            return
        if self.is_right:
            place, _, self.sum, mark = found.groups()
            self.right = int(place), int(place)
            holds(f"{kind}: {line}", place == mark)
        elif self.is_early:
            place, last, self.sum, mark = found.groups()
            self.right, self.wrong = (int(place), int(place)), (int(mark), int(last))
            holds(f"{kind}: {line}", int(place) < int(mark))
        else:
            first, last, _, self.sum, _ = found.groups()
            self.wrong = int(first), int(last)

    def asked(self):
        """What kept_states.py is asked of it, and which states it has to find."""
        query, reply = Query(*self.query), json.loads(zlib.decompress(self.reply))
        if self.right:
            yield Asked(query, reply, *self.right), [self.right[0]]
        if self.wrong:
            yield Asked(query, reply, *self.wrong), []


class Busy:
    """What the clients of a server share."""

    def __init__(self, keeper, auditor, replies, seed):
        self.keeper, self.auditor, self.replies, self.seed = keeper, auditor, replies, seed
        self.lock, self.up, self.clock, self.count = threading.Lock(), threading.Event(), 1000, 0
        self.rows, self.taken, self.again, self.changes, self.not_made = [], 0, 0, 0, 0
        self.up.set()

    def now(self, count=1):
        """A time that nobody had; so many times before it are nobody's, too."""
        with self.lock:
            self.clock += count
            return self.clock

    def value(self):
        with self.lock:
            self.count += 1
            return self.count

    def takes(self):
        """The number of one more reply that is to be judged, or None."""
        with self.lock:
            if self.taken == self.replies:
                return None
            self.taken += 1
            return self.taken

    def add(self, row):
        with self.lock:
            self.rows.append(row)


class Client(threading.Thread):
    """It writes, deletes and cuts, and audits replies; its series are its own."""

    def __init__(self, busy, number):
        super().__init__(daemon=True)
        self.busy, self.number, self.random = busy, number, random.Random(f"{busy.seed} {number}")
        self.own = f'{{client="{number}"}}'
        self.lies = []

    def run(self):
        try:
            while number := self.busy.takes():
                self.until_told(self.change_some)
                self.until_told(self.truth)
                if number % 3 == 0:
                    self.until_told(self.lie)
        except Exception:  # noqa: BLE001
            holds(f"client {self.number} ends: {traceback.format_exc()}", False)

    def until_told(self, act):
        """Acts, and again if the server was ended meanwhile, or the journal begun anew."""
        for _ in range(100):
            try:
                return act()
            except Gone:
                holds("the server runs again", self.busy.up.wait(300))
                time.sleep(0.02)
            except Rolled:
                with self.busy.lock:
                    self.busy.again += 1
        raise AssertionError(f"{act.__name__}: asked again a hundred times")

    # changes

    def labels(self, **more):
        pairs = {"__name__": self.random.choice(NAMES), "client": str(self.number), **more}
        pairs["note"] = f"{'a label that fills the journal ' * 3}{self.number}"
        if zone := self.random.choice(["", "x", "y"]):
            pairs["zone"] = zone
        return pairs

    def fresh(self, labels):
        count = self.random.randint(1, 2)
        last = self.busy.now(count)
        return labels, [[last - k, self.busy.value()] for k in reversed(range(count))]

    def change(self):
        kind = self.random.random()
        if kind < 0.96:
            rows = [self.labels() for _ in range(self.random.randint(1, 3))]
            self.busy.keeper.write(*map(self.fresh, rows))
        elif kind < 0.994:
            first = self.busy.now() - self.random.randint(0, 1000)
            zone = self.random.choice("xy")
            self.busy.keeper.delete(f'{{client="{self.number}",zone="{zone}"}}', first, first + 30)
        elif kind < 0.998:
            self.busy.keeper.delete(self.own, 0, max(0, self.busy.now() - OLD))
        else:
            self.busy.keeper.cut(self.busy.now() - 100)

    def change_some(self):
        for _ in range(CHANGES):
            self.change()
            with self.busy.lock:
                self.busy.changes += 1

    # what is judged

    def asks(self):
        """A query: mostly of the last times."""
        others = f'up{{client!="{self.number}"}}'
        selector = self.random.choice(
            ["up", "down", self.own, others, '{zone=""}', '{zone=~"x|y",__name__!="up"}']
        )
        way = self.random.random()
        if way < 0.05:
            return "up" if selector == self.own else selector, 0, LATEST
        last = self.busy.now() if way < 0.5 else LATEST
        return selector, max(0, self.busy.now() - self.random.choice([50, 500, 2000])), last

    def recent(self):
        """A query of what is its own, of the last times."""
        return self.own, max(0, self.busy.now() - 1500), LATEST

    def judged(self, kind, query, reply, mark):
        """What the auditor says of a reply, since a mark."""
        judged = self.busy.auditor.judge(reply, *query, since=mark)
        if judged == (3, [], f"rolled since {mark}: ask again\n"):
            raise Rolled
        row = Row(kind, query, reply, judged)
        holds(f"{kind}, {query}, since {mark}: {judged}", row.sum)
        if row.sum == mark.split(":")[0]:
            first = (row.wrong or row.right)[0]
            holds(f"{kind}, since {mark}: {judged}", first >= int(mark.split(":")[1]))
        holds(f"{kind}, since {mark}: {judged}", not row.is_early or mark in judged[2])
        if row.sum:
            self.busy.add(row)
        return row

    def truth(self):
        """A change is in the journal before a query sees it, so a mark that was taken meanwhile is ahead of
        the server, and the auditor says so. A reply to the same query soon is right of a state since."""
        mark, query, end = self.busy.auditor.mark(), self.asks(), time.monotonic() + 60
        while True:
            row = self.judged(TRUE, query, self.busy.keeper.select(*query), mark)
            if not row.is_early or time.monotonic() > end:
                break
        holds(f"{TRUE}, {query}, since {mark}: {row.lines}", row.is_right)

    def lie(self):
        if not self.lies:
            self.lies = [*LIES, *ACTED]
            self.random.shuffle(self.lies)
        name = self.lies[-1]
        try:
            made = self.of_one(LIES[name]) if name in LIES else ACTED[name](self)
        except (StopIteration, IndexError, KeyError):
            made = None
        if made:
            self.judged(name, *made)
        else:
            with self.busy.lock:
                self.busy.not_made += 1
        self.lies.pop()

    def of_one(self, change):
        mark, query = self.busy.auditor.mark(), self.random.choice([self.asks, self.recent])()
        lie = changed(self.busy.keeper.select(*query), change)
        return lie and (query, lie, mark)

    def older(self):
        query = self.recent()
        reply = self.busy.keeper.select(*query)
        if self.busy.keeper.write(self.fresh(self.labels())):
            return query, reply, self.busy.auditor.mark()
        return None

    def half(self):
        """One sample of two that came in one batch."""
        mark, query = self.busy.auditor.mark(), self.recent()
        labels = self.labels(half="b")
        rows = [self.fresh(self.labels(half="a")), self.fresh(labels)]
        if not self.busy.keeper.write(*rows):
            return None
        reply = self.busy.keeper.select(*query)
        return query, without_a_sample(reply, labels, rows[1][1][0][0]), mark

    def before_and_after(self):
        """Replies before and after a deletion of what the last block and the head have."""
        query = self.recent()
        before = self.busy.keeper.select(*query)
        block = [part for part in searched(before)[:-1] if part["rows"]][-1]
        stored, new = (
            [time_ for row in part["rows"] for time_, _ in row["samples"]]
            for part in (block, before["parts"][-1])
        )
        if not new or not self.busy.keeper.delete(self.own, max(stored), min(new)):
            return None
        after = self.busy.keeper.select(*query)
        return (query, before, after) if len(before["parts"]) == len(after["parts"]) else None

    def blocks_before(self):
        mark = self.busy.auditor.mark()
        if made := self.before_and_after():
            query, before, after = made
            lie = beside(before, after)
            return (query, lie, mark) if lie not in (before, after) else None
        return None

    def taken(self):
        mark = self.busy.auditor.mark()
        if made := self.before_and_after():
            query, before, after = made
            return query, put_back(before, after), mark
        return None

    def cut_away(self):
        """The head before a cut that took a series, beside the blocks behind it."""
        mark, query = self.busy.auditor.mark(), self.recent()
        if not self.busy.keeper.write(self.fresh(self.labels(gone=str(self.busy.value())))):
            return None
        before = self.busy.keeper.select(*query)
        if not self.busy.keeper.cut(self.busy.now()):
            return None
        after = self.busy.keeper.select(*query)
        is_one_more = len(after["parts"]) == len(before["parts"]) + 1
        return (query, beside(after, before), mark) if is_one_more else None


ACTED = {
    "an answer older than the reader's own write": Client.older,
    "half of a batch": Client.half,
    "the blocks before a deletion beside the head after it": Client.blocks_before,
    "a sample that a deletion took": Client.taken,
    "a series that was cut away, under its old number": Client.cut_away,
}


def ended_by_turns(busy, clients, blocktool):
    """Kills the server, and starts it again, its blocks joined each second time, until the clients are done;
    how often it did the one and the other."""
    ends, phase = [0, 0], max(1, min(PHASE, busy.replies // 3))
    while any(client.is_alive() for client in clients):
        time.sleep(0.02)
        if (sum(ends) + 1) * phase <= busy.taken < busy.replies:
            is_join = ends[0] > ends[1]
            busy.up.clear()
            busy.keeper.again(signal.SIGKILL, blocktool if is_join else None)
            busy.up.set()
            ends[is_join] += 1
    return ends


def judged_by_states(busy, journals):
    """Has kept_states.py judge each audit whose journal is there; how many these are, and of the lies how
    many are right by chance."""
    judged, by_chance, rows_by = 0, 0, collections.defaultdict(list)
    for row in busy.rows:
        rows_by[row.sum].append(row)
    for sum_, rows in rows_by.items():
        if sum_ not in journals.folders:
            continue
        store = Store(journals.folders[sum_])
        holds(f"the checksum of a head, {sum_}", store.journal.sum == sum_)
        judged += len(rows)
        by_chance += sum(row.is_right and row.kind != TRUE for row in rows)
        asked = [(row, one, wanted) for row in rows for one, wanted in row.asked()]
        for (row, one, wanted), found in zip(asked, store.right_of([one for _, one, _ in asked])):
            more = f"states {one.first} to {one.last} of {len(store.journal.events)}"
            holds(
                f"{row.kind}, {row.query}: {row.lines[-2:]}, kept_states.py: right of {found[:3]}, {more}",
                found == wanted and one.last <= len(store.journal.events),
            )
    return judged, by_chance


def busy_server(querier, program, blocktool, work, replies, seed):
    began = time.monotonic()
    keeper = Keeper(querier, f"{work}/busy", "--journal-mb", "1")
    auditor = Auditor(program, keeper.folder)
    busy, journals = Busy(keeper, auditor, replies, seed), Journals(keeper.folder, f"{work}/journals")
    journals.look()
    journals.start()
    clients = [Client(busy, number) for number in range(CLIENTS)]
    for client in clients:
        client.start()
    kills, joins = ended_by_turns(busy, clients, blocktool)
    keeper.server.end()
    took = time.monotonic() - began
    journals.ended.set()
    journals.join()
    judged, by_chance = judged_by_states(busy, journals)
    told = [row.is_right for row in busy.rows if row.kind == TRUE and not row.is_early]
    early = sum(row.kind == TRUE and row.is_early for row in busy.rows)
    lies = [row for row in busy.rows if row.kind != TRUE]
    older = sum(row.is_early for row in lies)
    refused = collections.Counter(row.kind for row in lies if not row.is_right)
    holds(f"{replies} replies are right, not {sum(told)} of {len(told)}", told == [True] * replies)
    for kind in [*LIES, *ACTED]:
        holds(f"{kind}: none was told", refused[kind] or replies < 500)
    print(f"busy: {len(told)} replies, each since a mark: {sum(told)} right, {len(told) - sum(told)} not;")
    print(f"  asked again: {busy.again} rolled since their marks, {early} from before them;")
    print(f"  {len(lies)} lies, {sum(refused.values())} refused, {older} of them as from before their marks,")
    print(f"  {by_chance} right by chance, {busy.not_made} not made;")
    print(f"  {busy.changes} changes,", end=" ")
    print(f"{journals.count} journals, {kills} kills, {joins} joins; {took:.0f} s; kept_states.py judged")
    print(f"  {judged} of {len(busy.rows)} audits in {time.monotonic() - began - took:.0f} s; refused:")
    for kind, count in refused.items():
        print(f"    {count} {kind}")
    holds(f"{judged} of {len(busy.rows)} are judged by their states", judged > 0.9 * len(busy.rows))
    return auditor.count


# ---- a large store

# runs a program, and tells its seconds, those of processors, and its peak memory in kB; this process is too
# large to be asked
MEASURED = """
import os, sys, time
began = time.monotonic()
child = os.posix_spawn(sys.argv[1], sys.argv[1:], os.environ)
_, status, used = os.wait4(child, 0)
took = time.monotonic() - began
print(os.waitstatus_to_exitcode(status), took, used.ru_utime + used.ru_stime, used.ru_maxrss, file=sys.stderr)
"""


def measured(words, file):
    """The lines of a program over a file, its seconds, those of processors, and its peak memory in MB."""
    with open(file, "rb") as text:
        done = subprocess.run(
            [sys.executable, "-c", MEASURED, *words], stdin=text, capture_output=True, text=True, check=True
        )
    status, seconds, worked, memory = done.stderr.split()[-4:]
    holds(f"{words}: {done}", status == "0")
    return done.stdout.splitlines(), float(seconds), float(worked), int(memory) / 1e3


def worked_so_far(pid):
    """The seconds of processors that a process took until now."""
    with open(f"/proc/{pid}/stat") as stat:
        fields = stat.read().rsplit(")", 1)[1].split()
    return sum(map(int, fields[11:13])) / os.sysconf("SC_CLK_TCK")


def large_labels(n):
    host = n // 10
    return {"__name__": f"metric_{n % 10}", "instance": f"host-{host:05}", "job": f"job-{host % 100:02}"}


def filled(keeper, series, samples, first):
    """Writes so many series of so many samples, 15 seconds apart."""
    step = 4096 // samples
    for number in range(0, series, step):
        rows = [
            (large_labels(n), [(first + 15_000 * k, n + k) for k in range(samples)])
            for n in range(number, min(series, number + step))
        ]
        if not keeper.write(*rows):
            raise AssertionError("a large batch is refused")


def speed(querier, program, work):
    """What a start and an audit take over 10,000 series of 120 samples in the head and a block of 100,000 of
    60, with ten deletions behind the head's record: told, and held to nothing."""
    keeper = Keeper(querier, f"{work}/large", "--journal-mb", "1024")
    filled(keeper, 100_000, 60, 0)
    keeper.cut(60 * 15_000)
    filled(keeper, 10_000, 120, 60 * 15_000)
    keeper.again(signal.SIGTERM)
    for n in range(10):
        first = 15_000 * (55 + n)
        holds("a deletion", keeper.delete(f'{{job="job-{10 * n:02}"}}', first, first + 150_000))
    starts, works = [], []
    for _ in range(3):
        keeper.server.end()
        began = time.monotonic()
        keeper.start()
        starts.append(time.monotonic() - began)
        works.append(worked_so_far(keeper.server.process.pid))
    print(f"speed: {keeper.server.told_err[:2]}")
    print(f"  a start: {min(starts):.2f} s, of {', '.join(f'{one:.2f}' for one in starts)};", end=" ")
    print(f"{min(works):.2f} s of processors")
    for selector in ['metric_3{instance="host-00020"}', '{job="job-20"}', "metric_3"]:
        with open(f"{work}/reply", "w") as file:
            json.dump(keeper.select(selector), file, separators=(",", ":"))
        line = [program, "--store", keeper.folder, "--selector", selector]
        found = [measured(line, f"{work}/reply") for _ in range(3)]
        least, worked = min(one[1] for one in found), min(one[2] for one in found)
        size = os.path.getsize(f"{work}/reply") / 1e6
        memory = max(one[3] for one in found)
        print(f"  an audit of {selector}, {size:.2f} MB: {least:.2f} s,", end=" ")
        print(f"{least / min(starts):.2f} of a start; {worked:.2f} s of processors,", end=" ")
        print(f"{worked / min(works):.2f} of a start; {memory:.0f} MB; {found[0][0][-1]}", flush=True)
    keeper.server.end()


def main():
    parser = argparse.ArgumentParser(description="has auditor --store judge replies of a server")
    parser.add_argument("--replies", type=int, default=1000, help="how many of a busy server (%(default)s)")
    parser.add_argument("--seed", default="1", help="what random numbers are made of")
    parser.add_argument("--speed", action="store_true", help="only measures a large store")
    asked = parser.parse_args()
    # so that nothing is left behind
    signal.signal(signal.SIGTERM, lambda number, _: sys.exit(128 + number))
    querier, program, blocktool = map(find_program, ("querier", "auditor", "blocktool"))
    with tempfile.TemporaryDirectory() as work:
        try:
            if asked.speed:
                speed(querier, program, work)
            else:
                audited(querier, program, blocktool, work, asked)
        finally:
            end_all()
    print(f"{len(failed)} facts do not hold")
    sys.exit(1 if failed else 0)


def audited(querier, program, blocktool, work, asked):
    began = time.monotonic()
    keeper = Keeper(querier, f"{work}/known", "--journal-mb", "1")
    auditor = Auditor(program, keeper.folder)
    session(keeper, auditor)
    words(auditor)
    damage(auditor, work)
    keeper.server.end()
    print(f"known: {auditor.count} runs of auditor, {time.monotonic() - began:.0f} s", flush=True)
    began = time.monotonic()
    keeper = Keeper(querier, f"{work}/quiet", "--journal-mb", "1")
    quiet = Quiet(keeper, Auditor(program, keeper.folder), asked.seed)
    quiet.rounds("before a kill", 30)
    keeper.again()
    quiet.rounds("behind a kill", 30)
    quiet.checkpoint()
    quiet.rounds("behind a checkpoint", 30)
    keeper.again(signal.SIGTERM)
    quiet.rounds("behind a start", 30)
    keeper.again(signal.SIGTERM, blocktool)
    quiet.rounds("behind a join", 30)
    keeper.server.end()
    print(f"quiet: {quiet.right} replies right; {sum(quiet.refused.values())} lies refused, and")
    print(f"  {quiet.by_chance} right by chance; {quiet.early} from before a random mark;", end=" ")
    print(f"{quiet.auditor.count} runs of auditor,", end=" ")
    print(f"{time.monotonic() - began:.0f} s", flush=True)
    busy_server(querier, program, blocktool, work, asked.replies, asked.seed)


main()
