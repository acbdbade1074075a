"""A server that joins the blocks of its cuts and lets old samples leave: it has few blocks and says what a plain
map says, also after it was killed at any moment; blocks that are not joined stay as they lie; and the words that
are refused."""
import json
import os
import random
import threading
import time
import urllib.request

from house import (
    LEAST, OK, Batch, Deletion, Head, Lost, Server, contents_of, differences, equals, read, run,
)
from lib import free_port

EVERY = 1000
SERIES = 12
PAUSE = 0.02


def labels(n):
    return {"__name__": "upkeep", "n": str(n), "suite": "durable"}


class Map:
    """Samples by label set and time: what a store has that nothing leaves."""

    def __init__(self, rows=None):
        self.rows = rows or {}

    def with_event(self, event):
        rows = {one: dict(samples) for one, samples in self.rows.items()}
        if isinstance(event, Batch):
            for one, at, value in event.samples():
                rows.setdefault(one, {})[at] = value
        else:
            for one, samples in rows.items():
                if event.takes(one):
                    for at in [at for at in samples if event.first <= at <= event.last]:
                        del samples[at]
        return Map(rows)

    def apply(self, event):
        """The same, in place."""
        if isinstance(event, Batch):
            for one, at, value in event.samples():
                self.rows.setdefault(one, {})[at] = value
        else:
            self.rows = self.with_event(event).rows

    def since(self, first):
        """The rows of what is not before a time."""
        return since(self.rows, first)


def since(rows, first):
    kept = {one: {at: value for at, value in samples.items() if at >= first} for one, samples in rows.items()}
    return {one: samples for one, samples in kept.items() if samples}


def metrics(port):
    with urllib.request.urlopen(f"http://127.0.0.1:{port}/metrics", timeout=60) as reply:
        return dict(line.rsplit(" ", 1) for line in reply.read().decode().splitlines() if line[0] != "#")


class Store:
    """A store in a folder, its server, and what was sent to it."""

    def __init__(self, looks, querier, folder, seed, keep=None):
        self.looks, self.querier, self.folder, self.keep = looks, querier, folder, keep
        self.random, self.map, self.deletes = random.Random(seed), Map(), True
        self.clock, self.count, self.told, self.server = 0, 0, [], None
        self.start()

    def start(self):
        self.status = free_port()
        words = ["--data", self.folder, "--cut-every", str(EVERY), "--cut-after", "0", "--journal-mb", "1",
                 "--status-port", str(self.status)]
        if self.keep:
            words += ["--keep", f"{self.keep}"]
        self.server = Server(self.querier, *words)
        self.looks.that("it starts", self.server.wait(), self.server.told, tell=False)

    def end(self):
        self.server.end()
        self.told += self.server.told_err

    def event(self):
        """Mostly samples, each later than all before; and now and then a deletion of what a series had lately."""
        if self.deletes and self.clock > 5000 and self.random.random() < 0.02:
            first = self.clock - self.random.randrange(8 * EVERY)
            return Deletion([equals("n", str(self.random.randrange(SERIES)))], first, first + EVERY)
        rows = []
        for _ in range(self.random.randint(1, 4)):
            n, samples = self.random.randrange(SERIES), []
            for _ in range(self.random.randint(1, 6)):
                self.clock += self.random.randint(1, 40)
                self.count += 1
                samples.append((self.clock, self.count))
            rows.append((labels(n), samples))
        return Batch(rows)

    def tell(self, event):
        """Whether it was acknowledged, and nothing else was said."""
        reply = self.server.tell(event)
        self.looks.at(event.line()[:60], OK, reply, tell=False)
        self.map.apply(event)

    def feed(self, until):
        """Some five events a cut, and some eight cuts a second."""
        while self.clock < until:
            self.tell(self.event())
            time.sleep(PAUSE)

    def crash(self):
        """Feeds it until it is killed, after a moment. What was under way is there, or it is not."""
        killer = threading.Timer(self.random.random() * 1.5, self.server.process.kill)
        killer.start()
        flying = None
        try:
            for _ in range(10**6):
                flying = self.event()
                self.tell(flying)
                time.sleep(PAUSE)
        except Lost:
            pass
        killer.join()
        self.end()
        self.start()
        rows, floor = self.seen()
        for one in (self.map, self.map.with_event(flying)):
            if self.difference(one, rows, floor) is None:
                self.map = one
                self.looks.that("after a crash: what it says", True, tell=False)
                return
        self.looks.fail(f"after a crash: {self.difference(self.map, rows, floor)}")

    def seen(self):
        """What it says, and its floor behind that."""
        rows = self.server.select()[1]
        return rows, int(metrics(self.status)["fuzzledge_head_floor"])

    def difference(self, wanted, rows, floor):
        """How what it says differs from a map, of which samples may have left that are older than is kept."""
        oldest = LEAST if self.keep is None else floor - self.keep
        if since(rows, oldest) != wanted.since(oldest):
            return differences(wanted.since(oldest), since(rows, oldest))
        strange = {(one, at, value) for one, samples in rows.items() for at, value in samples.items()
                   if wanted.rows.get(one, {}).get(at) != value}
        return f"samples that nobody sent, as {sorted(strange)[:2]}" if strange else None

    def blocks(self):
        return int(metrics(self.status)["fuzzledge_blocks"])

    def settle(self, seconds=60):
        """Waits until the number of its blocks stays for two seconds."""
        last, since_then = None, time.monotonic()
        end = since_then + seconds
        while time.monotonic() < end:
            now = (self.blocks(), len(self.server.told_err))
            if now != last:
                last, since_then = now, time.monotonic()
            if time.monotonic() - since_then > 2:
                break
            time.sleep(0.1)
        return last[0]

    def agrees(self, what):
        rows, floor = self.seen()
        self.looks.that(f"{what}: what it says", self.difference(self.map, rows, floor) is None,
                        self.difference(self.map, rows, floor) or "")
        return rows, floor

    def lines(self, start):
        return [line for line in self.told + self.server.told_err if line.startswith(start)]


def joins(looks, querier, folder, seed):
    """Some 350 cuts and crashes between them: there are never near 63 blocks, and few in the end."""
    store, most = Store(looks, querier, folder, seed), 0
    for round in range(20):
        store.feed(store.clock + 15 * EVERY)
        most = max(most, store.blocks())
        if round % 2:
            store.agrees(f"joins, round {round}")
        else:
            store.crash()
    store.feed(store.clock + 30 * EVERY)
    few = store.settle()
    looks.that("joins: never many blocks", most <= 60, most)
    looks.that("joins: few blocks in the end", few <= 30, few)
    looks.that("joins: it tells them", len(store.lines("joined ")) > 20, store.lines("joined")[:3])
    looks.at("joins: no cut is refused", [], store.lines("cannot"))
    counted = int(metrics(store.status)["fuzzledge_joins_total"])
    looks.at("joins: they are counted",
             sum(line.startswith("joined ") for line in store.server.told_err), counted)
    store.agrees("joins: in the end")
    store.end()
    store.start()
    store.agrees("joins: after a new start")
    looks.that("joins: as few blocks", store.blocks() <= few, store.blocks())
    store.end()
    blocks = blocks_of(folder)
    status, out, _ = run([querier, "check", *blocks])
    looks.at("joins: each block of the folder is one", (0, len(blocks)), (status, out.count(": ok ")))


def blocks_of(folder):
    """The blocks that the head of its journal names."""
    head, _ = Head.read(contents_of(read(f"{folder}/journal"))[0])
    return [f"{folder}/blocks/{number}" for number in head.numbers]


def leaving(looks, querier, folder, seed):
    """Samples that are kept for 30 cuts: what is younger is there, what is much older is not."""
    keep = 30 * EVERY
    store = Store(looks, querier, folder, seed, keep)
    for round in range(8):
        store.feed(store.clock + 20 * EVERY)
        if round % 2:
            store.agrees(f"keep, round {round}")
        else:
            store.crash()
    store.feed(store.clock + 10 * EVERY)
    few = store.settle()
    rows, floor = store.agrees("keep: in the end")
    # a block is at most an eighth of that long, or what was cut at once after a start
    old = floor - keep - keep // 8 - 20 * EVERY
    left = [at for samples in rows.values() for at in samples if at < old]
    looks.at("keep: what is old has left", [], left[:3])
    looks.that("keep: few blocks", few <= 40, few)
    looks.that("keep: it tells it", store.lines("dropped samples before "), store.told[-3:])
    looks.that("keep: emptied blocks leave", store.lines("removed "), store.told[-3:])
    looks.at("keep: nothing is refused", [], store.lines("cannot"))
    store.end()
    store.start()
    rows_then, _ = store.agrees("keep: after a new start")
    looks.that("keep: nothing comes back",
               not [at for samples in rows_then.values() for at in samples if at < old])
    store.end()


def lying(folder):
    """The blocks of the head, by their ranges and samples: the number of each, and of its files the inode and
    when they were written."""
    for _ in range(100):
        found = {}
        try:
            for path in blocks_of(folder):
                meta = json.loads(read(f"{path}/meta.json"))
                stats = [os.stat(f"{path}/{name}") for name in
                         ("meta.json", "index", "chunks/000001", "tombstones")]
                place = (meta["minTime"], meta["maxTime"], meta["stats"]["numSamples"])
                found[place] = (path, [(one.st_ino, one.st_mtime_ns) for one in stats])
            return found
        except FileNotFoundError:
            # the journal was begun anew meanwhile
            time.sleep(0.01)
    raise AssertionError("no head of which all blocks are there")


def untouched(looks, querier, folder, seed):
    """While blocks behind and before it are joined and leave, a block lies as it was written."""
    store = Store(looks, querier, folder, seed, 30 * EVERY)
    store.deletes = False
    before, same, changed = {}, 0, []
    for _ in range(40):
        store.feed(store.clock + 2 * EVERY)
        now = lying(folder) if os.path.exists(f"{folder}/blocks") else {}
        both = before.keys() & now.keys()
        same += len(both)
        changed += [(place, before[place][0], now[place][0]) for place in both if before[place] != now[place]]
        before = now
    looks.at("untouched: blocks that were written anew", [], changed[:3])
    looks.that("untouched: blocks that stayed", same > 40, same)
    done = len(store.lines("joined ")), len(store.lines("removed "))
    looks.that("untouched: others were joined, and left", min(done) > 2, done)
    store.agrees("untouched")
    store.end()


def words(looks, querier, folder):
    """The words of the options."""
    kept = ["--data", folder, "--cut-every", "1000"]
    for word in ["", "x", "d", "0", "0d", "-1d", "1.5h", "90D", "90 d", "90dd", "1w", str(2**64), f"{2**64 - 1}d"]:
        status, out, told = run([querier, "serve", "--port", "0", *kept, f"--keep={word}"])
        looks.at(f"--keep={word}", (2, "", True), (status, out, "--keep <D>" in told), tell=False)
    for word in ["0", "-1", "x", "", "1048577", "1.5", "20d"]:
        status, out, told = run([querier, "serve", "--port", "0", *kept, f"--keep-gb={word}"])
        looks.at(f"--keep-gb={word}", (2, "", True), (status, out, "--keep-gb <GB>" in told), tell=False)
    for word in ["0", "-1", "x", "", "67108865", "1.5"]:
        status, out, told = run([querier, "serve", "--port", "0", *kept, f"--join-samples={word}"])
        looks.at(f"--join-samples={word}", (2, "", True), (status, out, "--join-samples <N>" in told), tell=False)
    for some in [(), ("--data", folder), ("--cut-every", "1000")]:
        for option in ["--keep=90d", "--keep-gb=20"]:
            status, out, told = run([querier, "serve", "--port", "0", *some, option])
            looks.at(f"{option} with {' '.join(some)[:20]}", (2, "", True),
                     (status, out, "'--data <DIR>' and '--cut-every <MS>'" in told), tell=False)
    looks.that("refused words make no folder", not os.path.exists(folder))
    for word in ["90d", "36h", "30m", "45s", "1", "+5s", str(2**64 - 1)]:
        status, out, _ = run([querier, "serve", "--port", "0", "--requests", "0", *kept, f"--keep={word}"])
        looks.at(f"--keep={word}", (0, True), (status, out.startswith("listening ")), tell=False)


def upkeep(looks, querier, work, seed):
    looks.say(f"SEED={seed}")
    words(looks, querier, f"{work}/words")
    joins(looks, querier, f"{work}/joins", f"{seed} joins")
    leaving(looks, querier, f"{work}/leaving", f"{seed} leaving")
    untouched(looks, querier, f"{work}/untouched", f"{seed} untouched")
