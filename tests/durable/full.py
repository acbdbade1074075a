"""Stores that have no more room. With --keep-gb the oldest samples leave, and the newer ones stay; on a full
disk what is not kept is refused, nothing that was acknowledged is lost, and once there is room blocks are
joined again."""
import contextlib
import json
import os
import subprocess
import time

from faults import mounted
from house import (
    HEADER, NOT_KEPT, NOTHING, OK, Batch, Head, Server, contents_of, differences, labels_text, read, record,
    set_of,
)
from lib import free_port
from read_block import TABLE, checksum, uvarint, varint
from upkeep import Map, metrics, since
from year import Watch, megabytes, on_disk, process_memory

EVERY = 1000
GB = 10**9


def labels(n):
    return {"__name__": "full", "n": str(n), "suite": "durable"}


class Store:
    """A store in a folder, its server, and a map of what was acknowledged."""

    def __init__(self, looks, querier, folder, *words, every=EVERY):
        self.looks, self.querier, self.folder, self.map, self.told = looks, querier, folder, Map(), []
        self.words = [
            "--data", folder, "--cut-every", str(every), "--cut-after", "0", "--workers", "2", *words,
        ]
        self.start()

    def start(self):
        self.status = free_port()
        self.server = Server(self.querier, *self.words, "--status-port", str(self.status))
        return self.looks.that("it starts", self.server.wait(1500), self.server.told, tell=False)

    def end(self):
        self.server.end()
        self.told += self.server.told_err

    def standing(self):
        found = metrics(self.status)
        return int(found["fuzzledge_head_floor"]), int(found["fuzzledge_blocks"])

    def lines(self, *starts):
        return [line for line in self.told + self.server.told_err if line.startswith(starts)]

    def settle(self, seconds=60):
        last, end = None, time.monotonic() + seconds
        while time.monotonic() < end:
            now = self.standing(), len(self.server.told_err)
            if now == last:
                return
            last = now
            time.sleep(0.6)

    def tell(self, event):
        got = self.server.tell(event)
        if got == OK:
            self.map.apply(event)
        return got

    def cut(self, at, count, series=4):
        """Some batches up to a time, which makes a cut there due, and waits for it a little; whether all of
        them were kept."""
        step = EVERY // count
        for n in range(series):
            times = range(at - EVERY, at, step)
            if self.tell(Batch([(labels(n), [(t, (t + n) * 2**20) for t in times])])) != OK:
                return False
        if self.tell(Batch([(labels(series), [(at, 1)])])) != OK:
            return False
        end = time.monotonic() + 20
        while self.standing()[0] < at and time.monotonic() < end and not self.lines("cannot cut"):
            time.sleep(0.1)
        return True

    def agrees(self, what, oldest=0, tell=True):
        """It says what the map says, of which what is older than a time may have left."""
        rows = self.server.select()[1]
        wanted = since(self.map.rows, oldest)
        self.looks.that(f"{what}: what it says", since(rows, oldest) == wanted,
                        differences(wanted, since(rows, oldest)), tell=tell)
        strange = [(one, t) for one, samples in rows.items() for t, v in samples.items()
                   if self.map.rows.get(one, {}).get(t) != v]
        self.looks.at(f"{what}: what nobody sent", [], strange[:3], tell=False)
        return rows


def sees(store, rows):
    """Beside a map with a sample more what it says is not as wanted."""
    one, samples = next((one, samples) for one, samples in sorted(store.map.rows.items()) if samples)
    at = max(samples) + 1
    samples[at] = 1
    store.looks.that("a map with a sample more differs", rows != since(store.map.rows, 0))
    del samples[at]
    store.looks.that("and without it does not", rows == since(store.map.rows, 0))


def litter(folder):
    """The folders of blocks that the journal's head does not name, and whether a journal was left half."""
    head, _ = Head.read(contents_of(read(f"{folder}/journal"))[0])
    others = set(os.listdir(f"{folder}/blocks")) ^ {str(number) for number in head.numbers}
    return sorted(others), os.path.exists(f"{folder}/journal.next")


def room(disk, size):
    """Gives a mounted disk so many bytes."""
    subprocess.run(["mount", "-o", f"remount,size={size}", disk], check=True)


def full_disk(looks, querier, work):
    """A disk of 1.5 MiB that is filled, and then has more room."""
    with mounted(f"{work}/disk", 3 << 19) as disk:
        if disk is None:
            looks.say("no tmpfs may be mounted here: a disk that is full is left")
            return
        store, at, most = Store(looks, querier, f"{disk}/data", "--journal-mb", "1"), 0, 0
        kept = True
        while kept and at < 400 * EVERY:
            at += EVERY
            kept = store.cut(at, 500)
            most = max(most, store.standing()[1])
        looks.that("a full disk: it is full", not kept, at)
        got = [store.tell(Batch([(labels(8), [(at + k, k) for k in range(4000)])])) for _ in range(5)]
        is_so = NOT_KEPT in got and all(one in (OK, NOT_KEPT) for one in got)
        looks.that("a full disk: batches are refused", is_so, got)
        sees(store, store.agrees("a full disk"))
        looks.at("a full disk: E6", [], [line for line in store.lines("cannot cut") if line.endswith("E6")])
        looks.that("a full disk: few blocks", most <= 56, most)
        looks.say(
            f"a disk of 1.5 MiB is full after {at // EVERY} cuts of 2,000 samples, with at most {most} blocks; "
            f"it says {sorted(set(line.split(':')[0] for line in store.lines('cannot', 'did not')))[:4]}"
        )
        room(disk, 16 << 20)
        # with room again
        took = None
        for _ in range(100):
            at += EVERY
            if store.cut(at, 500):
                took = at
                break
            time.sleep(0.1)
        if took is None:
            looks.say("it takes nothing with room again, until a new start")
            store.end()
            store.start()
        for _ in range(12):
            at += EVERY
            looks.that("room again: a cut more", store.cut(at, 500), store.server.told_err[-3:], tell=False)
        # what was refused is tried again after the next cut, and a pause of twenty times as long as it took
        for _ in range(60):
            if store.standing()[1] <= 30:
                break
            at += EVERY
            looks.that("room again: a cut more", store.cut(at, 500), store.server.told_err[-3:], tell=False)
            time.sleep(1)
        store.settle()
        store.agrees("room again")
        looks.that("room again: few blocks", store.standing()[1] <= 30, store.standing())
        looks.at("room again: what its folder has", ([], False), litter(store.folder))
        store.end()
        store.start()
        store.agrees("room again: a new start")
        store.end()


def no_room(looks, querier, work):
    """A disk has room for cuts and not for joins, until there are 63 blocks; then it has room."""
    with mounted(f"{work}/none", 4 << 20) as disk:
        if disk is None:
            looks.say("no tmpfs may be mounted here: 63 blocks without room are left")
            return
        store, ballast, at = Store(looks, querier, f"{disk}/data"), f"{disk}/ballast", 0
        with contextlib.suppress(OSError), open(ballast, "wb", 0) as file:
            while True:
                file.write(bytes(4096))
        os.truncate(ballast, os.path.getsize(ballast) - 3 * 4096)
        while at < 80 * EVERY and not store.lines("cannot cut"):
            at += EVERY
            looks.at("no room: a sample", OK, store.tell(Batch([(labels(0), [(at, at)])])), tell=False)
            end = time.monotonic() + 20
            while store.standing()[0] < at and time.monotonic() < end and not store.lines("cannot cut"):
                time.sleep(0.1)
        looks.at("no room: the blocks", 63, store.standing()[1])
        looks.that("no room: joins are refused", store.lines("cannot join"))
        looks.that("no room: so are cuts", store.lines("cannot cut")[-1:] == [f"cannot cut at {at}: E6"])
        store.agrees("no room")
        # once more, with the blocks as they stand
        time.sleep(5)
        os.remove(ballast)
        # a refused join is tried again after five minutes
        end = time.monotonic() + 480
        while store.standing()[1] > 30 and time.monotonic() < end:
            at += EVERY
            looks.at("room: a sample", OK, store.tell(Batch([(labels(0), [(at, at)])])), tell=False)
            time.sleep(5)
        looks.that("room: blocks are joined again", store.standing()[1] <= 30, store.standing())
        store.agrees("no room, and then room")
        store.end()
        store.start()
        store.agrees("no room, and then room: a new start")
        store.settle()
        looks.that("room: a new start: few blocks", store.standing()[1] <= 30, store.standing())
        store.end()


def leaving_room(looks, querier, work):
    """A disk that has room for twice the largest block and a journal more than the store is enough while the
    oldest leave and others are joined."""
    keep = 24 * EVERY
    store = Store(looks, querier, f"{work}/room", "--keep", f"{keep // 1000}s")
    watch = Watch(store.folder)
    for at in range(EVERY, 72 * EVERY, EVERY):
        store.cut(at, 500)
    most = watch.end()
    store.settle()
    store.agrees("leaving", store.standing()[0] - keep)
    head, _ = Head.read(contents_of(read(f"{store.folder}/journal"))[0])
    largest = max(sum(os.path.getsize(os.path.join(at, name)) for at, _, names in os.walk(
        f"{store.folder}/blocks/{number}") for name in names) for number in head.numbers)
    now = on_disk(store.folder)[0]
    store.end()
    looks.say(
        f"leaving: blocks of {megabytes(now)}, the largest {megabytes(largest)}; at any moment that was looked "
        f"at {megabytes(most)} of files"
    )
    # the same on a disk that has that room
    size = (now + 2 * largest + (1 << 19)) // 4096 * 4096
    with mounted(f"{work}/small", size) as disk:
        if disk is None:
            looks.say("no tmpfs may be mounted here: a disk that is small is left")
            return
        store = Store(looks, querier, f"{disk}/data", "--keep", f"{keep // 1000}s", "--journal-mb", "1")
        refused, most = [], 0
        for at in range(EVERY, 72 * EVERY, EVERY):
            if not store.cut(at, 500):
                refused.append(at)
            most = max(most, store.standing()[1])
        store.settle()
        looks.at("a small disk: what is refused", [], refused[:3])
        looks.at("a small disk: what it cannot do", [], sorted(set(store.lines("cannot", "did not"))))
        looks.that("a small disk: few blocks", most <= 45, most)
        store.agrees("a small disk", store.standing()[0] - keep)
        looks.say(
            f"a disk of {megabytes(size)} is enough for {megabytes(on_disk(store.folder)[1])} of files; at most "
            f"{most} blocks"
        )
        store.end()


class Tail:
    """Bytes that many contents end with: the checksum of a content without a look at each of them."""

    def __init__(self, tail):
        self.tail, state = tail, 0
        for byte in tail:
            state = state >> 8 ^ TABLE[(state ^ byte) & 255]
        self.alone = state
        # a checksum is linear: what each bit of the state before has become behind so many bytes
        self.bits = []
        for bit in range(32):
            state = 1 << bit
            for _ in tail:
                state = state >> 8 ^ TABLE[state & 255]
            self.bits.append(state)

    def record(self, front):
        """`record(front + tail)`."""
        state, behind = 0xFFFFFFFF, self.alone
        for byte in front:
            state = state >> 8 ^ TABLE[(state ^ byte) & 255]
        for bit, change in enumerate(self.bits):
            behind ^= change if state >> bit & 1 else 0
        length = (len(front) + len(self.tail)).to_bytes(4, "big")
        return b"".join(
            (length, checksum(length), front, self.tail, (behind ^ 0xFFFFFFFF).to_bytes(4, "big")))


# of the large store the end of each block, and how many series have a sample a millisecond there: no
# neighbours may be joined, and all are 8 MB below 1 GB, as it is reckoned
LARGE = [(2, 1), (4, 17), (6, 17), (9, 14), (12, 13)]
MILLION = 1_000_000


def write_large(folder):
    """The journal of a store with these blocks; how many samples each has."""
    each, counts, known = 4000, [], set()
    tail = Tail((varint(1) + varint(1)) * (each - 1))
    assert tail.record(b"front") == record(b"front" + tail.tail)
    os.mkdir(folder)
    with open(f"{folder}/journal", "wb") as file:
        file.write(HEADER + b"".join(map(record, NOTHING)))
        for end, series in LARGE:
            for number in range(series):
                for first in range((end - 1) * MILLION, end * MILLION, each):
                    name = b"" if number in known else labels_text(set_of(labels(number)))
                    known.add(number)
                    front = b"\x04" + uvarint(1) + uvarint(number) + name
                    file.write(tail.record(front + uvarint(each) + varint(first) + varint(1)))
            file.write(record(b"\x03" + varint(end * MILLION)))
            # no series has a sample at or behind the cut, so their numbers stay
            counts.append(series * MILLION)
    return counts


def keep_gb(looks, querier, work):
    """A store of some 992 MB, as it is reckoned, is kept to 1 GB: with a cut more the oldest block leaves,
    and no other."""
    folder = f"{work}/large"
    began = time.monotonic()
    counts = write_large(folder)
    store = Store(looks, querier, folder, "--keep-gb", "1", "--join-samples", "100000", every=MILLION)
    took = time.monotonic() - began
    looks.say(f"keep-gb: a journal of {sum(counts)} samples, and a start over it, in {took:.0f} s")
    store.settle(600)

    def blocks():
        head, _ = Head.read(contents_of(read(f"{folder}/journal"))[0])
        metas = [json.loads(read(f"{folder}/blocks/{number}/meta.json")) for number in head.numbers]
        return [(meta["maxTime"], meta["stats"]["numSamples"]) for meta in metas]

    def told(what):
        now, most = process_memory(store.server.process.pid)
        of_blocks, everything = on_disk(folder)
        looks.say(
            f"keep-gb, {what}: files of blocks {of_blocks} bytes, of {sum(n for _, n in blocks())} samples; "
            f"{everything} bytes in all; memory {megabytes(now)}, at most {megabytes(most)}"
        )
        return of_blocks

    wanted = [(end * MILLION, n) for (end, _), n in zip(LARGE, counts)]
    looks.at("keep-gb: the blocks of what fits", wanted, blocks())
    told("before")
    # a cut more with 1,200,000 samples, so that there are more than 1 GB
    at, refused = 12 * MILLION, []
    for first in range(0, MILLION, 4000 * 10):
        for n in range(12):
            event = Batch([(labels(n), [(at + first + 10 * k, 1) for k in range(4000)])])
            got = store.server.tell(event)
            if got != OK:
                refused.append(got)
    looks.at("keep-gb: what is refused", [], refused[:3])
    last = Batch([(labels(0), [(at + MILLION, 1)])])
    looks.at("keep-gb: the sample that brings a cut", OK, store.server.tell(last))
    end = time.monotonic() + 1500
    while time.monotonic() < end and not store.lines("removed ", "cannot", "did not"):
        time.sleep(0.5)
    store.settle(600)
    looks.at("keep-gb: what leaves", ["dropped samples before 2000000: 1 block", "removed 1 empty block"],
             store.lines("dropped", "removed", "cannot", "did not"))
    looks.at("keep-gb: its blocks then", len(LARGE), store.standing()[1])
    looks.at("keep-gb: those in the folder", wanted[1:], blocks()[:4])
    of_blocks = told("then")
    looks.that("keep-gb: what is reckoned is below 1 GB", 16 * sum(n for _, n in blocks()) <= GB)
    # the files have a head of some bytes for each chunk of 120 samples, and the index has its place
    looks.that("keep-gb: the files are few more", of_blocks <= GB * 1.05, of_blocks)
    for n, first, count in [(0, MILLION, 0), (0, 4 * MILLION - 1000, 1000), (16, 6 * MILLION - 1000, 1000)]:
        reply = store.server.exchange(
            "GET", f"/select?selector=full%7Bn%3D%22{n}%22%7D&from={first}&to={first + 999}")[1]
        got = sum(len(row["samples"]) for row in reply["rows"])
        looks.at(f"keep-gb: series {n} from {first}", count, got)
    store.end()
    store.start()
    store.settle(600)
    left = [line for line in store.server.told_err if "dropped" in line]
    looks.at("keep-gb: nothing leaves at a new start", [], left)
    looks.at("keep-gb: blocks after a new start", len(LARGE), store.standing()[1])
    store.end()


def full(looks, querier, work):
    full_disk(looks, querier, work)
    no_room(looks, querier, work)
    leaving_room(looks, querier, work)
    if os.environ.get("FULL_GB") == "0":
        looks.say("FULL_GB=0: the store of more than 1 GB is left")
    else:
        keep_gb(looks, querier, work)
