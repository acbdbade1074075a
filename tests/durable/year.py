"""A year of a store that nobody looks after: cut each two hours, some 4,400 times in some minutes, with
samples of the last 367 days, deletions, kills and starts. It says what a plain map says that forgets what
left, its blocks stay few, and its memory and its disk below what the documents say."""
import bisect
import http.client
import json
import os
import random
import re
import threading
import time
import urllib.parse

from house import LEAST, MOST, OK, Batch, Deletion, Head, Lost, Server, contents_of, equals, read, run, set_of
from lib import free_port
from upkeep import metrics

HOUR = 3_600_000
EVERY = 2 * HOUR
STEP = HOUR // 6
# series that live as long as the store, and those that others take the place of each ten days
LASTING, PASSING = 30, 10
WORKERS = 2
# what the unit of the package sets
ENV = {"MALLOC_ARENA_MAX": "1", "MALLOC_MMAP_THRESHOLD_": "16384"}


class Rows:
    """A plain map: of each series its times, ascending, and the values there."""

    def __init__(self):
        self.series = {}

    def add(self, event):
        for labels, at, value in event.samples():
            times, values = self.series.setdefault(labels, ([], []))
            times.append(at)
            values.append(value)

    def delete(self, event):
        for labels, (times, values) in self.series.items():
            if event.takes(labels):
                first, end = bisect.bisect_left(times, event.first), bisect.bisect_right(times, event.last)
                del times[first:end], values[first:end]

    def apply(self, event):
        (self.add if isinstance(event, Batch) else self.delete)(event)

    def forget(self, before):
        """Forgets what is before a time."""
        for labels in list(self.series):
            times, values = self.series[labels]
            at = bisect.bisect_left(times, before)
            del times[:at], values[:at]
            if not times:
                del self.series[labels]

    def since(self, first):
        """The samples from a time on, of series that have one."""
        found = {}
        for labels, (times, values) in self.series.items():
            at = bisect.bisect_left(times, first)
            if at < len(times):
                found[labels] = times[at:], values[at:]
        return found

    def count(self, first=LEAST):
        return sum(len(times) - bisect.bisect_left(times, first) for times, _ in self.series.values())


def rows_of(reply):
    """The rows of a reply, each as its times and values."""
    rows = Rows()
    for row in reply["rows"]:
        labels = set_of(row["labels"])
        assert labels not in rows.series, f"two rows of {labels}"
        rows.series[labels] = [t for t, _ in row["samples"]], [v for _, v in row["samples"]]
    return rows


def difference(wanted, found, oldest):
    """How what a store says differs from a map, of which what is older than a time may have left; or None."""
    one, other = wanted.since(oldest), found.since(oldest)
    for labels in sorted({*one, *other}):
        if one.get(labels) != other.get(labels):
            had, got = (dict(zip(*rows.get(labels, ([], [])))) for rows in (one, other))
            points = sorted(set(had.items()) ^ set(got.items()))
            kinds = [f"{t}={v} is {'missing' if t in had and had[t] == v else 'strange'}" for t, v in points]
            return f"{dict(labels)}: {len(points)} samples, as {', '.join(kinds[:3])}"
    for labels, (times, values) in found.series.items():
        mine = dict(zip(*wanted.series.get(labels, ([], []))))
        for at, value in zip(times, values):
            if at < oldest and mine.get(at) != value:
                return f"{dict(labels)}: {at}={value}, which nobody sent, was deleted or has left"
    return None


def process_memory(pid):
    """The memory of a process now and at most, in bytes."""
    with open(f"/proc/{pid}/status") as file:
        lines = dict(line.split(":", 1) for line in file if line.startswith(("VmRSS", "VmHWM")))
    # of one that was killed just now there is none
    return tuple(int(lines.get(name, "0").split()[0]) * 1024 for name in ("VmRSS", "VmHWM"))


def on_disk(folder):
    """The bytes of the files of blocks, and of all files."""
    blocks = everything = 0
    for at, _, names in os.walk(folder):
        for name in names:
            try:
                size = os.path.getsize(os.path.join(at, name))
            except OSError:
                continue
            everything += size
            if at.startswith(f"{folder}/blocks"):
                blocks += size
    return blocks, everything


def megabytes(count):
    return f"{count / 10**6:.1f} MB"


class Watch(threading.Thread):
    """Looks each fifth of a second how many bytes a folder has."""

    def __init__(self, folder):
        super().__init__(daemon=True)
        self.folder, self.most, self.over = folder, 0, threading.Event()
        self.start()

    def run(self):
        while not self.over.wait(0.2):
            self.most = max(self.most, on_disk(self.folder)[1])

    def end(self):
        self.over.set()
        self.join()
        return self.most


class Year:
    """A store in a folder, its server, and what was sent to it."""

    def __init__(self, looks, querier, folder, seed, days):
        self.looks, self.querier, self.folder, self.days = looks, querier, folder, days
        self.random, self.map, self.count, self.told = random.Random(seed), Rows(), 0, []
        # the hour that is sent next, and the event that is under way
        self.next, self.flying = 0, None
        now = int(time.time() * 1000)
        self.first = (now - days * 24 * HOUR) // EVERY * EVERY
        # 90 days of a year
        self.keep = max(24, round(days * 24 * 90 / 367)) * HOUR
        self.most_blocks = self.starts = self.waited = self.late = self.longest = 0
        self.most_memory = self.most_rows = self.most_reply = self.most_samples = 0
        self.start()
        # what the program takes over an empty store
        self.empty = process_memory(self.server.process.pid)[1]

    def start(self):
        self.status, self.starts = free_port(), self.starts + 1
        words = ["--data", self.folder, "--cut-every", str(EVERY), "--keep", f"{self.keep // HOUR}h",
                 "--workers", str(WORKERS), "--status-port", str(self.status)]
        self.server = Server(self.querier, *words, env=ENV)
        self.looks.that("it starts", self.server.wait(), self.server.told, tell=False)

    def note_memory(self):
        now, most = process_memory(self.server.process.pid)
        self.most_memory = max(self.most_memory, most)
        return now, most

    def end(self):
        self.server.end()
        self.told += self.server.told_err

    def labels(self, n, at):
        more = {} if n < LASTING else {"pod": f"p{(at - self.first) // (240 * HOUR)}"}
        return {"__name__": "year", "n": str(n), "suite": "durable", **more}

    def batch(self, hour):
        """The samples of an hour: each series has one each ten minutes."""
        rows = []
        for n in range(LASTING + PASSING):
            samples = []
            for at in range(self.first + hour * HOUR, self.first + (hour + 1) * HOUR, STEP):
                self.count += self.random.randrange(5)
                samples.append((at + n, self.count))
            rows.append((self.labels(n, self.first + hour * HOUR), samples))
        return Batch(rows)

    def deletion(self, clock):
        """Of one series or a few a span of at most 20 days, mostly of what is kept."""
        n = self.random.randrange(LASTING + PASSING)
        matchers = self.random.choice([
            [equals("n", str(n))],
            [("n", "=~", f"{n}|{n + 7}", lambda value: value in (str(n), str(n + 7)))],
            [("n", "=~", f"{n % 10}.?", lambda value: re.fullmatch(f"{n % 10}.?", value) is not None)],
            [equals("n", str(n)), ("pod", "!=", "", lambda value: value != "")],
        ])
        first = clock - self.random.randrange(int(1.2 * self.keep))
        return Deletion(matchers, first, first + self.random.choice([HOUR, 24 * HOUR, 480 * HOUR]))

    def tell(self, event):
        self.flying = event
        reply = self.server.tell(event)
        self.flying = None
        self.looks.at(event.line()[:60], OK, reply, tell=False)
        self.map.apply(event)

    def clock(self):
        return self.first + self.next * HOUR

    def standing(self):
        """Its floor and its blocks."""
        try:
            found = metrics(self.status)
            floor, blocks = int(found["fuzzledge_head_floor"]), int(found["fuzzledge_blocks"])
        except (OSError, http.client.HTTPException, KeyError, ValueError):
            raise Lost(False) from None
        self.most_blocks = max(self.most_blocks, blocks)
        return floor, blocks

    def wait_for_cut(self, newest):
        """Waits until it has cut what is due."""
        due = (newest - EVERY // 2) // EVERY * EVERY
        end = time.monotonic() + 20
        while self.standing()[0] < due:
            if time.monotonic() > end:
                self.waited += 1
                return
            time.sleep(0.1)

    def feed(self):
        """The samples of an hour more."""
        hour = self.next
        self.tell(self.batch(hour))
        self.next += 1
        if hour % 2:
            self.wait_for_cut(self.first + hour * HOUR)

    def killed(self):
        """Feeds it until it is killed, after a moment; then starts it. What was under way is there, or is
        not."""
        self.note_memory()
        killer = threading.Timer(self.random.random() * 1.2, self.server.process.kill)
        killer.start()
        try:
            while True:
                if self.random.random() < 0.2:
                    self.tell(self.deletion(self.clock()))
                self.feed()
        except Lost:
            pass
        killer.join()
        self.end()
        self.start()
        flying, (found, floor) = self.flying, self.seen()
        if flying is not None and difference(self.map, found, floor - self.keep):
            self.map.apply(flying)
            self.next += isinstance(flying, Batch)
        self.flying = None
        self.compare(f"a kill in hour {self.next}", found, floor, tell=False)

    def ask(self, selector='{suite="durable"}', first=LEAST, last=MOST):
        words = urllib.parse.urlencode({"selector": selector, "from": first, "to": last})
        status, reply = self.server.exchange("GET", f"/select?{words}")
        assert status == 200, (status, reply)
        return reply

    def seen(self):
        """What it says, and its floor behind that."""
        reply = self.ask()
        self.most_reply = max(self.most_reply, len(json.dumps(reply, separators=(",", ":"))))
        return rows_of(reply), self.standing()[0]

    def compare(self, what, found, floor, tell=True):
        oldest = floor - self.keep
        told = difference(self.map, found, oldest)
        self.looks.that(f"{what}: what it says", told is None, told or "", tell=tell)
        self.most_samples = max(self.most_samples, found.count())
        return told is None

    def settle(self):
        """Waits until nothing is joined or leaves for half a second."""
        last, end = None, time.monotonic() + 60
        while time.monotonic() < end:
            now = self.standing(), len(self.server.told_err)
            if now == last:
                return
            last = now
            time.sleep(0.5)

    def longest_block(self):
        """The longest span of the blocks in the folder, and the most samples of one."""
        head, _ = Head.read(contents_of(read(f"{self.folder}/journal"))[0])
        metas = [json.loads(read(f"{self.folder}/blocks/{number}/meta.json")) for number in head.numbers]
        spans = [meta["maxTime"] - meta["minTime"] for meta in metas]
        return max(spans, default=0), max((meta["stats"]["numSamples"] for meta in metas), default=0)

    def check(self, what):
        """What it says, how late what is too old has left, its blocks, memory and disk."""
        self.settle()
        found, floor = self.seen()
        self.compare(what, found, floor)
        span, samples = self.longest_block()
        self.longest = max(self.longest, span)
        times = [times[0] for times, _ in found.series.values() if times]
        late = floor - self.keep - min(times, default=floor)
        self.late = max(self.late, late)
        most = max(self.keep // 8, span) + EVERY
        self.looks.that(
            f"{what}: what is older has left", late <= most, (late / HOUR, most / HOUR), tell=False
        )
        _, blocks = self.standing()
        now, most_now = self.note_memory()
        of_blocks, everything = on_disk(self.folder)
        kept = found.count()
        series = len(found.series)
        self.looks.that(f"{what}: few blocks", blocks <= 56, blocks, tell=False)
        # 16 bytes a sample, of which a quarter more may be deleted and yet there; and of each block its index
        disk = 16 * kept * 5 // 4 + blocks * (8192 + series * 400) + 16 * 2**20
        self.looks.that(f"{what}: its files", everything <= disk, (everything, disk), tell=False)
        bound = self.memory_bound(kept, samples, everything)
        self.looks.that(f"{what}: its memory", most_now <= bound, (most_now, bound), tell=False)
        self.looks.say(
            f"{what}: {kept} samples of {series} series in {blocks} blocks (at most {self.most_blocks}); "
            f"files {megabytes(everything)}, those of blocks {megabytes(of_blocks)}, "
            f"{of_blocks / max(kept, 1):.1f} bytes a sample; memory {megabytes(now)}, at most "
            f"{megabytes(most_now)}, below {megabytes(bound)}; what is oldest is {late / HOUR:.0f} hours older "
            "than is kept"
        )
        return found, floor

    def memory_bound(self, samples, of_one, files):
        """Twice what docs/OPERATING.md says, and 64 MB: what the program has over an empty store; 10 bytes a
        sample, and 56 a chunk, of which the least have a dozen samples; the files while they are opened; 70
        bytes a sample of the largest join; replies, times 1.4, for each worker."""
        told = self.empty + samples * (10 + 56 / 12) + files + 70 * of_one + 1.4 * WORKERS * self.most_reply
        return int(2 * told) + 64 * 2**20

    def lines(self, start):
        return [line for line in self.told + self.server.told_err if line.startswith(start)]


def sees(store):
    """Beside a map with a sample more, one less or another value, what it says is not as wanted."""
    found, floor = store.seen()
    times, values = next(rows for _, rows in sorted(store.map.series.items()) if rows[0])
    held, differs = (list(times), list(values)), []
    for other in [
        ([*times, times[-1] + 1], [*values, 1]), (times[:], [*values[:-1], values[-1] + 1]),
        (times[:-1], values[:-1]), held,
    ]:
        times[:], values[:] = other
        differs.append(difference(store.map, found, floor - store.keep) is not None)
    wanted = [True, True, True, False]
    store.looks.at("a map with a sample more, another value, a sample less differs", wanted, differs)


def year(looks, querier, work, seed):
    days = int(os.environ.get("YEAR_DAYS") or 367)
    folder = f"{work}/year"
    store, began = Year(looks, querier, folder, f"{seed} year", days), time.monotonic()
    kept = store.keep // HOUR / 24
    looks.say(f"SEED={seed} YEAR_DAYS={days}: {days * 12} cuts, of which those of {kept:.1f} days are kept")
    watch, hours = Watch(folder), days * 24
    kills = {store.random.randrange(hours) for _ in range(max(6, days // 12))}
    looks_at, deletions = [hours * part // 12 for part in range(1, 12)], 0
    # up to now
    while store.next < hours - 3:
        if store.next in kills:
            kills.discard(store.next)
            store.killed()
            continue
        if store.random.random() < 0.02:
            store.tell(store.deletion(store.clock()))
            deletions += 1
        store.feed()
        if store.next % 240 == 0:
            store.map.forget(store.clock() - 2 * store.keep)
        if looks_at and looks_at[0] <= store.next:
            looks_at.pop(0)
            store.check(f"after {store.next / 24:.0f} days")
            if len(looks_at) == 10:
                sees(store)
    took = time.monotonic() - began
    store.check("in the end")
    looks.at("no cut, join or roll was refused", [], store.lines(("cannot", "did not")))
    looks.that("never many blocks", store.most_blocks <= 56, store.most_blocks)
    # no window is longer than an eighth of what is kept
    if store.keep // 8 >= 3 * EVERY:
        looks.that("it joined blocks", len(store.lines("joined ")) > days, len(store.lines("joined ")))
    looks.that("samples left", store.lines("dropped samples ") and store.lines("removed "))
    most = watch.end()
    joins, removed = len(store.lines("joined ")), len(store.lines("removed "))
    store.note_memory()
    store.end()
    store.start()
    store.check("after a new start")
    store.end()
    head, _ = Head.read(contents_of(read(f"{folder}/journal"))[0])
    status, out, _ = run([querier, "check", *[f"{folder}/blocks/{number}" for number in head.numbers]])
    looks.at("each block of the folder is one", (0, len(head.numbers)), (status, out.count(": ok ")))
    looks.say(
        f"{days} days in {took:.0f} s, {days * 86400 / took:.0f} times as fast: {store.starts - 2} kills, "
        f"{deletions} deletions, {joins} joins, {removed} times blocks left; at most {store.most_blocks} "
        f"blocks, {megabytes(store.most_memory)} of memory ({megabytes(store.empty)} over an empty store), "
        f"{megabytes(most)} of files at any moment that was looked at; the oldest sample was "
        f"{store.late / HOUR:.0f} hours older than is kept, the longest block had {store.longest / HOUR:.0f} "
        f"hours; {store.waited} cuts did not come within 20 s"
    )
