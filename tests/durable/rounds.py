"""Rounds of writers and crashes: four clients write numbered samples, delete and cut, the server is killed at
a random moment, and a new one has to say exactly what was acknowledged, and of each request that was under
way all or nothing."""
import collections
import os
import random
import re
import struct
import threading
import time

from house import (
    LEAST, MOST, OK, Batch, Cut, Deletion, Head, Lost, Server, World, contents_of, differences, equals, piped,
    read, recovered, refused, rolled, run,
)

CLIENTS = 4
# rounds over one folder
OF_A_STORE = 50
# what all series of the clients have
ALL = '{suite="durable"}'
ODD = ["", 'a "quoted" \\ text', "größer", "\n\t\x01", "x" * 200]


class Client:
    """One that writes: its samples are numbered, their times ascend, and its series are its own."""

    def __init__(self, number, seed):
        self.number, self.random = number, random.Random(f"{seed} {number}")
        self.count, self.clock, self.base = 0, 0, 0
        # the events that were acknowledged since the last start, and the one that may have been kept
        self.told, self.flying, self.wrong, self.cut_after = [], None, [], None

    def series(self, n):
        labels = {"__name__": "written", "client": str(self.number), "n": str(n), "suite": "durable"}
        return {**labels, "odd": ODD[n % 5]} if n % 5 else labels

    def value(self):
        self.count += 1
        number = (self.number + 1) * 10**12 + self.count
        return [number, -number, 2**63 - number, number - 2**63][self.count % 4]

    def fresh(self, most=50):
        """Rows of samples that nobody wrote before."""
        rows, left = [], self.random.randint(1, most)
        while left:
            labels, samples = self.series(self.random.randrange(12)), []
            for _ in range(min(left, self.random.randint(1, 12))):
                self.clock += self.random.randint(1, 5)
                samples.append((self.clock, self.value()))
            left -= len(samples)
            rows.append((labels, samples))
        return rows

    def newest(self, world):
        """A series of its own that has a sample of this round, and its newest one."""
        mine = [
            (labels, last) for labels, last in world.newest.items()
            if ("client", str(self.number)) in labels and last[0] > self.base
        ]
        return self.random.choice(sorted(mine)) if mine else None

    def batch(self, world):
        rows, known = self.fresh(), self.newest(world)
        if known and self.random.random() < 0.1:
            rows.insert(0, (dict(known[0]), [known[1]]))
        return Batch(rows)

    def refused(self, world):
        """A batch whose last sample is refused."""
        known, way = self.newest(world), self.random.randrange(3)
        clock = self.clock
        rows = self.fresh(8)
        labels, (at, value) = rows[-1][0], rows[-1][1][-1]
        if way == 0 and world.floor > LEAST:
            rows.append((self.series(1), [(world.floor - self.random.randint(1, 9), self.value())]))
        elif way == 1 and known:
            rows.append((dict(known[0]), [(known[1][0] - 1, self.value())]))
        else:
            rows.append((labels, [(at, value ^ 1)]))
        self.clock = clock
        return Batch(rows)

    def deletion(self):
        low, high = sorted(
            [self.random.randint(self.base // 2, self.clock), self.clock - self.random.randint(0, 200)]
        )
        first, last = (LEAST, MOST) if self.random.random() < 0.02 else (low, min(high, low + 300))
        n = str(self.random.randrange(12))
        others = [
            equals("n", n),
            ("n", "!=", n, lambda value: value != n),
            ("n", "=~", f"{n}|1.", lambda value: re.fullmatch(f"{n}|1.", value) is not None),
            ("n", "!~", f"[0-7]|{n}", lambda value: re.fullmatch(f"[0-7]|{n}", value) is None),
            ("odd", "=", ODD[1], lambda value: value == ODD[1]),
            ("odd", "=", "", lambda value: value == ""),
        ]
        return Deletion([equals("client", str(self.number)), self.random.choice(others)], first, last)

    def next(self, world):
        if self.cut_after is not None and self.cut_after[0] <= len(self.told):
            at, self.cut_after = self.cut_after[1], None
            return Cut(at)
        way = self.random.random()
        return self.batch(world) if way < 0.8 else self.refused(world) if way < 0.9 else self.deletion()

    def write(self, server, world, lock):
        """Asks until the server is gone."""
        while True:
            with lock:
                event = self.next(world)
                wanted = world.judged(event)
            try:
                got = server.tell(event)
            except Lost as lost:
                self.flying = event if lost.sent and wanted == OK else None
                return
            if got != wanted:
                self.wrong.append(f"{event.line()}: wanted {wanted}, got {got}")
                return
            if wanted == OK:
                with lock:
                    world.apply(event)
                    self.told.append(event)


class Store:
    """A folder over many starts and crashes."""

    def __init__(self, looks, programs, preload, folder, seed):
        self.looks, self.preload, self.folder = looks, preload, folder
        self.querier, self.auditor = programs
        self.random = random.Random(f"{seed} the store")
        self.world, self.contents, self.kept, self.starts, self.took = World(), [], 0, 0, 0.1
        # the head of the journal, if there is one, and how often it was begun anew
        self.head, self.rolls = None, 0
        self.clients = [Client(number, seed) for number in range(CLIENTS)]
        # it writes a sample at the begin of each round, so that each cut makes a block
        self.main = Main()
        self.events = 0

    @property
    def journal(self):
        return f"{self.folder}/journal"

    def start(self):
        self.starts += 1
        self.told_kept = f"{self.folder}.kept{self.starts}"
        env = (
            {"LD_PRELOAD": self.preload, "FOLDER": self.folder, "KEPT": self.told_kept}
            if self.preload
            else {}
        )
        return Server(self.querier, "--workers", "4", "--data", self.folder, env=env)

    def crash(self, server, power):
        """Kills the server. If the power is cut too, what was not synced is lost from some byte on."""
        server.end()
        told = read(self.told_kept) if self.preload and os.path.exists(self.told_kept) else b""
        if len(told) == 64:
            self.kept = struct.unpack("<Q", told[:8])[0] or self.kept
            os.remove(self.told_kept)
        if not self.preload or not power or not os.path.exists(self.journal):
            return 0
        size = os.path.getsize(self.journal)
        left = self.random.randint(min(self.kept, size), size)
        os.truncate(self.journal, left)
        return size - left

    def found(self):
        """The journal, and of it the head, the events, and how many bytes these take; or nothing."""
        if not os.path.exists(self.journal):
            return None, None, [], 0
        data = read(self.journal)
        contents, whole = contents_of(data)
        return data, *Head.read(contents), whole

    def restart(self):
        """Starts it over what a crash left, sometimes with a crash while it starts; None if it does not
        start."""
        looks = self.looks
        data, head, contents, whole = self.found()
        looks.that("the head is the one of before", self.head in (None, head), tell=False)
        self.listed(contents)
        if self.random.random() < 0.2:
            server = self.start()
            time.sleep(self.random.uniform(0, self.took * 1.2))
            self.crash(server, self.random.random() < 0.5)
            was = head, contents
            data, head, contents, whole = self.found()
            looks.that(
                "a start that was killed leaves the events, or a new head",
                was[0] in (None, head) and contents == was[1] or head is not None and not contents,
                len(contents), tell=False,
            )
        self.contents = contents
        before = time.monotonic()
        server = self.start()
        listens = server.wait()
        self.took = time.monotonic() - before
        if not looks.that("it starts", listens, server.told, tell=False):
            server.end()
            return None
        torn = len(data) - whole if data else 0
        line = f"began {self.journal}" if data is None else recovered(len(contents), torn, len(head.numbers))
        looks.at("what it says", line, server.first_told(), tell=False)
        left, self.head, self.contents, _ = self.found()
        if any(content[0] == 3 for content in contents):
            self.rolls += 1
            looks.at(
                "a journal with a cut is begun anew", rolled(self.folder, self.head),
                "".join(server.first_lines(2)[1:]), tell=False,
            )
            looks.at("its events", [], self.contents, tell=False)
            self.checked()
        elif data is not None:
            looks.that("the torn end is cut off, and nothing else", left == data[:whole], tell=False)
        return server

    def checked(self):
        """Each folder of a block is named by the head, and holds a block."""
        names = [f"{self.folder}/blocks/{number}" for number in self.head.numbers]
        there = sorted(os.listdir(f"{self.folder}/blocks"), key=int)
        self.looks.at(
            "the folders of blocks", [str(number) for number in sorted(self.head.numbers)], there, tell=False
        )
        status, out, err = run([self.querier, "check", *names])
        self.looks.at(
            "what check says of them", (0, len(names), ""), (status, out.count(": ok "), err), tell=False
        )
        status, reply, err = run([self.querier, "select", ALL, *names])
        self.looks.at("what select says of them", (0, ""), (status, err), tell=False)
        status, out, err = piped([self.auditor, "--selector", ALL, *names], reply.encode())
        judged = [line.split(": ")[-1] for line in out.splitlines()]
        self.looks.at(
            "what the auditor says of it", (0, ["valid"] * len(names) + ["skipped", "valid"], ""),
            (status, judged, err), tell=False,
        )

    def listed(self, contents):
        """Each event that was acknowledged has one record, those of a client in their order; and of each
        client at most the one that was under way has one beside them."""
        looks, front = self.looks, len(self.contents)
        looks.that("the records before stay", contents[:front] == self.contents, tell=False)
        writers = [*self.clients, self.main]
        waiting = [collections.deque(one.text() for one in client.told) for client in writers]
        flying = [client.flying.text() if client.flying else None for client in writers]
        strange = 0
        for content in contents[front:]:
            for n, queue in enumerate(waiting):
                if queue and queue[0] == content:
                    queue.popleft()
                    break
                if not queue and flying[n] == content:
                    flying[n] = None
                    break
            else:
                strange += 1
        lost = sum(map(len, waiting))
        looks.that("records of what was acknowledged", not lost, f"{lost} are missing", tell=False)
        looks.that(
            "records of what nobody sent, or of what was refused", not strange, f"{strange}", tell=False
        )
        self.seen = [client.flying is not None and one is None for client, one in zip(writers, flying)]
        self.events = len(contents)

    def settle(self, server):
        """What it says is what was acknowledged, and each batch that was under way whole or not at all."""
        looks, world = self.looks, self.world
        parts, rows = server.select()
        here, cuts = 0, 0
        for client, recorded in zip(self.clients, self.seen):
            event, client.flying = client.flying, None
            if isinstance(event, Cut):
                probe = Batch([({"__name__": "probe"}, [(event.at - 1, 1), (event.at - 1, 2)])])
                is_in = server.tell(probe) == refused("E1", 0)
                cuts += is_in
            elif event:
                mine = {
                    labels: found
                    for labels, found in rows.items()
                    if ("client", str(client.number)) in labels
                }
                known = {
                    labels: found
                    for labels, found in world.rows().items()
                    if ("client", str(client.number)) in labels
                }
                is_in = mine != known or recorded and isinstance(event, Deletion)
            else:
                continue
            here += is_in
            looks.at("what was under way is seen if it has a record", recorded, is_in, tell=False)
            if is_in:
                world.apply(event)
        wanted = world.rows()
        looks.that("the samples", rows == wanted, differences(wanted, rows), tell=False)
        wanted = world.parts()
        looks.that(
            "the blocks and the head",
            parts == wanted,
            f"{len(wanted)} parts wanted, {len(parts)} there; "
            + "; ".join(
                f"part {n}: {differences(*two)}"
                for n, two in enumerate(zip(wanted, parts))
                if two[0] != two[1]
            ),
            tell=False,
        )
        return here

    def probe(self, server):
        """What the store refused before, it refuses."""
        looks, world = self.looks, self.world
        fresh = {"__name__": "probe", "suite": "durable"}
        asked = [Batch([(fresh, [(world.floor, 1), (world.floor, 2)])]), Cut(world.floor)]
        if world.floor > LEAST:
            asked.append(Batch([(fresh, [(world.floor - 1, 1)])]))
        known = sorted(world.newest.items())
        for labels, (at, value) in self.random.sample(known, min(4, len(known))):
            asked.append(Batch([(dict(labels), [(at, value ^ 1)])]))
            if at > world.floor:
                asked.append(Batch([(dict(labels), [(at - 1, value)])]))
        for event in asked:
            wanted = world.judged(event)
            assert wanted != OK
            looks.at(f"{event.line()} is refused", wanted, server.tell(event), tell=False)
        if known:
            labels, last = self.random.choice(known)
            again = Batch([(dict(labels), [last])])
            if looks.at("the newest sample again", OK, server.tell(again), tell=False):
                self.main.told.append(again)

    def begin(self, server, cut):
        """A round begins: all later samples are from here on."""
        before = self.clients[0].base
        base = 1 + max(client.clock for client in self.clients)
        for client in self.clients:
            client.clock = client.base = base
            client.cut_after = None
        events, rows = [Batch([(self.main.labels, [(base, base)])])], self.world.rows()
        mine = sorted(labels for labels in rows if ("client", "main") not in labels)
        if mine:
            # one sample that is there
            labels = self.random.choice(mine)
            at = self.random.choice(sorted(rows[labels]))
            events.append(Deletion([equals(name, value) for name, value in labels], at, at))
        for event in events:
            self.looks.at(f"at the begin of a round: {event.line()}", OK, server.tell(event), tell=False)
            self.world.apply(event)
            self.main.told.append(event)
        if cut and before:
            self.clients[0].cut_after = (self.random.randint(0, 8), self.random.randint(before + 1, base))

    def write(self, server, seconds):
        lock = threading.Lock()
        writers = [
            threading.Thread(target=one.write, args=(server, self.world, lock)) for one in self.clients
        ]
        for writer in writers:
            writer.start()
        time.sleep(seconds)
        lost = self.crash(server, self.random.random() < 0.6)
        for writer in writers:
            writer.join()
        for client in self.clients:
            self.looks.that("each reply of a round", not client.wrong, client.wrong, tell=False)
            client.wrong = []
        return lost

    def journal_lines(self, events):
        """What `querier journal` says."""
        status, out, err = run([self.querier, "journal", self.folder])
        lines = [self.head.line(), *(f"{n + 1} {event.line()}" for n, event in enumerate(events))]
        lines.append(f"{len(events)} events, {os.path.getsize(self.journal)} bytes, 0 bytes of a torn record")
        self.looks.at("what journal says", (0, lines, ""), (status, out.splitlines(), err), tell=False)


class Main:
    labels = {"__name__": "round", "client": "main", "suite": "durable"}

    def __init__(self):
        self.told, self.flying, self.number = [], None, "main"


def begins(looks, programs, preload, work, count, seed):
    """Kills servers while they begin a journal: what is left is a folder to begin in."""
    took = 0.1
    for number in range(count):
        store = Store(looks, programs, preload, f"{work}/begun{number}", f"{seed} begun {number}")
        server = store.start()
        time.sleep(store.random.uniform(0, took * 1.2))
        store.crash(server, store.random.random() < 0.5)
        server = store.restart()
        if server is not None:
            looks.at("what is said of a journal that was begun", ([{}], {}), server.select(), tell=False)
            server.end()
        took = store.took
    looks.say(f"{count} servers were killed while they began a journal")


def rounds(looks, programs, preload, work, count, seed):
    looks.say(
        f"{count} of them, SEED={seed}"
        + ("" if preload else ", without cuts of the power, since there is no C compiler")
    )
    begins(looks, programs, preload, work, max(1, count // 5), seed)
    store = server = None
    for number in range(1, count + 1):
        if store is None:
            folder = f"{work}/store{number}"
            store = Store(looks, programs, preload, folder, f"{seed} {number}")
            known = {}
            server = store.restart()
        if server is None:
            break
        failed = looks.failed
        store.begin(server, store.random.random() < 0.6)
        seconds = store.random.choice([0.1, 0.5, 1]) * store.random.random() + 0.02
        lost = store.write(server, seconds)
        told = sum(len(client.told) for client in store.clients)
        flying = sum(client.flying is not None for client in store.clients)
        for client in [*store.clients, store.main]:
            for event in [*client.told, *([client.flying] if client.flying else [])]:
                known[event.text()] = event
        server = store.restart()
        if server is None:
            break
        for client in [*store.clients, store.main]:
            client.told = []
        here = store.settle(server)
        if number % 10 == 0 or number == count:
            store.journal_lines([known[text] for text in store.contents if text in known])
        store.probe(server)
        looks.say(
            f"{number}: {told} events acknowledged in {seconds:.2f} s and {flying} under way, "
            f"of which {here} are there; {store.events} events, {len(store.world.blocks)} blocks, "
            f"{store.rolls} rolls"
            + (f"; the power cut took {lost} bytes" if lost else "")
            + ("" if looks.failed == failed else "; NOT AS WANTED")
        )
        if looks.failed > failed:
            break
        if number % OF_A_STORE == 0:
            server.end()
            store = None
    if server is not None:
        server.end()
