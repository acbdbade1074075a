"""Journals that are cut short at each of their last 4,096 bytes, or have a byte changed: each is refused, and
nothing on the disk is changed, or is read as a front of the events that were sent. The same of contents that
are no events."""
import concurrent.futures
import os
import random

from house import (
    LEAST, MOST, NEW, NOTHING, OK, Batch, Cut, Deletion, Head, Server, checksum, differences, equals, journal,
    numbered, read, record, recovered, run, short, text_of, tree, uvarint, varint, world_of,
)


def up(job, **more):
    return {"__name__": "up", "job": job, "suite": "durable", **more}


def few_events():
    """A small journal: each kind of event, a batch of nothing, and numbers of one byte to ten."""
    return [
        Batch([(up("a"), [(10, 1), (20, -1)]), (up("b"), [(10, 2**63 - 1)]), (up("a"), [(30, 5)])]),
        Batch([]),
        Deletion([equals("job", "b")], 0, 10),
        Batch([(up("b"), [(300, -(2**63))]), (up("größer", zone=""), [(MOST, 7)])]),
        Cut(25),
        Batch([(up("a"), [(40, 8)])]),
    ]


def many_events(chance):
    """A journal of more than 4,096 bytes."""
    events, clock = [], 100
    while sum(len(event.text()) + 12 for event in events) < 6000:
        rows = []
        for _ in range(chance.randint(1, 4)):
            samples = []
            for _ in range(chance.randint(1, 12)):
                clock += chance.randint(1, 1000)
                samples.append((clock, chance.randint(-(2**40), 2**40)))
            rows.append((up(f"job-{chance.randrange(5)}"), samples))
        events.append(Batch(rows))
        if chance.random() < 0.2:
            events.append(Deletion([equals("job", f"job-{chance.randrange(5)}")], clock - 3000, clock - 200))
        if chance.random() < 0.1:
            events.append(Cut(clock - 1000))
    return events


def written(looks, querier, folder, events):
    """Has a server take events, and compares its journal with the one that they make."""
    server = Server(querier, "--data", folder)
    looks.that("a new folder is served", server.wait(), server.told)
    for event in events:
        looks.at(event.line()[:60], OK, server.tell(event), tell=False)
    server.end()
    wanted = journal(numbered(events))
    looks.that(
        "the bytes of the journal are those that FORMATS.md gives for what was sent",
        read(f"{folder}/journal") == wanted,
        f"wanted {wanted.hex()}, got {read(f'{folder}/journal').hex()}",
    )
    return wanted


def ends_of(events):
    """Where the head and each record of an event end."""
    ends = [len(NEW)]
    for content in numbered(events):
        ends.append(ends[-1] + len(record(content)))
    return ends


class Journals:
    """Files that are read by `querier journal`, several at a time."""

    def __init__(self, looks, querier, work, events):
        self.looks, self.querier, self.work = looks, querier, work
        self.lines, self.ends = [f"{n + 1} {event.line()}" for n, event in enumerate(events)], ends_of(events)

    def look(self, case):
        """A file, and how many events it holds, or how it is refused; what is wrong, if anything is."""
        what, data, wanted = case
        path = f"{self.work}/{what.replace(' ', '-')}"
        with open(path, "wb") as file:
            file.write(data)
        status, out, err = run([self.querier, "journal", path])
        changed = read(path) != data
        os.remove(path)
        if changed:
            return f"{what}: the file was changed"
        if isinstance(wanted, int):
            whole = self.ends[wanted]
            last = f"{wanted} events, {whole} bytes, {len(data) - whole} bytes of a torn record"
            wanted = 0, "".join(f"{line}\n" for line in [Head().line(), *self.lines[:wanted], last]), ""
        else:
            wanted = 1, "", f"refused {wanted}\n"
        return (
            None
            if (status, out, err) == wanted
            else f"{what}: wanted {short(wanted)}, got {short((status, out, err))}"
        )

    def look_at(self, what, cases):
        with concurrent.futures.ThreadPoolExecutor(os.cpu_count()) as pool:
            wrong = [told for told in pool.map(self.look, cases) if told]
        self.looks.passed += len(cases) - len(wrong)
        self.looks.say(f"{what}: {len(cases)} files, {len(wrong)} of them not as wanted")
        for told in wrong[:10]:
            self.looks.fail(told)
        self.looks.failed += max(0, len(wrong) - 10)


def cut_short(data, ends, most=4096):
    """Each front of a journal, and how many events it holds."""
    for length in range(max(0, len(data) - most), len(data) + 1):
        yield f"cut to {length}", data[:length], front_of(ends, length)


def front_of(ends, length):
    """How many events a journal of this length has, or how it is refused."""
    if length < 5:
        return "J1 at 0" if length < 4 else "J2 at 4"
    return sum(end <= length for end in ends) - 1 if length >= ends[0] else "J8 at 0"


def changed(data, ends):
    """Each byte changed to three others, and what a reader says: by where the byte stands."""
    for at in range(len(data)):
        for bits in (1, 128, 255):
            other = data[:at] + bytes([data[at] ^ bits]) + data[at + 1 :]
            if at < 5:
                wanted = "J1 at 0" if at < 4 else "J2 at 4"
            else:
                begins = [5, *ends]
                n = sum(end <= at for end in begins) - 1
                begin = begins[n]
                is_last = n == len(begins) - 2
                wanted = f"J4 at {begin}" if at < begin + 8 else n - 1 if is_last else f"J3 at {begin}"
            yield f"byte {at} xor {bits}", other, wanted


def longer(data, ends):
    """More bytes at the end: zeros are torn, as is less than a length; others are no length."""
    count = len(ends) - 1
    for more in (1, 7, 8, 11, 12, 100, 5000):
        yield f"{more} zeros more", data + bytes(more), count
    for more in (1, 7):
        yield f"{more} bytes more", data + b"\xa5" * more, count
    for more in (8, 12, 5000):
        yield f"{more} bytes more", data + b"\xa5" * more, f"J4 at {len(data)}"
    length = (77).to_bytes(4, "big")
    yield "a length more", data + length + checksum(length), count
    yield "a record that is cut short more", data + record(b"\x03\x02" * 50)[:-1], count
    for size in (0, 2**26 + 1, 2**32 - 1):
        length = size.to_bytes(4, "big")
        yield f"a length of {size} more", data + length + checksum(
            length
        ) + b"\x07" * 20, f"J4 at {len(data)}"
    yield "a length of 67108864 more", data + (2**26).to_bytes(4, "big") + checksum(
        (2**26).to_bytes(4, "big")
    ) + b"\x07", count


def texts(pairs):
    return uvarint(len(pairs)) + b"".join(text_of(name) + text_of(value) for name, value in pairs)


def no_events():
    """Contents that are no events, and their refusals."""
    one = texts([("a", "b")])
    sample = varint(5) + varint(6)
    yield "no such kind", b"\x05", "J8"
    yield "a kind of zero", b"\x00\x00", "J8"
    yield "a batch without a count", b"\x01", "J9"
    yield "a batch that is cut short", b"\x01\x01" + one + b"\x02" + sample, "J9"
    yield "a number that is too long", b"\x03\x82\x00", "J9"
    yield "a number above 64 bits", b"\x03" + b"\xff" * 9 + b"\x02", "J9"
    yield "a text that is no UTF-8", b"\x01\x01\x01\x01a\x01\xff\x01" + sample, "J9"
    yield "no such operator", b"\x02\x01\x04" + text_of("a") + text_of("b") + varint(0) + varint(1), "J9"
    yield "labels out of order", b"\x01\x01" + texts([("b", "b"), ("a", "a")]) + b"\x01" + sample, "J10"
    yield "a label twice", b"\x01\x01" + texts([("a", "b"), ("a", "c")]) + b"\x01" + sample, "J10"
    yield "an empty value", b"\x01\x01" + texts([("a", "")]) + b"\x01" + sample, "J10"
    yield "a bad name", b"\x01\x01" + texts([("1a", "b")]) + b"\x01" + sample, "J10"
    yield "65 labels", b"\x01\x01" + texts([(f"a{n:02}", "b") for n in range(65)]) + b"\x01" + sample, "J10"
    yield "a run of no sample", b"\x01\x01" + one + b"\x00", "J11"
    yield "two runs of one label set", b"\x01\x02" + 2 * (one + b"\x01" + sample), "J11"
    yield "a cut at no time", b"\x03" + varint(2**62), "J12"
    yield "a sample at no time", b"\x01\x01" + one + b"\x01" + varint(LEAST - 1) + varint(0), "J12"
    yield "a range that ends before it begins", b"\x02\x01\x00" + text_of("a") + text_of("b") + varint(
        2
    ) + varint(1), "J12"
    yield "17 matchers", b"\x02\x11" + 17 * (b"\x00" + text_of("a") + text_of("b")) + varint(1) + varint(
        2
    ), "J12"
    yield "4,097 samples", b"\x01\x01" + one + uvarint(4097) + b"".join(
        varint(1000 + n) + varint(n) for n in range(4097)), "J12"
    yield "a byte behind a cut", b"\x03\x02\x00", "J13"
    yield "a batch by number that is cut short", b"\x04\x01\x00" + one + b"\x02" + sample, "J9"
    wrong = texts([("b", "b"), ("a", "a")])
    yield "labels out of order, by number", b"\x04\x01\x00" + wrong + b"\x01" + sample, "J10"
    yield "a run of no sample, by number", b"\x04\x01\x00" + one + b"\x00", "J11"
    yield "two runs of one number", b"\x04\x02\x00" + one + b"\x01" + sample + b"\x00\x01" + sample, "J11"
    late = varint(MOST) + varint(0) + sample
    yield "a sample at no time, by number", b"\x04\x01\x00" + one + b"\x02" + late, "J12"
    yield "a byte behind a batch by number", b"\x04\x01\x00" + one + b"\x01" + sample + b"\x00", "J13"
    yield "a number that no series has", b"\x04\x01\x01\x01" + sample, "J19"
    yield "a second number of a series", b"\x04\x02" + b"".join(
        bytes([number]) + one + b"\x01" + sample for number in range(2)), "J20"
    yield "a pattern that is none", b"\x02\x01\x02" + text_of("a") + text_of("(") + varint(1) + varint(
        2
    ), "J14"
    yield "a name that is none", b"\x02\x01\x00" + text_of("1a") + text_of("b") + varint(1) + varint(2), "J14"


def no_heads():
    """First contents that are no head, and their refusals: the code, and behind how many contents."""
    floor, one = varint(LEAST), texts([("a", "b")])
    sample = varint(5) + varint(6)
    series = b"\x11" + one + sample + b"\x01" + sample
    yield "a series alone", [series], "J8 at 0"
    yield "no such kind first", [b"\x13"], "J8 at 0"
    yield "a head of one byte", [b"\x10"], "J9 at 0"
    yield "a head that ends in its places", [b"\x10" + floor + b"\x02\x01\x00"], "J9 at 0"
    yield "a head without a count of series", [b"\x10" + floor + b"\x00"], "J9 at 0"
    yield "a byte behind a head", [b"\x10" + floor + b"\x00\x00\x00"], "J13 at 0"
    yield "a head of one series, which is missing", [b"\x10" + floor + b"\x00\x01"], "J8 at 1"
    yield "an event in the place of a series", [b"\x10" + floor + b"\x00\x01", Cut(5).text()], "J8 at 1"
    yield "a series that is cut short", [b"\x10" + floor + b"\x00\x02", series, series[:-1]], "J9 at 2"
    yield "a series of no label set", [
        b"\x10" + floor + b"\x00\x01",
        b"\x11" + texts([("1a", "b")]) + sample + b"\x00",
    ], "J10 at 1"
    yield "a byte behind a series", [b"\x10" + floor + b"\x00\x01", series + b"\x00"], "J13 at 1"
    yield "a head behind a head", [*NOTHING, *NOTHING], "J8 at 0"
    yield "a series too many", [b"\x10" + floor + b"\x00\x01", series, series], "J8 at 0"


def unsound():
    """Heads that no snapshot has."""
    floor, one = varint(10), texts([("a", "b")])

    def series(*samples, newest=(20, 1), labels=one):
        return b"\x11" + labels + b"".join(map(varint, newest)) + uvarint(len(samples)) + b"".join(
            varint(time) + varint(value) for time, value in samples)

    yield "a floor that is no time", [b"\x10" + varint(2**62) + b"\x00\x00"]
    yield "a sample below the floor", [b"\x10" + floor + b"\x00\x01", series((9, 1))]
    yield "a sample above the newest", [b"\x10" + floor + b"\x00\x01", series((21, 1))]
    yield "samples that do not ascend", [b"\x10" + floor + b"\x00\x01", series((12, 1), (12, 2))]
    yield "a label set twice", [b"\x10" + floor + b"\x00\x02", series((12, 1)), series((13, 1))]


def replayed():
    """Events that the store refuses after those of the small journal."""
    yield "a sample below the floor", Batch([(up("new"), [(24, 1)])])
    yield "a sample older than the newest", Batch([(up("a"), [(39, 1)])])
    yield "another value at a time", Batch([(up("new"), [(50, 1)]), (up("a"), [(40, 9)])])
    yield "a cut at the floor", Cut(25)


class Served:
    """Folders with a journal, each served once."""

    def __init__(self, looks, querier, work, events):
        self.looks, self.querier, self.work, self.events, self.count = looks, querier, work, events, 0

    def folder(self, data):
        self.count += 1
        folder = f"{self.work}/served{self.count}"
        os.mkdir(folder)
        with open(f"{folder}/journal", "wb") as file:
            file.write(data)
        return folder

    def front(self, what, data, count, whole):
        """A server says the first events, goes on with them, and says them and what was added when it starts
        again."""
        looks, folder, events = self.looks, self.folder(data), self.events[:count]
        server = Server(self.querier, "--data", folder)
        if not looks.that(f"{what}: it starts", server.wait(), server.told, tell=False):
            return
        torn = len(data) - whole
        looks.at(f"{what}: what it says", recovered(count, torn), server.first_told(), tell=False)
        world = world_of(events)
        left = data[:whole]
        if any(isinstance(event, Cut) for event in events):
            # the start began the journal anew
            left = journal([], Head.of(world, range(1, 1 + len(world.blocks))).contents())
        looks.that(
            f"{what}: the torn end is cut off, and nothing else",
            read(f"{folder}/journal") == left,
            tell=False,
        )
        more = Batch([(up("more"), [(2**61, count)])])
        for again in (False, True):
            parts, rows = server.select()
            looks.that(f"{what}: the samples{' again' if again else ''}", rows == world.rows(),
                       differences(world.rows(), rows), tell=False)
            looks.that(f"{what}: the parts", parts == world.parts(), f"{len(parts)}", tell=False)
            if not again:
                looks.at(f"{what}: a batch", world.judged(more), server.tell(more), tell=False)
                world.apply(more)
                server.end()
                server = Server(self.querier, "--data", folder)
                server.wait()
        server.end()

    def refused(self, what, data, code):
        """The server does not start, says the code, and changes nothing."""
        folder = self.folder(data)
        before = tree(folder)
        server = Server(self.querier, "--data", folder)
        server.wait()
        status = server.end() if server.port else server.ended()
        self.looks.at(
            f"{what}: a start",
            (1, f"refused {code}", True),
            (status, server.told, tree(folder) == before),
            tell=False,
        )


def damage(looks, querier, work, seed):
    chance = random.Random(f"{seed} damage")
    looks.say(f"SEED={seed}")
    few, many = few_events(), many_events(chance)
    small, large = (
        written(looks, querier, f"{work}/{name}", events) for name, events in [("few", few), ("many", many)]
    )
    of_few, of_many = ends_of(few), ends_of(many)
    journals = Journals(looks, querier, work, few)
    journals.look_at("the small journal cut short at each byte", list(cut_short(small, of_few)))
    journals.look_at(f"each byte of {len(small)} changed to three others", list(changed(small, of_few)))
    journals.look_at("more bytes at the end", list(longer(small, of_few)))
    at = len(few)
    journals.look_at("contents that are no events", [
        (what, journal([*(event.text() for event in few), content, few[-1].text()]), f"{code} at {at}")
        for what, content, code in no_events()])
    journals.look_at("first contents that are no head", [
        (what, journal([], contents), code) for what, contents, code in no_heads()])
    large_ones = list(cut_short(large, of_many))
    Journals(looks, querier, work, many).look_at(
        f"the last {len(large_ones) - 1} bytes cut off, one after another", large_ones
    )

    served = Served(looks, querier, work, few)
    for what, data, wanted in [*chance.sample(list(changed(small, of_few)), 24), *longer(small, of_few)]:
        if isinstance(wanted, int):
            served.front(what, data, wanted, of_few[wanted])
        else:
            served.refused(what, data, wanted)
    for length in [0, 3, 4, *range(5, len(NEW) + 14), *chance.sample(range(50, len(small)), 10), *of_few]:
        wanted = front_of(of_few, length)
        if isinstance(wanted, int):
            served.front(f"cut to {length}", small[:length], wanted, of_few[wanted])
        else:
            served.refused(f"cut to {length}", small[:length], wanted)
    for what, content, code in no_events():
        served.refused(what, journal([*(event.text() for event in few), content]), f"{code} at {at}")
    for what, contents, code in no_heads():
        served.refused(what, journal([few[0].text()], contents), code)
    for what, contents in unsound():
        served.refused(what, journal([few[0].text()], contents), "J17 at 0")
    for what, event in replayed():
        served.refused(what, journal([one.text() for one in [*few, event]]), f"J18 at {at}")
        served.refused(
            f"{what}, of before", journal([one.text() for one in [*few, event]], ()), f"J18 at {at}"
        )
    looks.say(f"{served.count} starts over them")
    served = Served(looks, querier, f"{work}/many", many)
    for length in [*chance.sample(range(max(of_many[0], len(large) - 4096), len(large)), 12), len(large)]:
        served.front(f"the large one cut to {length}", large[:length], front_of(of_many, length),
                     of_many[front_of(of_many, length)])
    looks.say(f"{served.count} starts over the large one")
