"""What the parts know: events and the bytes of a journal as docs/FORMATS.md has them, what a store says after
events, servers that are started and killed, and the count of what was looked at. Nothing here is taken from
the program."""
import http.client
import json
import os
import subprocess
import time
import urllib.parse

from lib import Running
from read_block import checksum, uvarint, varint

LEAST, MOST = -(2**62), 2**62 - 1
OK = (200, {"ok": True})
NOT_KEPT = (503, {"refused": "H11"})
# what an operator is in a record
OPERATORS = {"=": 0, "!=": 1, "=~": 2, "!~": 3}


# records and the texts of events


def text_of(string):
    data = string.encode()
    return uvarint(len(data)) + data


def labels_text(labels):
    return uvarint(len(labels)) + b"".join(text_of(name) + text_of(value) for name, value in labels)


def record(content):
    length = len(content).to_bytes(4, "big")
    return length + checksum(length) + content + checksum(content)


HEADER = b"FZLJ\x01"


# the head of a store that has nothing: its floor, no blocks and no series
NOTHING = (b"\x10" + varint(LEAST) + b"\x00\x00",)


def journal(contents, head=NOTHING):
    """A journal of these events behind a head; `head=()` is the form of before, which had none."""
    return HEADER + b"".join(map(record, [*head, *contents]))


NEW = journal([])


def contents_of(data):
    """The contents of the whole records of a sound journal, and how many bytes they take with the header. In
    the place of a batch by number stands the batch."""
    assert data[:5] == HEADER, data[:5]
    contents, at = [], 5
    while len(data) - at >= 12:
        length, content = int.from_bytes(data[at : at + 4], "big"), data[at + 8 :]
        if checksum(data[at : at + 4]) != data[at + 4 : at + 8] or len(content) < length + 4:
            break
        if checksum(content[:length]) != content[length : length + 4]:
            break
        contents.append(content[:length])
        at += length + 12
    names = Names()
    return [names.plain(content) for content in contents], at


class Names:
    """The label sets that have numbers, by their texts, behind a head."""

    def __init__(self):
        self.numbers = {}

    def text(self, event):
        """What a server writes of an event: a batch names its series by number."""
        if not isinstance(event, Batch):
            return event.text()
        text, before = b"\x04" + uvarint(len(event.runs())), 0
        for labels, samples in event.runs():
            name = labels_text(labels)
            text += uvarint(self.numbers.get(name, len(self.numbers)))
            if name not in self.numbers:
                self.numbers[name] = len(self.numbers)
                text += name
            text += uvarint(len(samples))
            for time, value in samples:
                text, before = text + varint(time - before) + varint(value), time
        return text

    def plain(self, content):
        """What a content stands for, as a content that names no series by number."""
        if content[0] != 4:
            return content
        fields, named, time = Reader(content[1:]), list(self.numbers), 0
        count = fields.uvarint()
        text = b"\x01" + uvarint(count)
        for _ in range(count):
            number = fields.uvarint()
            if number == len(named):
                named.append(labels_text(fields.labels()))
                self.numbers[named[-1]] = number
            samples = fields.uvarint()
            text += named[number] + uvarint(samples)
            for _ in range(samples):
                time += fields.varint()
                text += varint(time) + varint(fields.varint())
        assert fields.at == len(content) - 1 and len(self.numbers) == len(named)
        return text


def numbered(events):
    """The contents that a server writes of events behind a head."""
    names = Names()
    return [names.text(event) for event in events]


class Reader:
    """The fields of a content."""

    def __init__(self, data):
        self.data, self.at = data, 0

    def byte(self):
        self.at += 1
        return self.data[self.at - 1]

    def uvarint(self):
        number = shift = 0
        while True:
            byte = self.byte()
            number |= (byte & 127) << shift
            shift += 7
            if byte < 128:
                return number

    def varint(self):
        number = self.uvarint()
        return (number >> 1) ^ -(number & 1)

    def text(self):
        length = self.uvarint()
        self.at += length
        return self.data[self.at - length : self.at].decode()

    def labels(self):
        return tuple((self.text(), self.text()) for _ in range(self.uvarint()))

    def sample(self):
        return self.varint(), self.varint()


class Head:
    """What a journal begins with: a floor, the numbers of the folders of blocks, and series of label set,
    newest sample and samples by their times."""

    def __init__(self, floor=LEAST, numbers=(), series=()):
        self.floor, self.numbers, self.series = floor, list(numbers), list(series)

    def __eq__(self, other):
        return isinstance(other, Head) and self.contents() == other.contents()

    @staticmethod
    def of(world, numbers):
        """The head that a roll writes."""
        return Head(
            world.floor,
            numbers,
            [
                (labels, last, sorted(world.head.get(labels, {}).items()))
                for labels, last in world.newest.items()
            ],
        )

    @staticmethod
    def read(contents):
        """The head that the first contents of a journal are, and the others; or None and all of them."""
        if not contents or contents[0][0] != 16:
            return None, contents
        first = Reader(contents[0][1:])
        floor, numbers = first.varint(), []
        for _ in range(first.uvarint()):
            numbers.append(first.uvarint())
            assert first.uvarint() == 0, "an edition of deletions"
        count, series = first.uvarint(), []
        for content in contents[1 : 1 + count]:
            fields = Reader(content)
            assert fields.byte() == 17
            labels, newest = fields.labels(), fields.sample()
            series.append((labels, newest, [fields.sample() for _ in range(fields.uvarint())]))
            assert fields.at == len(content)
        assert len(series) == count
        return Head(floor, numbers, series), contents[1 + count :]

    def contents(self):
        texts = [
            b"\x10"
            + varint(self.floor)
            + uvarint(len(self.numbers))
            + b"".join(uvarint(number) + uvarint(0) for number in self.numbers)
            + uvarint(len(self.series))
        ]
        for labels, newest, samples in self.series:
            text = b"\x11" + labels_text(labels)
            text += b"".join(varint(number) for number in newest) + uvarint(len(samples))
            texts.append(text + b"".join(varint(time) + varint(value) for time, value in samples))
        return texts

    def line(self):
        """What `querier journal` says of it."""
        series, samples = len(self.series), sum(len(samples) for _, _, samples in self.series)
        return f"head: floor {self.floor}, {len(self.numbers)} blocks, {series} series, {samples} samples"


class Batch:
    """Rows of a label set and samples, as the body of a write has them."""

    def __init__(self, rows):
        self.rows = [(dict(labels), list(samples)) for labels, samples in rows]

    def asked(self):
        rows = [{"labels": labels, "samples": samples} for labels, samples in self.rows]
        return "/write", json.dumps(rows, separators=(",", ":"), ensure_ascii=False)

    def samples(self):
        return [(set_of(labels), time, value) for labels, samples in self.rows for time, value in samples]

    def runs(self):
        runs = []
        for labels, samples in self.rows:
            if samples and runs and runs[-1][0] == set_of(labels):
                runs[-1][1].extend(samples)
            elif samples:
                runs.append((set_of(labels), list(samples)))
        return runs

    def text(self):
        text = b"\x01" + uvarint(len(self.runs()))
        for labels, samples in self.runs():
            text += labels_text(labels) + uvarint(len(samples))
            text += b"".join(varint(time) + varint(value) for time, value in samples)
        return text

    def line(self):
        """What `querier journal` says of it."""
        samples = self.samples()
        if not samples:
            return "batch 0 samples"
        series = len({labels for labels, _, _ in samples})
        times = [time for _, time, _ in samples]
        return f"batch {len(samples)} samples of {series} series, {min(times)} to {max(times)}"


class Deletion:
    """Matchers of name, operator, text and a test that says the same of a value; and a range."""

    def __init__(self, matchers, first, last):
        self.matchers, self.first, self.last = matchers, first, last

    def selector(self):
        def quoted(text):
            return text.replace("\\", "\\\\").replace('"', '\\"').replace("\n", "\\n")

        return "{" + ",".join(f'{name}{op}"{quoted(text)}"' for name, op, text, _ in self.matchers) + "}"

    def asked(self):
        words = {"from": self.first, "selector": self.selector(), "to": self.last}
        return "/delete", json.dumps(words, separators=(",", ":"), ensure_ascii=False)

    def takes(self, labels):
        values = dict(labels)
        return all(test(values.get(name, "")) for name, _, _, test in self.matchers)

    def text(self):
        text = b"\x02" + uvarint(len(self.matchers))
        for name, op, word, _ in self.matchers:
            text += bytes([OPERATORS[op]]) + text_of(name) + text_of(word)
        return text + varint(self.first) + varint(self.last)

    def line(self):
        return f"deletion {self.selector()} {self.first} to {self.last}"


class Cut:
    def __init__(self, at):
        self.at = at

    def asked(self):
        return "/cut", json.dumps({"at": self.at}, separators=(",", ":"))

    def text(self):
        return b"\x03" + varint(self.at)

    def line(self):
        return f"cut at {self.at}"


def equals(name, text):
    return (name, "=", text, lambda value: value == text)


def set_of(labels):
    """A label set: pairs in the order of their names' bytes, without empty values."""
    pairs = ((name, value) for name, value in dict(labels).items() if value)
    return tuple(sorted(pairs, key=lambda pair: pair[0].encode()))


def refused(code, at=None):
    body = {"cause": code, "refused": "H9"}
    return 409, body if at is None else {"at": at, **body}


class World:
    """What a store says after the events that it was told of."""

    def __init__(self):
        self.floor = LEAST
        self.newest = {}
        # of each block its samples, and those of the head: label set, time, value
        self.blocks, self.head = [], {}

    def judged(self, event):
        """The reply to an event, which changes nothing here."""
        if isinstance(event, Cut):
            if event.at <= self.floor:
                return refused("E5")
            return refused("E6") if len(self.blocks) == 63 and self.below(event.at) else OK
        if isinstance(event, Batch):
            newest = {}
            for number, (labels, time, value) in enumerate(event.samples()):
                last = newest.get(labels) or self.newest.get(labels)
                if time < self.floor:
                    return refused("E1", number)
                if last and time < last[0]:
                    return refused("E2", number)
                if last and time == last[0] and value != last[1]:
                    return refused("E3", number)
                newest[labels] = (time, value)
        return OK

    def below(self, at):
        low = {labels: {t: v for t, v in samples.items() if t < at} for labels, samples in self.head.items()}
        return {labels: samples for labels, samples in low.items() if samples}

    def apply(self, event):
        """An event that is accepted."""
        if isinstance(event, Batch):
            for labels, time, value in event.samples():
                if self.newest.get(labels) != (time, value):
                    self.head.setdefault(labels, {})[time] = value
                    self.newest[labels] = (time, value)
        elif isinstance(event, Deletion):
            for part in [*self.blocks, self.head]:
                for labels, samples in part.items():
                    if event.takes(labels):
                        for time in [t for t in samples if event.first <= t <= event.last]:
                            del samples[time]
        else:
            if low := self.below(event.at):
                self.blocks.append(low)
            self.head = {
                labels: {t: v for t, v in samples.items() if t >= event.at}
                for labels, samples in self.head.items()
            }
            self.newest = {labels: last for labels, last in self.newest.items() if last[0] >= event.at}
            self.floor = event.at
        return self

    def parts(self):
        """The samples of each block, and those of the head."""
        return [
            {labels: samples for labels, samples in part.items() if samples}
            for part in [*self.blocks, self.head]
        ]

    def rows(self):
        """The samples of all of them."""
        rows = {}
        for part in self.parts():
            for labels, samples in part.items():
                rows.setdefault(labels, {}).update(samples)
        return rows


def world_of(events):
    world = World()
    for event in events:
        assert world.judged(event) == OK, event.line()
        world.apply(event)
    return world


# servers


def rows_in(rows):
    found = {}
    for row in rows:
        labels = set_of(row["labels"])
        assert labels not in found, f"two rows of {labels}"
        found[labels] = dict(map(tuple, row["samples"]))
        assert len(found[labels]) == len(row["samples"]), f"a time twice in {labels}"
    return found


class Lost(Exception):
    """No whole reply came; `sent` says whether a connection was made."""

    def __init__(self, sent):
        super().__init__("no whole reply came")
        self.sent = sent


class Server(Running):
    """`querier serve` on a free port."""

    def __init__(self, querier, *words, env=None, cwd=None, before=()):
        super().__init__([*before, querier, "serve", "--port", "0", *words], env, cwd)

    def exchange(self, method, target, body=None):
        """The status of a reply and its body, over a connection of its own."""
        link = http.client.HTTPConnection("127.0.0.1", self.port, timeout=120)
        try:
            link.connect()
        except OSError:
            raise Lost(False) from None
        try:
            link.request(method, target, None if body is None else body.encode())
            reply = link.getresponse()
            return reply.status, json.loads(reply.read())
        except (OSError, http.client.HTTPException, ValueError):
            raise Lost(True) from None
        finally:
            link.close()

    def tell(self, event):
        return self.exchange("POST", *event.asked())

    def select(self, selector='{suite="durable"}'):
        """The samples of each part, and of all: label set, time, value."""
        words = urllib.parse.urlencode({"selector": selector, "from": LEAST, "to": MOST})
        status, reply = self.exchange("GET", f"/select?{words}")
        assert status == 200, (status, reply)
        return [rows_in(part["rows"]) for part in reply["parts"]], rows_in(reply["rows"])


class Folders:
    """New folders of a part, each below the part's own."""

    def __init__(self, looks, querier, preload, work):
        self.looks, self.querier, self.preload, self.work, self.count = looks, querier, preload, work, 0

    def folder(self):
        self.count += 1
        return f"{self.work}/{self.looks.name}{self.count}"

    def failing(self, folder, how):
        """The environment of a program whose calls on a folder fail or are told, as failing_files.c says."""
        if not how:
            return {}
        return {"LD_PRELOAD": self.preload, "FOLDER": folder, **{name: str(how[name]) for name in how}}


def recovered(count, torn=0, blocks=0):
    """What a start says first."""
    over = f"{blocks} block{'' if blocks == 1 else 's'}, " if blocks else ""
    cut = f", {torn} bytes of a torn record cut off" if torn else ""
    return f"recovered {over}{count} event{'' if count == 1 else 's'}{cut}"


def rolled(folder, head):
    """What a start says that began the journal anew with this head."""
    blocks = len(head.numbers)
    return f"rolled {folder}/journal: {blocks} block{'' if blocks == 1 else 's'}, {len(head.series)} series"


def piped(words, text):
    """What a program that reads a text ends with: its status, and what it wrote."""
    done = subprocess.run(words, input=text, capture_output=True, timeout=120)
    return done.returncode, done.stdout.decode(), done.stderr.decode()


def run(words, env=None):
    """A program to its end: its status, and what it wrote."""
    done = subprocess.run(
        words, stdin=subprocess.DEVNULL, capture_output=True, timeout=120, env={**os.environ, **(env or {})}
    )
    return done.returncode, done.stdout.decode(errors="replace"), done.stderr.decode(errors="replace")


# the count


class Looks:
    """What was looked at: each as wanted, or a line that says what came instead."""

    def __init__(self, name):
        self.name, self.passed, self.failed = name, 0, 0
        self.began = time.monotonic()

    def at(self, what, wanted, got, tell=True):
        if wanted == got:
            self.passed += 1
            if tell:
                self.say(f"{what}: as wanted")
        else:
            self.fail(f"{what}: wanted {short(wanted)}, got {short(got)}")
        return wanted == got

    def that(self, what, holds, otherwise="", tell=True):
        """That a thing is so; else what is there."""
        if holds:
            self.passed += 1
            if tell:
                self.say(f"{what}: as wanted")
        else:
            self.fail(f"{what}: not so{f': {short(otherwise)}' if otherwise != '' else ''}")
        return bool(holds)

    def fail(self, line):
        self.failed += 1
        self.say(f"FAILED: {line}")

    def say(self, line):
        print(f"{self.name}: {line}", flush=True)

    def done(self):
        print(
            f"{self.name}: {self.passed} passed, {self.failed} failed, {time.monotonic() - self.began:.0f} s",
            flush=True,
        )


def short(value):
    text = value if isinstance(value, str) else repr(value)
    return text if len(text) <= 600 else f"{text[:300]} .. {text[-200:]}"


def differences(wanted, got):
    """The first few points that two lists of samples do not both have."""
    points = [
        {(labels, t, v) for labels, samples in rows.items() for t, v in samples.items()}
        for rows in (wanted, got)
    ]
    missing, strange = points[0] - points[1], points[1] - points[0]
    return (f"{len(missing)} samples missing, as {sorted(missing)[:2]}; "
            f"{len(strange)} that nobody sent or that were deleted, as {sorted(strange)[:2]}")


def read(path):
    with open(path, "rb") as file:
        return file.read()


def lines_of(path):
    """The lines of a trace."""
    return read(path).decode().splitlines()


def tree(folder):
    """Each file below a folder with its bytes, but for the lock."""
    found = {}
    for at, folders, files in os.walk(folder):
        for name in folders:
            found[os.path.relpath(os.path.join(at, name), folder) + "/"] = None
        for name in files:
            path = os.path.join(at, name)
            if os.path.relpath(path, folder) != "lock":
                found[os.path.relpath(path, folder)] = read(path)
    return found
