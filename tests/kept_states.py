"""The states of a kept store, read from its folder by the words of docs/FORMATS.md and docs/AUDITING.md, and
of which of them a reply is right. Each state is tried: no order of trying is borrowed from the auditor, and
nothing here is taken from the programs."""
import re
import struct

from read_block import checksum, uvar, var

LEAST, END = -(2**62), 2**32


class Fields:
    """What stands in bytes, one after another."""

    def __init__(self, data, at=0):
        self.data, self.at = data, at

    def byte(self):
        self.at += 1
        return self.data[self.at - 1]

    def uvarint(self):
        number, self.at = uvar(self.data, self.at)
        return number

    def varint(self):
        number, self.at = var(self.data, self.at)
        return number

    def text(self):
        length = self.uvarint()
        self.at += length
        return self.data[self.at - length : self.at].decode()

    def labels(self):
        return tuple((self.text(), self.text()) for _ in range(self.uvarint()))

    def samples(self):
        return [(self.varint(), self.varint()) for _ in range(self.uvarint())]


# ---- the journal


def records(data):
    """The contents of the whole records, and where each ends; what follows them is a torn end."""
    assert data[:5] == b"FZLJ\x01", data[:5]
    contents, ends = [], [5]
    while len(data) - ends[-1] >= 12:
        at = ends[-1]
        length = int.from_bytes(data[at : at + 4], "big")
        content = data[at + 8 : at + 8 + length]
        sums = data[at + 4 : at + 8], data[at + 8 + length : at + 12 + length]
        if sums != (checksum(data[at : at + 4]), checksum(content)):
            break
        contents.append(content)
        ends.append(at + 12 + length)
    return contents, ends


def event_of(content, named):
    """The event that a content says; `named` has the label sets that have numbers, which it may add to."""
    fields = Fields(content)
    kind = fields.byte()
    if kind == 1:
        return "batch", [(fields.labels(), fields.samples()) for _ in range(fields.uvarint())]
    if kind == 4:
        runs, time = [], 0
        for _ in range(fields.uvarint()):
            number, samples = fields.uvarint(), []
            if number == len(named):
                named.append(fields.labels())
            for _ in range(fields.uvarint()):
                time += fields.varint()
                samples.append((time, fields.varint()))
            runs.append((named[number], samples))
        return "batch", runs
    if kind == 2:
        matchers = []
        for _ in range(fields.uvarint()):
            operator = ("=", "!=", "=~", "!~")[fields.byte()]
            matchers.append((fields.text(), operator, fields.text()))
        return "deletion", matchers, fields.varint(), fields.varint()
    assert kind == 3, kind
    return "cut", fields.varint()


class Journal:
    """A floor, the folders of blocks, the series of a head, and events; and the checksum of the head."""

    def __init__(self, data):
        contents, ends = records(data)
        self.floor, self.folders, self.head, own = LEAST, [], [], 0
        if contents[0][0] in (16, 18):
            fields = Fields(contents[0], 1)
            self.floor = fields.varint()
            for _ in range(fields.uvarint()):
                self.folders.append(fields.uvarint())
                fields.uvarint()
            own = 1 + fields.uvarint()
            for content in contents[1:own]:
                fields = Fields(content, 1)
                labels, newest = fields.labels(), (fields.varint(), fields.varint())
                self.head.append((labels, newest, fields.samples()))
        self.sum = checksum(data[: ends[own]] if own else b"").hex()
        named = []
        self.events = [event_of(content, named) for content in contents[own:]]

    def mark(self, count):
        return f"{self.sum}:{count}"


# ---- blocks: series, chunks and deletions


def walk(folder):
    """The part of a block: reference, label set and samples of each series, without what was deleted."""
    index, chunks, stones = (
        open(f"{folder}/{name}", "rb").read() for name in ("index", "chunks/000001", "tombstones")
    )
    places = struct.unpack(">6Q", index[-52:-4])
    fields = Fields(index, places[0] + 8)
    symbols = [fields.text() for _ in range(int.from_bytes(index[places[0] + 4 : places[0] + 8], "big"))]
    fields.at, end, part = places[1], places[2] or places[4], []
    while fields.at + -fields.at % 16 < end:
        fields.at += -fields.at % 16
        reference = fields.at // 16
        fields.uvarint()
        labels = tuple(
            (symbols[fields.uvarint()], symbols[fields.uvarint()]) for _ in range(fields.uvarint())
        )
        samples, place = [], 0
        for number in range(fields.uvarint()):
            (fields.uvarint if number else fields.varint)()
            fields.uvarint()
            place += (fields.varint if number else fields.uvarint)()
            _, at = uvar(chunks, place)
            count = int.from_bytes(chunks[at + 1 : at + 3], "big")
            samples += struct.iter_unpack(">qq", chunks[at + 3 : at + 3 + 16 * count])
        part.append((reference, labels, samples))
        fields.at += 4
    fields, gone = Fields(stones, 5), []
    while fields.at < len(stones) - 4:
        gone.append((fields.uvarint(), fields.varint(), fields.varint()))

    def is_gone(reference, sample):
        return any(r == reference and first <= sample[0] <= last for r, first, last in gone)

    return [(r, labels, [s for s in samples if not is_gone(r, s)]) for r, labels, samples in part]


def sized(number):
    """How many bytes a varint without a sign takes."""
    return max(1, -(-number.bit_length() // 7))


def sized_signed(number):
    return sized(2 * number if number >= 0 else -2 * number - 1)


def references(rows):
    """Where the writer puts the entries of rows in label order: the sixteenth part of each place."""
    symbols = sorted({text.encode() for labels, _ in rows for pair in labels for text in pair})
    number = {text: at for at, text in enumerate(symbols)}
    at, place, out = 5 + 4 + 4 + sum(sized(len(text)) + len(text) for text in symbols) + 4, 8, []
    for labels, samples in rows:
        chunks = [samples[first : first + 120] for first in range(0, len(samples), 120)]
        size = sized(len(labels)) + sized(len(chunks))
        size += sum(sized(number[text.encode()]) for pair in labels for text in pair)
        last = before = None
        for chunk in chunks:
            first, end = chunk[0][0], chunk[-1][0]
            size += sized_signed(first) if last is None else sized(first - last)
            size += sized(end - first)
            size += sized(place) if last is None else sized_signed(place - before)
            last, before, length = end, place, 2 + 16 * len(chunk)
            place += sized(length) + 1 + length + 4
        at += -at % 16
        out.append(at // 16)
        at += sized(size) + size + 4
    return out


# ---- queries


def accepts(matcher, labels):
    name, operator, text = matcher
    value = dict(labels).get(name, "")
    hit = re.fullmatch(f"(?s:{text})", value) is not None if "~" in operator else value == text
    return hit == (operator[0] == "=")


def matchers_of(selector):
    """The matchers of a selector without escapes, as name{a="b"}."""
    name, braces = re.fullmatch(r"([a-zA-Z_:][\w:]*)?(\{.*\})?", selector).groups()
    named = [("__name__", "=", name)] if name else []
    return named + re.findall(r'(\w+)(=~|!~|!=|=)"([^"]*)"', braces or "")


def label_order(labels):
    return [(name.encode(), value.encode()) for name, value in labels]


class Query:
    def __init__(self, selector, first=LEAST, last=-LEAST - 1):
        self.matchers, self.first, self.last = matchers_of(selector), first, last
        # which matchers accept a label set, once it was asked
        self.accepting = {}

    def within(self, samples):
        return [tuple(s) for s in samples if self.first <= s[0] <= self.last]

    def accepted_by(self, number, labels):
        if labels not in self.accepting:
            self.accepting[labels] = [accepts(matcher, labels) for matcher in self.matchers]
        return self.accepting[labels][number]

    def satisfied(self, labels):
        return all(self.accepted_by(number, labels) for number in range(len(self.matchers)))

    def selected(self, part):
        rows = [(labels, self.within(samples)) for _, labels, samples in part if self.satisfied(labels)]
        return sorted((row for row in rows if row[1]), key=lambda row: label_order(row[0]))

    def fits(self, verdict, run):
        if verdict == "match":
            return len(run) == 1 and self.satisfied(run[0][1]) and bool(self.within(run[0][2]))
        if verdict == "none":
            return not any(self.within(samples) for _, _, samples in run)
        return not any(self.accepted_by(verdict, labels) for _, labels, _ in run)

    def fits_some(self, run):
        return any(self.fits(verdict, run) for verdict in ["match", "none", *range(len(self.matchers))])


# ---- what is right of a part


def rows_of(told):
    pairs = (sorted(row["labels"].items(), key=lambda pair: pair[0].encode()) for row in told)
    return [(tuple(labels), [tuple(s) for s in row["samples"]]) for labels, row in zip(pairs, told)]


def is_known(query, answer):
    """Whether each verdict names a matcher of the query, or is a word."""
    verdicts = [interval["verdict"] for interval in answer["intervals"]]
    return all(v in ("match", "none") or v in range(len(query.matchers)) for v in verdicts)


def is_sound(query, part, answer):
    """Whether an answer is right of a part by the references of its series."""
    if rows_of(answer["rows"]) != query.selected(part):
        return False
    numbers = [reference for reference, _, _ in part]
    intervals, separators = answer["intervals"], answer["separators"]
    starts = [interval["from"] for interval in intervals]
    if not is_known(query, answer) or [i["until"] for i in intervals] != (starts[1:] + [END])[: len(starts)]:
        return False
    if starts[:1] != numbers[:1] or starts != sorted(set(starts)) or not set(starts) <= set(numbers):
        return False
    for interval in intervals:
        run = [series for series in part if interval["from"] <= series[0] < interval["until"]]
        if not query.fits(interval["verdict"], run):
            return False
    if len(separators) != len(intervals) or separators != sorted(set(separators)):
        return False
    if not set(separators) <= set(numbers):
        return False
    for one, next_one in zip(separators, separators[1:]):
        if query.fits_some([series for series in part if one <= series[0] <= next_one]):
            return False
    return True


def is_explained(query, part, answer):
    """Whether an answer is right of the samples of a part, whatever references its series had."""
    intervals, separators = answer["intervals"], answer["separators"]
    starts = [interval["from"] for interval in intervals]
    if not is_known(query, answer) or [i["until"] for i in intervals] != (starts[1:] + [END])[: len(starts)]:
        return False
    if any(interval["from"] >= interval["until"] for interval in intervals):
        return False
    full = [series for series in part if series[2]]
    for interval in intervals:
        if interval["verdict"] == "match":
            if not query.fits("match", full[:1]):
                return False
            full = full[1:]
        else:
            while full and query.fits(interval["verdict"], full[:1]):
                full = full[1:]
    if full or len(separators) != len(intervals):
        return False
    if not all(i["from"] <= s < i["until"] for s, i in zip(separators, intervals)):
        return False
    return rows_of(answer["rows"]) == query.selected(part)


def merged(parts):
    """The rows of all that parts list: the value listed last at each point."""
    listed = {}
    for part in parts:
        for labels, samples in rows_of(part.get("rows", [])):
            listed.setdefault(labels, {}).update(samples)
    return [(labels, sorted(listed[labels].items())) for labels in sorted(listed, key=label_order)]


# ---- the states


class State:
    """What a store has after some events. What is not changed by an event stays the same object."""

    def __init__(self, journal, blocks):
        self.floor, self.blocks = journal.floor, blocks
        # of each series in the order of its number: label set, newest sample, samples
        self.head = [[labels, newest, list(samples)] for labels, newest, samples in journal.head]
        self.places = {series[0]: series for series in self.head}

    def numbered(self):
        return [(at + 1, labels, samples) for at, (labels, _, samples) in enumerate(self.head)]

    def step(self, event):
        getattr(self, event[0])(*event[1:])

    def batch(self, runs):
        for labels, samples in runs:
            for sample in samples:
                series = self.places.get(labels)
                assert sample[0] >= self.floor, sample
                if series is None:
                    series = self.places[labels] = [labels, sample, [sample]]
                    self.head.append(series)
                elif sample != series[1]:
                    assert sample[0] > series[1][0], sample
                    series[1] = sample
                    series[2].append(sample)

    def deletion(self, matchers, first, last):
        def left(labels, samples):
            kept = [s for s in samples if not first <= s[0] <= last]
            if len(kept) == len(samples) or not all(accepts(matcher, labels) for matcher in matchers):
                return samples
            return kept

        for series in self.head:
            series[2] = left(series[0], series[2])
        for place, block in enumerate(self.blocks):
            after = [(number, labels, left(labels, samples)) for number, labels, samples in block]
            if any(one[2] is not other[2] for one, other in zip(after, block)):
                self.blocks = [*self.blocks[:place], after, *self.blocks[place + 1 :]]

    def cut(self, time):
        assert time > self.floor, time
        rows = [(labels, [s for s in samples if s[0] < time]) for labels, _, samples in self.head]
        rows = sorted((row for row in rows if row[1]), key=lambda row: label_order(row[0]))
        if rows:
            block = [(number, *row) for number, row in zip(references(rows), rows)]
            self.blocks = [*self.blocks, block]
        self.floor = time
        self.head = [
            [labels, newest, [s for s in samples if s[0] >= time]]
            for labels, newest, samples in self.head
            if newest[0] >= time
        ]
        self.places = {series[0]: series for series in self.head}


class Asked:
    """A reply to a query, of which each state behind `first` to `last` events is to be judged."""

    def __init__(self, query, reply, first=0, last=None):
        self.query, self.reply, self.first, self.last = query, reply, first, last
        self.is_merged = rows_of(reply["rows"]) == merged(reply["parts"])
        # what was found of blocks, and the blocks, so that no other block gets their places
        self.found = {}

    def is_right_of_block(self, block, told):
        key = id(block), told["part"]
        if key not in self.found:
            if told.get("skipped"):
                right = not self.query.selected(block)
            else:
                right = is_sound(self.query, block, told) or is_explained(self.query, block, told)
            self.found[key] = right, block
        return self.found[key][0]

    def is_right(self, state):
        """Whether all that the reply says is right of a state."""
        parts = self.reply["parts"]
        names = [f"block {number}" for number in range(len(state.blocks))] + ["head"]
        if not self.is_merged or [told["part"] for told in parts] != names or parts[-1].get("skipped"):
            return False
        blocks = zip(state.blocks, parts)
        if not all(self.is_right_of_block(block, told) for block, told in blocks):
            return False
        return is_sound(self.query, state.numbered(), parts[-1])


class Store:
    """What lies in the folder of a store that no server changes meanwhile."""

    def __init__(self, folder):
        self.journal = Journal(open(f"{folder}/journal", "rb").read())
        self.blocks = [walk(f"{folder}/blocks/{number}") for number in self.journal.folders]

    def right_of(self, asked):
        """Of each of these, after how many events the states are of which it is right."""
        state, found = State(self.journal, self.blocks), [[] for _ in asked]
        events = self.journal.events
        starting = sorted(range(len(asked)), key=lambda place: asked[place].first)
        open_ones = []
        for number in range(len(events) + 1):
            if number:
                state.step(events[number - 1])
            while starting and asked[starting[0]].first <= number:
                open_ones.append(starting.pop(0))
            for place in open_ones:
                if asked[place].is_right(state):
                    found[place].append(number)
            open_ones = [at for at in open_ones if asked[at].last is None or asked[at].last > number]
            if not starting and not open_ones:
                break
        return found

    def right_states(self, query, reply, first=0):
        """After how many events the states are of which a reply is right."""
        return self.right_of([Asked(query, reply, first)])[0]
