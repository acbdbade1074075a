"""`blocktool join` of a store that no server keeps: the store says the same as before, in fewer blocks,
whichever call of the join is the last or fails; and what is not joined stays as it is."""
import contextlib
import copy
import http.client
import json
import os
import re
import shutil
import signal
import subprocess
import urllib.parse

from blocks import Blocks, row, session
from faults import mounted
from house import (
    LEAST, MOST, OK, Batch, Cut, Deletion, Head, World, contents_of, equals, journal, lines_of, piped, read,
    record, recovered, refused, rows_in, run, tree,
)

# a selector, what it takes, and a range
QUESTIONS = [
    ('{suite="durable"}', lambda labels: True, LEAST, MOST),
    ('cut{n="1"}', lambda labels: labels["n"] == "1", LEAST, MOST),
    ('{n=~"1|4"}', lambda labels: labels["n"] in ("1", "4"), 150, 620),
    ('{n!="1"}', lambda labels: labels["n"] != "1", 0, 259),
    ("cut", lambda labels: labels["__name__"] == "cut", 100, 100),
    ('{suite="durable",n=~".+"}', lambda labels: True, 261, MOST),
    ('{n="none"}', lambda labels: False, LEAST, MOST),
]
ERRORS = {"EIO": 5, "ENOSPC": 28}
# the calls that may fail, and how a trace names them
CALLS = {
    "WRITE": ("write ",),
    "SYNC": ("sync ",),
    "CUT": ("cut ",),
    "MAKE": ("make ", "open "),
    "RENAME": ("rename ",),
    "REMOVE": ("remove ",),
}


def later():
    """Deletions in the blocks and in the head, and one cut more."""
    return [
        Deletion([equals("n", "1")], 0, 20),
        Deletion([equals("n", "3")], 210, 230),
        Batch([row(4, *[(600 + k, k) for k in range(40)])]),
        Cut(620),
        Deletion([equals("n", "4")], 600, 605),
        Deletion([equals("n", "4")], 625, 630),
    ]


def last():
    """What stays in the journal: a cut, a deletion in the blocks, and samples of the head."""
    return [
        Batch([row(5, *[(700 + k, -k) for k in range(50)]), row(1, (720, 1))]),
        Cut(730),
        Deletion([equals("n", "2")], 0, 1000),
        Batch([row(6, (800, 5), (801, 2**62)), row(5, (802, -(2**63)))]),
        Deletion([equals("n", "6")], 800, 800),
    ]


def selected(world, takes, first, end):
    """The rows of a world that a question takes."""
    rows = {}
    for labels, samples in world.rows().items():
        found = {time: value for time, value in samples.items() if first <= time <= end}
        if found and takes(dict(labels)):
            rows[labels] = found
    return rows


def joined(world):
    """The same world, all blocks of which are one."""
    other, one = copy.deepcopy(world), {}
    for block in world.blocks:
        for labels, samples in block.items():
            one.setdefault(labels, {}).update(samples)
    other.blocks = [one] if world.blocks else []
    return other


class Joins(Blocks):
    def __init__(self, looks, querier, others, preload, work):
        super().__init__(looks, querier, preload, work)
        self.blocktool, self.auditor = others

    def join(self, folder, **how):
        """A join, to its end."""
        return run([self.blocktool, "join", folder], self.failing(folder, how))

    def cannot(self, what, ended):
        """A program that ended since a call failed says what it could not do."""
        status, out, err = ended
        self.looks.at(f"{what}: the status", (3, ""), (status, out), tell=False)
        says = err.startswith("cannot ") and err.count("\n") == 1
        self.looks.that(f"{what}: what it says", says, err, tell=False)

    def lived(self, *phases):
        """A folder of a store that was told of these events, with a start before each list of them; and its
        world."""
        folder, world = self.folder(), World()
        for events in phases:
            server = self.start(folder)
            self.looks.that("it starts", server.wait(), server.told, tell=False)
            for event in events:
                self.looks.at(event.line()[:60], OK, server.tell(event), tell=False)
                world.apply(event)
            server.end()
        return folder, world

    def copied(self, base):
        folder = self.folder()
        shutil.copytree(base, folder)
        return folder

    def numbers(self, folder):
        """The folders of blocks that the journal's head names."""
        return Head.read(contents_of(read(f"{folder}/journal"))[0])[0].numbers

    def reply(self, server, question):
        """The bytes of a reply."""
        selector, _, first, end = question
        link = http.client.HTTPConnection("127.0.0.1", server.port, timeout=120)
        with contextlib.closing(link):
            link.request(
                "GET", "/select?" + urllib.parse.urlencode({"selector": selector, "from": first, "to": end})
            )
            reply = link.getresponse()
            body = reply.read()
        self.looks.at(f"the status of {selector}", 200, reply.status, tell=False)
        return body

    def merged(self, what, server, world):
        """The bytes of the merged rows of each question, which are those of the world."""
        found = []
        for question in QUESTIONS:
            body = self.reply(server, question)
            rows = rows_in(json.loads(body)["rows"])
            self.looks.at(
                f"{what}: the rows of {question[0]}", selected(world, *question[1:]), rows, tell=False
            )
            # the last member of a reply; a text has no such bytes, since its quotes are escaped
            found.append(body.rsplit(b'"rows":', 1)[1])
        return found

    def refusals(self, what, server, world):
        """What the floor and the newest samples refuse; the codes that were seen."""
        events, codes = [Cut(world.floor)], set()
        for labels, (time, value) in world.newest.items():
            events += [Batch([(dict(labels), [(at, other)])]) for at, other in
                       [(world.floor - 1, 1), (time, value ^ 1), (time - 1, 1)]]
        for event in events:
            wanted, got = world.judged(event), server.tell(event)
            if wanted != OK:
                self.looks.at(f"{what}: {event.line()}", wanted, got, tell=False)
                codes.add(wanted[1]["cause"])
            else:
                self.looks.fail(f"{what}: {event.line()} is no change that is refused")
        return codes

    def audited(self, what, server, folder):
        """The auditor accepts the reply of the server to each question, and that of `select` over the
        blocks."""
        names = [f"{folder}/blocks/{number}" for number in self.numbers(folder)]
        for question in QUESTIONS:
            selector, _, first, end = question
            words = [f"--from={first}", f"--to={end}", "--selector", selector, *names]
            status, reply, err = run([self.querier, "select", *words[:2], selector, *names])
            self.looks.at(f"{what}: select {selector}", (0, ""), (status, err), tell=False)
            for text in (self.reply(server, question), reply.encode()):
                status, out, err = piped([self.auditor, *words], text)
                lines = [line.split(": ")[-1] for line in out.splitlines()]
                self.looks.at(
                    f"{what}: how many parts the auditor judges of {selector}",
                    len(names) + 2,
                    len(lines),
                    tell=False,
                )
                self.looks.at(f"{what}: the auditor on {selector}", (0, set(), ""),
                              (status, set(lines) - {"valid", "skipped"}, err), tell=False)

    def same(self, what, folder, world, numbers=None):
        """A start over the folder says the rows of this world in one block, which lies there and is sound."""
        one = joined(world)
        server = self.start(folder)
        if self.looks.that(f"{what}: it starts", server.wait(), server.told, tell=False):
            self.looks.at(
                f"{what}: what it says",
                [recovered(0, blocks=len(one.blocks))],
                server.first_lines(1),
                tell=False,
            )
            self.says(what, server, one)
            found = self.numbers(folder)
            self.looks.at(f"{what}: how many blocks there are", len(one.blocks), len(found), tell=False)
            if numbers:
                self.looks.at(f"{what}: the number of the block", numbers, found, tell=False)
            head = Head.of(world, found)
            self.looks.that(
                f"{what}: the journal", read(f"{folder}/journal") == journal([], head.contents()), tell=False
            )
            if one.blocks:
                self.there(what, folder, one, found)
        return server


def lives(them, looks):
    """A store of several cuts, rolls and deletions: before the join and after it, and in a life after
    that."""
    for what, phases in [
        ("a saved store", [session(), []]),
        ("a store of a life", [session(), later(), last()]),
    ]:
        folder, world = them.lived(*phases)
        count = len(world.blocks)
        # a server is asked over a copy, so that the store keeps what it has
        server = them.start(them.copied(folder))
        looks.that(f"{what}: it starts", server.wait(), server.told, tell=False)
        before = them.merged(f"{what}, before", server, world)
        codes = them.refusals(f"{what}, before", server, world)
        server.end()
        looks.at(
            f"{what}: what the join says",
            (0, f"{folder}: {count} blocks joined into 1\n", ""),
            them.join(folder),
        )
        held = tree(folder)
        server = them.same(what, folder, world)
        looks.that(f"{what}: a start changed nothing", tree(folder) == held)
        after = them.merged(f"{what}, after", server, world)
        looks.at(f"{what}: the merged rows of {len(QUESTIONS)} questions", before, after)
        looks.at(f"{what}: what is refused", codes, them.refusals(f"{what}, after", server, world))
        looks.at(f"{what}: which codes that are", {"E1", "E2", "E3", "E5"}, codes)
        them.audited(what, server, folder)
        server.end()
        looks.at(f"{what}: a second join", (0, f"{folder}: 1 block, none joined\n", ""), them.join(folder))
        looks.that(f"{what}: it changed nothing", tree(folder) == held)
        # a life after it: a deletion in the joined block, a cut more, a repeat, and a join more
        labels, newest = next(iter(world.newest.items()))
        more = [
            Deletion([equals("n", "1")], 110, 120), Batch([(dict(labels), [newest])]),
            Batch([row(7, *[(1000 + k, k) for k in range(30)])]), Cut(1010),
        ]
        one = joined(world)
        server = them.start(folder)
        server.wait()
        for event in more:
            looks.at(f"{what}, after the join: {event.line()}", OK, server.tell(event), tell=False)
            world.apply(event)
            one.apply(event)
        them.says(f"{what}, a life after", server, one)
        server.end()
        looks.at(f"{what}: a join more", (0, f"{folder}: 2 blocks joined into 1\n", ""), them.join(folder))
        server = them.same(f"{what}, joined again", folder, world)
        them.merged(f"{what}, joined again", server, world)
        server.end()


def many(them, looks):
    """63 blocks take no cut, and take one after a join."""
    events = [Batch([row(k % 5, (10 * k, k), (10 * k + 5, -k))]) for k in range(64)]
    for k in range(1, 64):
        events.insert(2 * k - 1, Cut(10 * k))
    folder, world = them.lived(events)
    looks.at("the blocks of the world", 63, len(world.blocks))
    server = them.start(folder)
    looks.that("63 blocks: it starts", server.wait(), server.told)
    cut = Cut(636)
    looks.at("63 blocks: a cut", refused("E6"), server.tell(cut))
    them.says("63 blocks", server, world)
    before = [them.reply(server, question).rsplit(b'"rows":', 1)[1] for question in QUESTIONS]
    server.end()
    looks.at("63 blocks: the join", (0, f"{folder}: 63 blocks joined into 1\n", ""), them.join(folder))
    server = them.same("63 blocks, joined", folder, world)
    after = [them.reply(server, question).rsplit(b'"rows":', 1)[1] for question in QUESTIONS]
    looks.at("63 blocks, joined: the merged rows", before, after)
    looks.at("63 blocks, joined: the cut", OK, server.tell(cut))
    one = joined(world).apply(cut)
    them.says("63 blocks, joined and cut", server, one)
    server.end()
    looks.at(
        "63 blocks, joined and cut: the join",
        (0, f"{folder}: 2 blocks joined into 1\n", ""),
        them.join(folder),
    )
    looks.at(
        "63 blocks, joined and cut: once more",
        (0, f"{folder}: 1 block, none joined\n", ""),
        them.join(folder),
    )
    them.same("63 blocks, joined twice", folder, world.apply(cut)).end()


def large(them, looks):
    """A series of more samples than one block may have (1,048,576): each half of three blocks is joined by
    itself, and then nothing more."""
    each, folder, world, events = 360_000, them.folder(), World(), []
    for block in range(3):
        for first in range(block * each, (block + 1) * each, 4000):
            events.append(Batch([row(1, *[(time, time) for time in range(first, first + 4000)])]))
        events.append(Cut((block + 1) * each))
    for event in events:
        world.apply(event)
    os.mkdir(folder)
    with open(f"{folder}/journal", "wb") as file:
        file.write(journal([event.text() for event in events]))
    looks.at(
        "blocks that one may not have together",
        (0, f"{folder}: 3 blocks joined into 2\n", ""),
        them.join(folder),
    )
    halves, back = World(), World()
    back.blocks = world.blocks[1:]
    halves.blocks = [world.blocks[0], *joined(back).blocks]
    server = them.start(folder)
    looks.that("halves: it starts", server.wait(), server.told)
    them.says("halves", server, halves)
    server.end()
    them.there("halves", folder, halves, them.numbers(folder))
    held = tree(folder)
    looks.at("halves: once more", (0, f"{folder}: 2 blocks, none joined\n", ""), them.join(folder))
    looks.that("halves: nothing changed", tree(folder) == held)


def is_made(line):
    what, path, *how = line.split()
    return path != "lock" and (what == "make" or what == "open" and "create" in how)


def order(them, looks, base):
    """What is written is synced, and so are the folders in which it is made, before the journal has its new
    head; the old blocks go after that name is synced."""
    folder = them.copied(base)
    old = them.numbers(folder)
    status, _, _ = them.join(folder, TRACE=f"{folder}.trace")
    lines = lines_of(f"{folder}.trace")
    looks.at("the status of a join that is traced", 0, status)
    looks.that(
        "nothing of the store is looked at before the lock",
        lines.index("lock lock") < min(n for n, line in enumerate(lines) if line.split()[1] != "lock"),
        lines,
    )
    looks.at("how often the journal is renamed", 1, lines.count("rename journal"))
    renamed = lines.index("rename journal")
    before, after = lines[:renamed], lines[renamed + 1 :]
    new, = them.numbers(folder)
    wanted = {f"blocks/{new}/{name}" for name in ("chunks/000001", "index", "meta.json", "tombstones")} | {
        "journal.next"
    }
    looks.at("what is written", wanted, {line[6:] for line in lines if line.startswith("write ")} - {"lock"})
    looks.that(
        "all of it before the rename",
        wanted <= {line[6:] for line in before if line.startswith("write ")},
        lines,
    )
    made = 0
    for n, line in enumerate(before):
        path = line.split()[1]
        if line.startswith("write ") and path != "lock":
            looks.that(
                f"{path} is synced after it is written", f"sync {path}" in before[n:], lines, tell=False
            )
        if is_made(line):
            made += 1
            place = os.path.dirname(path) or "."
            looks.that(
                f"{place} is synced after {path} is made", f"sync {place}" in before[n:], lines, tell=False
            )
    looks.that("files and folders are made", made >= len(wanted) + 2, lines)
    gone = [n for n, line in enumerate(after) if line.startswith("remove blocks/")]
    looks.at(
        "the blocks that are removed", {str(number) for number in old}, {after[n].split("/")[1] for n in gone}
    )
    looks.that(
        "the new name is synced before anything is removed", gone and "sync ." in after[: gone[0]], lines
    )
    looks.that(
        "and nothing of a block before", not any(line.startswith("remove blocks/") for line in before), lines
    )


def either(them, looks, what, folder, world, late):
    """A start finds the store as it was, or joined."""
    server = them.start(folder)
    if looks.that(f"{what}: it starts", server.wait(), server.told, tell=False):
        them.says(what, server, joined(world) if late else world)
    server.end()


def again(them, looks, what, folder, world, late):
    """A second join over what the first left: it joins, or there is nothing to join, and what was not removed
    goes at the next roll."""
    wanted = "1 block, none joined" if late else f"{len(world.blocks)} blocks joined into 1"
    looks.at(f"{what}: a second join", (0, f"{folder}: {wanted}\n", ""), them.join(folder), tell=False)
    if not late:
        them.same(f"{what}, joined after it", folder, world).end()
        return
    one, cut = joined(world), Cut(10**5)
    server = them.start(folder)
    looks.that(f"{what}: it starts after it", server.wait(), server.told, tell=False)
    them.says(f"{what}, after it", server, one)
    looks.at(f"{what}: a cut after it", OK, server.tell(cut), tell=False)
    server.end()
    one.apply(cut)
    server = them.start(folder)
    looks.that(f"{what}: it starts after a cut", server.wait(), server.told, tell=False)
    them.says(f"{what}, after a cut", server, one)
    server.end()
    them.there(f"{what}, after a cut", folder, one, them.numbers(folder))


def is_late(them, folder):
    """Whether the journal begins with a head of one block, and has nothing behind it."""
    head, events = Head.read(contents_of(read(f"{folder}/journal"))[0])
    return len(head.numbers) == 1 and not events


def bases(them):
    """Stores of two blocks: one of which all is saved, one with deletions and a cut in its journal."""
    yield "saved", *them.lived(session()[:4], [])
    yield "with a journal", *them.lived(session()[:2], [*session()[2:4], Deletion([equals("n", "1")], 0, 20)])


def killed(them, looks):
    """A join is killed before each of its calls in turn, or in the middle of a write."""
    for what, base, world in bases(them):
        n, late = 0, 0
        while True:
            n += 1
            folder = them.copied(base)
            status, out, err = them.join(folder, KILL_AT=n)
            if status != -signal.SIGKILL:
                looks.at(
                    f"{what}: a join of {n - 1} calls",
                    (0, f"{folder}: {len(world.blocks)} blocks joined into 1\n", ""),
                    (status, out, err),
                )
                break
            looks.at(f"{what}, killed at call {n}: what it says", ("", ""), (out, err), tell=False)
            after = is_late(them, folder)
            late += after
            # half of them are joined again with no start between
            if n % 2:
                either(them, looks, f"{what}, killed at call {n}", folder, world, after)
            again(them, looks, f"{what}, killed at call {n}", folder, world, after)
            shutil.rmtree(folder)
        looks.that(
            f"{what}: it was killed before the new journal and after",
            late and n - 1 > 2 * late,
            (n - 1, late),
        )
        looks.say(f"{what}: {n - 1} joins were killed, {late} of them after the new journal had its name")


def failing(them, looks):
    """Each call of a join fails once: it says so with status 3 and the store is as it was, or joined; a lock
    that names nobody and a block that is not removed hinder nothing."""
    for what, base, world in bases(them):
        for kind in CALLS:
            ended, went_on = 0, 0
            for n in range(1, 300):
                name, number = list(ERRORS.items())[n % 2]
                folder = them.copied(base)
                kept, trace = f"{folder}.kept", f"{folder}.trace"
                status, out, err = them.join(
                    folder, **{f"FAIL_{kind}": f"{n},1", "FAIL_WITH": number, "KEPT": kept, "TRACE": trace})
                failed = int.from_bytes(read(kept)[32:40], "little")
                if not failed:
                    break
                lines = lines_of(trace)
                places = places_of(kind, lines)
                it = f"{what}: {lines[places[n - 1]]} ({kind.lower()} {n}) fails with {name}"
                after = is_late(them, folder)
                if hinders(lines, places[n - 1]):
                    them.cannot(it, (status, out, err))
                    ended += 1
                else:
                    looks.at(
                        f"{it}: what it says",
                        (0, f"{folder}: {len(world.blocks)} blocks joined into 1\n", ""),
                        (status, out, err),
                        tell=False,
                    )
                    looks.that(f"{it}: it is joined", after, tell=False)
                    went_on += 1
                if n % 4 < 2:
                    either(them, looks, it, folder, world, after)
                again(them, looks, it, folder, world, after)
                shutil.rmtree(folder)
            looks.that(
                f"{what}: each {kind.lower()} fails in turn", not failed and ended + went_on, (ended, went_on)
            )
            looks.say(
                f"{what}: each {kind.lower()} of a join failed in turn: "
                f"{ended} joins ended, {went_on} went on"
            )


def is_of_folder(line):
    """Whether a folder is opened or synced."""
    return re.fullmatch(r"(open|sync) (\.\.?|blocks(/\d+(/chunks)?)?)( r)?", line)


def places_of(kind, lines):
    """Where the calls of a kind that may fail are in a trace."""
    return [
        at for at, line in enumerate(lines)
        if line.startswith(CALLS[kind]) and line != "sync .."
        and (kind != "MAKE" or line.startswith("make ") or " create" in line or " empty" in line)
    ]


def hinders(lines, at):
    """Whether a join has to end if this call fails: not if it names the holder of the lock, or removes what
    is no more the store's, or syncs a folder after that."""
    what, path = lines[at].split()[:2]
    if path == "lock":
        return what == "open"
    while is_of_folder(lines[at]):
        at -= 1
    return not lines[at].startswith("remove ")


def full(them, looks, work):
    """The disk is full: the store stays as it was, and is joined when there is room again."""
    # blocks of some 100,000 bytes
    events = [Batch([row(n, *[(1000 * n + k, 2**62 - k) for k in range(1000)])]) for n in range(7)]
    for n in range(1, 7):
        events.insert(2 * n - 1, Cut(1000 * n))
    base, world = them.lived(events, [])
    with mounted(f"{work}/full", 1 << 20) as disk:
        if disk is None:
            looks.say("no tmpfs may be mounted here: the full disk is that of the preloaded library")
            if them.preload:
                folder = them.copied(base)
                status, out, err = them.join(folder, FAIL_ROOM=50000)
                looks.at("a full disk", (3, "", True), (status, out, err.startswith("cannot write ")))
                either(them, looks, "a full disk", folder, world, False)
            return
        folder, ballast = f"{disk}/data", f"{disk}/ballast"
        for room in (0, 4096, 20000, 60000, 90000):
            shutil.copytree(base, folder)
            held = tree(folder)
            with contextlib.suppress(OSError), open(ballast, "wb", 0) as file:
                while True:
                    file.write(bytes(4096))
            os.truncate(ballast, max(0, os.path.getsize(ballast) - room))
            status, out, err = them.join(folder)
            looks.at(
                f"a disk with {room} bytes of room", (3, "", f"cannot write {folder}\n"), (status, out, err)
            )
            looks.that("the journal is as it was", read(f"{folder}/journal") == held["journal"])
            now = tree(folder)
            looks.that("so are its blocks", all(now.get(name, 0) == data for name, data in held.items()))
            either(them, looks, "a full disk", folder, world, False)
            os.remove(ballast)
            looks.at("with room again", (0, f"{folder}: 6 blocks joined into 1\n", ""), them.join(folder))
            them.same("with room again", folder, world).end()
            shutil.rmtree(folder)


def refusals_in(told):
    """The codes that lines tell, and of which folder; of another line nothing."""
    lines = [re.fullmatch(r"refused (J\d+): .+ \(([^()]*)\)", line) for line in told.splitlines()]
    return [line and line.groups() for line in lines]


def not_joined(them, looks):
    """What is refused: a store that a server keeps, a folder without one, and one that is damaged."""
    base, world = them.lived(session(), [])
    folder = them.copied(base)
    server = them.start(folder)
    looks.that("a server", server.wait(), server.told)
    held = tree(folder)
    looks.at(
        "a join beside a server",
        (3, "", f"cannot lock {folder}: process {server.process.pid} has it\n"),
        them.join(folder),
    )
    looks.that("it changed nothing", tree(folder) == held)
    them.says("beside a join", server, world)
    looks.at("a batch beside a join", OK, server.tell(Batch([row(9, (10**6, 1))])))
    with open(f"{folder}/lock", "wb"):
        pass
    looks.at(
        "a join beside a server, if the lock names none",
        (3, "", f"cannot lock {folder}: another process has it (see the file lock there)\n"),
        them.join(folder),
    )
    server.end()

    folder = them.folder()
    looks.at("a folder that is not there", (3, "", f"cannot write {folder}/lock\n"), them.join(folder))
    looks.that("it is not made", not os.path.exists(folder))
    os.mkdir(folder)
    looks.at("an empty folder", (3, "", f"cannot read {folder}/journal\n"), them.join(folder))
    looks.at("what it has then", {}, tree(folder))
    folder = them.copied(base)
    os.remove(f"{folder}/journal")
    held = tree(folder)
    looks.at("blocks without a journal", (3, "", f"cannot read {folder}/journal\n"), them.join(folder))
    looks.that("they stay", tree(folder) == held)
    for words in [[], [base, base], ["--into", "x", base], ["--data", base]]:
        status, out, err = run([them.blocktool, "join", *words])
        looks.at(f"the words {' '.join(words)[-30:]!r}", (2, "", True), (status, out, "Usage: " in err))

    sound = read(f"{base}/journal")
    head = Head.read(contents_of(sound)[0])[0]
    batch = Batch([row(1, (450, 1))]).text()
    for what, data, code, place in [
        ("another magic", b"FZLK" + sound[4:], "J1", 0),
        ("another version", sound[:4] + b"\x02" + sound[5:], "J2", 4), ("a journal of no byte", b"", "J1", 0),
        ("a journal of no record", sound[:5], "J8", 0),
        ("a length that is changed", sound[:5] + bytes([sound[5] ^ 1]) + sound[6:], "J4", 5),
        ("a content that is changed", sound[:13] + bytes([sound[13] ^ 1]) + sound[14:], "J3", 5),
        (
            "a block that is not there", journal([], Head(head.floor, [1, 2, 9], head.series).contents()),
            "J15", 9,
        ),
        ("a block above the floor", journal([], Head(99, [1]).contents()), "J17", 0),
        (
            "a sample that is refused",
            journal([batch, batch, Batch([row(1, (449, 1))]).text()], head.contents()), "J18", 2,
        ),
    ]:
        folder = them.copied(base)
        with open(f"{folder}/journal", "wb") as file:
            file.write(data)
        held = tree(folder)
        status, out, err = them.join(folder)
        looks.at(what, (1, "", [(code, folder)]), (status, out, refusals_in(err)))
        looks.that(f"{what}: it stays", tree(folder) == held, tell=False)
        server = them.start(folder)
        server.wait()
        looks.at(
            f"{what}: a server", (1, f"refused {code} at {place}"), (server.end(), server.told), tell=False
        )
    for name in ("meta.json", "index", "chunks/000001", "tombstones"):
        folder = them.copied(base)
        path = f"{folder}/blocks/2/{name}"
        data = read(path)
        for what, change, code in [("cut short", data[: len(data) // 2], "J16"), ("missing", None, "J15")]:
            os.remove(path)
            if change is not None:
                with open(path, "wb") as file:
                    file.write(change)
            held = tree(folder)
            status, out, err = them.join(folder)
            looks.at(f"{name} is {what}", (1, "", [(code, folder)]), (status, out, refusals_in(err)))
            looks.that(f"{name} is {what}: it stays", tree(folder) == held, tell=False)


def others(them, looks):
    """A store of no block or one, a journal of events alone, a torn end, blocks without a sample, and what is
    not the store's."""
    folder, world = them.lived([])
    held = tree(folder)
    looks.at("an empty store", (0, f"{folder}: 0 blocks, none joined\n", ""), them.join(folder))
    looks.that("it stays", tree(folder) == held)
    folder, world = them.lived(session(), [])
    with open("/dev/full", "wb") as nowhere:
        done = subprocess.run(
            [them.blocktool, "join", folder], stdout=nowhere, stderr=subprocess.PIPE, timeout=120
        )
    looks.at(
        "a join that cannot tell what it did",
        (3, b"cannot write the lines\n"),
        (done.returncode, done.stderr),
    )
    them.same("a join that cannot tell what it did", folder, world).end()
    folder, world = them.lived(session()[:1])
    looks.at("a store without a block", (0, f"{folder}: 0 blocks, none joined\n", ""), them.join(folder))
    looks.that(
        "what its journal had is saved",
        read(f"{folder}/journal") == journal([], Head.of(world, []).contents()),
    )
    them.same("a store without a block", folder, world).end()
    folder, world = them.lived(session()[:2])
    looks.at("a store of one block", (0, f"{folder}: 1 block, none joined\n", ""), them.join(folder))
    them.same("a store of one block", folder, world, [1]).end()

    # of the form of before, with a record that was cut short
    folder, world = them.folder(), World()
    os.mkdir(folder)
    for event in session():
        world.apply(event)
    torn = record(Batch([row(8, (900, 1))]).text())[:-3]
    with open(f"{folder}/journal", "wb") as file:
        file.write(journal([event.text() for event in session()], ()) + torn)
    looks.at("a journal of events alone", (0, f"{folder}: 3 blocks joined into 1\n", ""), them.join(folder))
    them.same("a journal of events alone", folder, world, [4]).end()
    for what, phases in [("a torn end", [session(), []]), ("a torn end behind events", [session(), later()])]:
        folder, world = them.lived(*phases)
        with open(f"{folder}/journal", "ab") as file:
            file.write(torn)
        looks.at(what, (0, f"{folder}: {len(world.blocks)} blocks joined into 1\n", ""), them.join(folder))
        them.same(what, folder, world).end()

    # all of two blocks is deleted, and of one of three
    for what, first, end in [("blocks without a sample", 0, 199), ("one block without a sample", 100, 199)]:
        folder, world = them.lived(session(), [Deletion([equals("suite", "durable")], first, end)])
        looks.at(what, (0, f"{folder}: 3 blocks joined into 1\n", ""), them.join(folder))
        them.same(what, folder, world).end()
    folder, world = them.lived(session(), [Deletion([equals("suite", "durable")], 0, 499)])
    looks.at(
        "nothing but blocks without a sample",
        (0, f"{folder}: 3 blocks joined into 1\n", ""),
        them.join(folder),
    )
    them.same("nothing but blocks without a sample", folder, world).end()

    # what a roll left that was cut off goes, all else stays
    folder, world = them.lived(session(), [])
    stays = {
        "blocks/notes": b"mine",
        "blocks/7x/index": b"x",
        "blocks/2/mine": b"mine",
        "notes": b"mine",
        "journal.old": b"mine",
    }
    for name, data in [
        *stays.items(), ("blocks/8/index", b"x"), ("blocks/4/index", b"half"), ("journal.next", b"half"),
    ]:
        os.makedirs(os.path.dirname(f"{folder}/{name}"), exist_ok=True)
        with open(f"{folder}/{name}", "wb") as file:
            file.write(data)
    looks.at("strangers", (0, f"{folder}: 3 blocks joined into 1\n", ""), them.join(folder))
    now = tree(folder)
    looks.at("what stays", stays, {name: now.get(name) for name in stays})
    looks.at("the folders of blocks", ["2", "4", "7x", "notes"], sorted(os.listdir(f"{folder}/blocks")))
    looks.at("what is left of a block that was joined", ["mine"], os.listdir(f"{folder}/blocks/2"))
    looks.that("what a roll left is gone", "journal.next" not in now)
    server = them.start(folder)
    looks.that("strangers: it starts", server.wait(), server.told)
    them.says("strangers", server, joined(world))
    server.end()


def joining(looks, querier, others_of, preload, work):
    them = Joins(looks, querier, others_of, preload, work)
    lives(them, looks)
    many(them, looks)
    others(them, looks)
    not_joined(them, looks)
    full(them, looks, work)
    large(them, looks)
    if preload:
        order(them, looks, them.lived(session(), [])[0])
        killed(them, looks)
        failing(them, looks)
    else:
        looks.say("there is no C compiler: joins that are killed or fail are left")
