"""Blocks in the folder of a store: a start writes those of its cuts there and begins the journal anew,
whatever step of it is the last; what is damaged is refused and left as it is, and what is not the store's
stays."""
import os
import shutil
import signal

from house import (
    OK, Batch, Cut, Deletion, Folders, Head, Server, World, differences, equals, journal, read, recovered,
    rolled, run, tree,
)
from read_block import block as read_block


def row(n, *samples):
    return {"__name__": "cut", "n": str(n), "suite": "durable"}, list(samples)


def session():
    """Three blocks and a head; of the second block something is deleted before it is cut."""
    return [
        Batch([row(1, *[(k, 10 * k) for k in range(300)]), row(2, (5, -1))]),
        Cut(100),
        Deletion([equals("n", "1")], 150, 160),
        Cut(200),
        Batch([row(3, *[(200 + k, 2**40 + k) for k in range(150)]), row(1, (400, 7))]),
        Cut(260),
        Batch([row(2, (500, 5))]),
    ]


class Blocks(Folders):
    def start(self, folder, *words, **how):
        return Server(self.querier, "--data", folder, *words, env=self.failing(folder, how))

    def says(self, what, server, world):
        parts, rows = server.select()
        self.looks.that(
            f"{what}: the samples", rows == world.rows(), differences(world.rows(), rows), tell=False
        )
        self.looks.that(f"{what}: the parts", parts == world.parts(),
                        f"{[sum(map(len, part.values())) for part in parts]}", tell=False)

    def there(self, what, folder, world, numbers):
        """The folder has these blocks and no others, and their bytes are those of what was cut."""
        names = [f"{folder}/blocks/{number}" for number in numbers]
        self.looks.at(
            f"{what}: the folders of blocks",
            sorted(map(str, numbers)),
            sorted(os.listdir(f"{folder}/blocks")),
            tell=False,
        )
        status, out, err = run([self.querier, "check", *names])
        self.looks.at(f"{what}: check", (0, len(names), ""), (status, out.count(": ok "), err), tell=False)
        for name, part in zip(names, world.parts()):
            found = {labels: dict(samples) for labels, samples in read_block(name).items()}
            self.looks.that(
                f"{what}: the bytes of {name}", found == part, differences(part, found), tell=False
            )

    def kept(self, events):
        """A folder with a journal of these events, of which none was rolled; and their world."""
        folder, world = self.folder(), World()
        server = self.start(folder)
        server.wait()
        for event in events:
            self.looks.at(event.line()[:60], OK, server.tell(event), tell=False)
            world.apply(event)
        server.end()
        return folder, world

    def again(self, what, folder, said, world, numbers, count=1, *words):
        """A start that says these lines, and then what it has."""
        server = self.start(folder, *words)
        if self.looks.that(f"{what}: it starts", server.wait(), server.told, tell=False):
            self.looks.at(f"{what}: what it says", said, server.first_lines(count), tell=False)
            head = Head.of(world, numbers)
            self.looks.that(
                f"{what}: the journal", read(f"{folder}/journal") == journal([], head.contents()), tell=False
            )
            self.says(what, server, world)
        return server


def cuts(them, looks):
    """Blocks of cuts: they are written once, and each again after a deletion from it."""
    folder, world = them.kept(session())
    looks.that("no start, no block", not os.path.exists(f"{folder}/blocks"))
    numbers = [1, 2, 3]
    said = [recovered(len(session())), rolled(folder, Head.of(world, numbers))]
    server = them.again("the first start after cuts", folder, said, world, numbers, 2)
    them.there("the first start after cuts", folder, world, numbers)
    held = tree(folder)
    server.end()
    server = them.again("the second start", folder, [recovered(0, blocks=3)], world, numbers)
    looks.that("the second start changed nothing", tree(folder) == held)
    more = [Batch([row(4, *[(600 + k, k) for k in range(40)])]), Cut(620)]
    for event in more:
        looks.at(event.line(), OK, server.tell(event), tell=False)
        world.apply(event)
    server.end()
    first = {name: data for name, data in held.items() if name.startswith("blocks/")}
    numbers = [1, 2, 3, 4]
    server = them.again(
        "after one cut more", folder, [recovered(2, blocks=3), rolled(folder, Head.of(world, numbers))],
        world, numbers, 2,
    )
    them.there("after one cut more", folder, world, numbers)
    now = tree(folder)
    looks.that(
        "blocks that lay there stay as they were",
        all(now.get(name, 0) == data for name, data in first.items()),
    )
    more = [Deletion([equals("n", "1")], 0, 20), Cut(650)]
    for event in more:
        looks.at(event.line(), OK, server.tell(event), tell=False)
        world.apply(event)
    server.end()
    numbers = [5, 2, 3, 4, 6]
    server = them.again(
        "after a deletion", folder, [recovered(2, blocks=4), rolled(folder, Head.of(world, numbers))], world,
        numbers, 2,
    )
    them.there("after a deletion", folder, world, numbers)
    last = tree(folder)
    others = [name for name in now if name.startswith(("blocks/2/", "blocks/3/", "blocks/4/"))]
    looks.that(
        "blocks from which nothing was deleted stay as they were",
        others and all(last.get(name, 0) == now[name] for name in others),
    )
    server.end()
    server = them.again("and once more", folder, [recovered(0, blocks=5)], world, numbers)
    server.end()
    status, out, err = run([them.querier, "journal", folder])
    looks.at(
        "what journal says of a head",
        (0, Head.of(world, numbers).line(), ""),
        (status, out.splitlines()[0], err),
    )
    # a deletion that leaves a block nothing
    server = them.start(folder)
    server.wait()
    for event in [Deletion([equals("suite", "durable")], 0, 99), Cut(660)]:
        looks.at(event.line(), OK, server.tell(event), tell=False)
        world.apply(event)
    server.end()
    numbers = [7, 2, 3, 4, 6, *range(8, 3 + len(world.blocks))]
    server = them.again(
        "an empty block", folder, [recovered(2, blocks=5), rolled(folder, Head.of(world, numbers))], world,
        numbers, 2,
    )
    server.end()


def long_journals(them, looks):
    """A journal that is longer than --journal-mb is begun anew without a cut; one that is not stays."""
    folder, world = them.kept(
        [Batch([row(n, *[(k, 2**62 - n - k) for k in range(4000)])]) for n in range(28)]
    )
    size = os.path.getsize(f"{folder}/journal")
    looks.that("a journal between one MB and two", 2**20 < size < 2**21, size)
    for words in [(), ("--journal-mb", "2"), ("--journal-mb", "1048576")]:
        server = them.start(folder, *words)
        looks.that(f"a start {' '.join(words)}", server.wait(), server.told, tell=False)
        looks.at(f"what it says {' '.join(words)}", [recovered(28)], server.first_lines(1))
        server.end()
        looks.at("it is not begun anew", size, os.path.getsize(f"{folder}/journal"))
    head = Head.of(world, [])
    server = them.again(
        "--journal-mb 1", folder, [recovered(28), rolled(folder, head)], world, [], 2, "--journal-mb", "1"
    )
    server.end()
    server = them.again(
        "--journal-mb 1 without an event", folder, [recovered(0)], world, [], 1, "--journal-mb", "1"
    )
    server.end()


def before(them, looks):
    """A journal of the form of before, which has no head, is read, and gets one."""
    for what, events in [("events", session()[:1]), ("cuts", session())]:
        folder, world = them.folder(), World()
        os.mkdir(folder)
        with open(f"{folder}/journal", "wb") as file:
            file.write(journal([event.text() for event in events], ()) + b"\x00\x00")
        status, out, _ = run([them.querier, "journal", folder])
        looks.at(
            f"what journal says of {what} without a head",
            (0, f"1 {events[0].line()}"),
            (status, out.splitlines()[0]),
        )
        server = them.start(folder)
        for event in events:
            world.apply(event)
        if looks.that(f"{what} without a head: it starts", server.wait(), server.told):
            looks.at(f"{what} without a head: what it says", recovered(len(events)), server.first_told())
            them.says(f"{what} without a head", server, world)
        server.end()
        if what == "events":
            looks.that(
                "it has a head", read(f"{folder}/journal") == journal([event.text() for event in events])
            )
        else:
            them.there("cuts without a head", folder, world, [1, 2, 3])


def killed(them, looks):
    """A start that rolls is killed before each of its calls in turn, or in the middle of a write."""
    for what, more in [
        ("cuts", []),
        ("cuts and a deletion", [Deletion([equals("n", "3")], 0, 210), Cut(300)]),
    ]:
        base, world = them.kept(session())
        numbers, said = [1, 2, 3], [recovered(len(session()))]
        if more:
            server = them.again(what, base, said, world, numbers)
            for event in more:
                looks.at(event.line(), OK, server.tell(event), tell=False)
                world.apply(event)
            server.end()
            numbers, said = [1, 2, 4, 5], [recovered(2, blocks=3)]
        ended, n, late = 0, 0, 0
        while True:
            n += 1
            folder = them.folder()
            shutil.copytree(base, folder)
            server = them.start(folder, KILL_AT=n)
            if server.wait():
                server.end()
                break
            looks.at(f"{what}, killed at call {n}: the status", -signal.SIGKILL, server.ended(), tell=False)
            ended += 1
            is_late = read(f"{folder}/journal") != read(f"{base}/journal")
            late += is_late
            line = [recovered(0, blocks=len(numbers))] if is_late else said
            server = them.again(f"{what}, killed at call {n}", folder, line, world, numbers)
            if not is_late:
                them.there(f"{what}, killed at call {n}", folder, world, numbers)
            event = Batch([row(9, (10**6, 1))])
            looks.at(f"{what}, killed at call {n}: a batch after it", OK, server.tell(event), tell=False)
            server.end()
            shutil.rmtree(folder)
        looks.that(
            f"{what}: a start was killed at each of its calls, before the new journal and after",
            late and ended > late,
            (ended, late),
        )
        looks.say(f"{what}: {ended} starts were killed, {late} of them after the rename")


def failing(them, looks):
    """A start that rolls, of which each write, sync and removal fails in turn: it serves, or nothing is
    lost."""
    base, world = them.kept(session())
    for kind in ("WRITE", "SYNC"):
        ended, not_rolled = 0, 0
        for n in range(1, 200):
            folder = them.folder()
            shutil.copytree(base, folder)
            server = them.start(folder, **{f"FAIL_{kind}": f"{n},1", "KEPT": f"{folder}.kept"})
            what = f"{kind.lower()} {n} of a roll fails"
            if server.wait():
                lines = server.first_lines(2)
                them.says(what, server, world)
                is_not = len(lines) > 1 and lines[1].startswith(f"did not roll {folder}/journal: ")
                not_rolled += is_not
                if is_not:
                    event = Batch([row(9, (10**6, 1))])
                    looks.at(f"{what}: a batch after it", OK, server.tell(event), tell=False)
                server.end()
            else:
                looks.at(f"{what}: the status", 3, server.ended(), tell=False)
                ended += 1
            server = them.start(folder)
            looks.that(f"{what}: a new start", server.wait(), server.told, tell=False)
            server.end()
            failed = int.from_bytes(read(f"{folder}.kept")[32:40], "little")
            shutil.rmtree(folder)
            if not failed:
                break
        looks.that(f"each {kind.lower()} of a roll fails in turn", not_rolled > 3, not_rolled)
        looks.say(
            f"each {kind.lower()} of a roll failed in turn: {not_rolled} starts did not roll, {ended} ended"
        )


def damaged(them, looks):
    """A file of a block that is missing or changed."""
    base, world = them.kept(session())
    server = them.start(base)
    server.wait()
    server.end()
    names = ["meta.json", "index", "chunks/000001", "tombstones"]
    for number in (1, 2, 3):
        for name in names:
            folder = them.folder()
            shutil.copytree(base, folder)
            path = f"{folder}/blocks/{number}/{name}"
            os.remove(path)
            refused(them, looks, f"{name} of block {number} is missing", folder, f"J15 at {number}")
            for what, change in [
                ("empty", lambda data: b""),
                ("cut short", lambda data: data[: len(data) // 2]),
                (
                    "changed",
                    lambda data: data[: len(data) // 2]
                    + bytes([data[len(data) // 2] ^ 1])
                    + data[len(data) // 2 + 1 :],
                ),
            ]:
                data = read(f"{base}/blocks/{number}/{name}")
                with open(path, "wb") as file:
                    file.write(change(data))
                if name == "meta.json" and what == "changed":
                    continue
                refused(them, looks, f"{name} of block {number} is {what}", folder, f"J16 at {number}")
            shutil.rmtree(folder)
    folder = them.folder()
    shutil.copytree(base, folder)
    shutil.rmtree(f"{folder}/blocks")
    refused(them, looks, "no folder of blocks", folder, "J15 at 1")
    folder = them.folder()
    shutil.copytree(base, folder)
    for name in ("index", "chunks/000001"):
        shutil.copyfile(f"{base}/blocks/1/{name}", f"{folder}/blocks/2/{name}")
    refused(them, looks, "a block in the place of another", folder, "J16 at 2")
    # a head that names a block twice, and one that is not there
    for numbers, code in [
        ([1, 1], None), ([1, 2, 3, 4], "J15 at 4"), ([0], "J15 at 0"), ([2**64 - 1], f"J15 at {2**64 - 1}"),
    ]:
        folder = them.folder()
        shutil.copytree(base, folder)
        with open(f"{folder}/journal", "wb") as file:
            file.write(journal([], Head(10**6, numbers).contents()))
        if code:
            refused(them, looks, f"a head of the blocks {numbers}", folder, code)
        else:
            server = them.start(folder)
            looks.that(f"a head of the blocks {numbers}", server.wait(), server.told)
            server.end()
    # blocks above the floor
    folder = them.folder()
    shutil.copytree(base, folder)
    with open(f"{folder}/journal", "wb") as file:
        file.write(journal([], Head(99, [1]).contents()))
    refused(them, looks, "a block above the floor", folder, "J17 at 0")


def refused(them, looks, what, folder, code):
    held = tree(folder)
    for _ in range(2):
        server = them.start(folder)
        server.wait()
        looks.at(
            what, (1, f"refused {code}", True), (server.end(), server.told, tree(folder) == held), tell=False
        )


def strangers(them, looks):
    """What stands beside the blocks: what a roll left that was cut off is removed by the next one, all else
    stays."""
    folder, world = them.kept(session())
    left = {
        "blocks/3/chunks/000001": b"half", "blocks/3/index": b"", "blocks/8/meta.json": b"{",
        "blocks/9/chunks/": None, "blocks/08/index": b"x",
    }
    stays = {
        "blocks/notes": b"mine", "blocks/7x/index": b"x", "blocks/77/mine": b"mine",
        "blocks/78/chunks/000002": b"mine", "blocks/1/mine": b"mine",
        "notes": b"mine",
        "journal.old": b"mine",
    }
    for name, data in [*left.items(), *stays.items(), ("blocks/77/index", b"x")]:
        os.makedirs(os.path.dirname(f"{folder}/{name}"), exist_ok=True)
        if data is not None:
            with open(f"{folder}/{name}", "wb") as file:
                file.write(data)
    server = them.start(folder)
    looks.that("strangers: it starts", server.wait(), server.told)
    them.says("strangers", server, world)
    server.end()
    now = tree(folder)
    looks.at("what stays", stays, {name: now.get(name) for name in stays})
    files = ("chunks/", "chunks/000001", "index", "meta.json", "tombstones")
    wanted = {f"blocks/{n}/{name}" for n in (1, 2, 3) for name in files} | {"journal", "blocks/"} | set(stays)
    for name in list(wanted):
        while name := os.path.dirname(name.rstrip("/")):
            wanted.add(f"{name}/")
    looks.at("what is there", sorted(wanted), sorted(now))
    os.rename(f"{folder}/journal", f"{folder}.aside")
    held = tree(folder)
    for _ in range(2):
        server = them.start(folder)
        server.wait()
        looks.at("blocks of which the journal is not there", (3, f"cannot read {folder}/journal", True),
                 (server.end(), server.told, tree(folder) == held))
    os.rename(f"{folder}.aside", f"{folder}/journal")
    alone = them.folder()
    os.makedirs(f"{alone}/blocks/notes")
    server = them.start(alone)
    looks.that("what is no block, and no journal: it starts", server.wait(), server.told)
    looks.at("what it says", [f"began {alone}/journal"], server.first_lines(1))
    server.end()
    names = [f"{folder}/blocks/{n}" for n in (1, 2, 3)]
    looks.at(
        "check of the blocks",
        (0, 3),
        (lambda done: (done[0], done[1].count(": ok ")))(run([them.querier, "check", *names])),
    )


def blocks(looks, querier, preload, work):
    them = Blocks(looks, querier, preload, work)
    cuts(them, looks)
    long_journals(them, looks)
    before(them, looks)
    damaged(them, looks)
    strangers(them, looks)
    if preload:
        killed(them, looks)
        failing(them, looks)
    else:
        looks.say("there is no C compiler: starts that are killed or fail are left")
