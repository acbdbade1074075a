"""`blocktool add` to a store that no server keeps: the store has the samples of the blocks beneath its own,
whichever call of it is the last or fails; and what is refused stays as it is."""
import copy
import json
import os
import shutil
import signal
import subprocess

from blocks import row, session
from house import (
    OK, Batch, Cut, Deletion, Head, World, contents_of, equals, journal, lines_of, read, recovered, refused,
    run, set_of, tree,
)
from joining import CALLS, ERRORS, Joins, hinders, places_of, refusals_in


def part_of(rows):
    """The samples of a block of these rows."""
    part = {}
    for labels, samples in rows:
        part.setdefault(set_of(labels), {}).update(samples)
    return part


def end_of(part):
    """Where the range of a block of these samples ends."""
    return 1 + max(time for samples in part.values() for time in samples)


def added(world, *parts):
    """The same world with these blocks before its own."""
    other = copy.deepcopy(world)
    other.blocks = [*map(copy.deepcopy, parts), *other.blocks]
    other.floor = max([world.floor, *map(end_of, parts)])
    return other


# two blocks that overlap each other and the store's: of the second one sample is another, and so are some of
# the store's
EARLY = [row(1, (-50, 3), (-7, -4), (5, 999), (120, 998)), row(8, (0, 8), (70, 2**62))]
LATE = [row(1, (-50, 4), (30, 997), (155, 996)), row(9, (90, -(2**63)))]


class Adds(Joins):
    def add(self, folder, *blocks, **how):
        """An addition, to its end."""
        return run([self.blocktool, "add", folder, *blocks], self.failing(folder, how))

    def block(self, rows, *words):
        """The directory of a block of rows, which `blocktool from-rows` makes of the body of a write; and its
        samples."""
        self.count += 1
        into, file = f"{self.work}/made{self.count}", f"{self.work}/rows{self.count}"
        with open(file, "w", encoding="utf-8") as out:
            out.write(json.dumps([{"labels": labels, "samples": samples} for labels, samples in rows]))
        status, _, err = run([self.blocktool, "from-rows", *words, "--into", into, file])
        self.looks.at("a block is made", (0, ""), (status, err), tell=False)
        return f"{into}/0001", part_of(rows)

    def empty(self):
        folder = self.folder()
        os.mkdir(folder)
        return folder

    def has(self, what, folder, world):
        """A start over the folder says this world, of which all is saved, and its blocks lie there and are
        sound."""
        server = self.start(folder)
        if self.looks.that(f"{what}: it starts", server.wait(), server.told, tell=False):
            count = len(world.blocks)
            self.looks.at(
                f"{what}: what it says", [recovered(0, blocks=count)], server.first_lines(1), tell=False
            )
            self.says(what, server, world)
            found = self.numbers(folder)
            self.looks.at(f"{what}: how many blocks there are", count, len(found), tell=False)
            head = Head.of(world, found)
            self.looks.that(
                f"{what}: the journal", read(f"{folder}/journal") == journal([], head.contents()), tell=False
            )
            self.there(what, folder, world, found)
        return server


def done(folder, count, total):
    """What an addition says."""
    return 0, f"{folder}: {count} block{'' if count == 1 else 's'} added, {total} in all\n", ""


def lives(them, looks):
    """Blocks are added to an empty folder, to a store without blocks and to one of several cuts, and the
    store goes on."""
    early, early_part = them.block(EARLY)
    late, late_part = them.block(LATE)
    # of the series n="1" the value at 120, which the store and the first block have, and the one at 155,
    # which was deleted of the stores that had it
    for what, folder, world, wanted in [
        ("an empty folder", them.empty(), World(), (998, 996)),
        ("a store that has nothing", *them.lived([]), (998, 996)),
        ("a saved store", *them.lived(session(), []), (1200, 996)),
        ("a store with a journal", *them.lived(session()), (1200, 996)),
        (
            "a store with deletions",
            *them.lived(session(), [Deletion([equals("n", "1")], 0, 170), Batch([row(5, (700, 1))])]),
            (998, 996),
        ),
    ]:
        total = 2 + len(world.blocks)
        looks.at(f"{what}: two blocks", done(folder, 2, total), them.add(folder, early, late))
        after = added(world, early_part, late_part)
        held = tree(folder)
        server = them.has(what, folder, after)
        looks.that(f"{what}: a start changed nothing", tree(folder) == held)
        found = server.select()[1][set_of(row(1)[0])]
        looks.at(f"{what}: whose samples stand", (*wanted, 4), (found[120], found[155], found[-50]))
        them.audited(what, server, folder)
        below = Batch([row(9, (after.floor - 1, 1))])
        looks.at(f"{what}: a sample below the floor", refused("E1", 0), server.tell(below))
        more = [
            Batch([row(9, (2000, 1)), row(8, (2000, 2))]),
            Deletion([equals("n", "9")], 0, 100),
            Cut(1999),
        ]
        for event in more:
            looks.at(f"{what}, after it: {event.line()}", OK, server.tell(event), tell=False)
            after.apply(event)
        them.says(f"{what}, a life after", server, after)
        server.end()
        # its own blocks may be given again
        total = len(after.blocks)
        one = f"{folder}/blocks/{them.numbers(folder)[0]}"
        first = copy.deepcopy(after.blocks[0])
        looks.at(f"{what}: one block more", done(folder, 1, total + 1), them.add(folder, one))
        again = copy.deepcopy(after)
        again.blocks.insert(0, first)
        server = them.has(f"{what}, one block more", folder, again)
        server.end()
        looks.at(
            f"{what}: a join", (0, f"{folder}: {total + 1} blocks joined into 1\n", ""), them.join(folder)
        )
        server = them.start(folder)
        looks.that(f"{what}, joined: it starts", server.wait(), server.told, tell=False)
        looks.that(f"{what}, joined: the samples", server.select()[1] == after.rows())
        server.end()


def deleted(them, looks):
    """A block with deletions: what is deleted is not added, and what is deleted of the store hides nothing of
    a block."""
    other, world = them.lived(session(), [Deletion([equals("n", "1")], 40, 60), Cut(10**4)], [])
    folder, own = them.lived(
        [Batch([row(1, (45, 1), (46, 2))]), Cut(50), Deletion([equals("n", "1")], 45, 45)]
    )
    names = [f"{other}/blocks/{number}" for number in them.numbers(other)]
    looks.at("blocks of another store", done(folder, len(names), len(names) + 1), them.add(folder, *names))
    after = added(own, *world.blocks)
    server = them.start(folder)
    looks.that("blocks of another store: it starts", server.wait(), server.told)
    looks.that("blocks of another store: the samples", server.select()[1] == after.rows())
    server.end()


def not_added(them, looks):
    """What is refused, and stays as it is."""
    early, part = them.block(EARLY)
    tall, _ = them.block([row(1, (10**6, 1))])
    base, world = them.lived(session(), [])

    def stays(what, wanted, folder, *blocks):
        held = tree(folder)
        got = them.add(folder, *blocks)
        looks.at(what, wanted, got)
        looks.that(f"{what}: nothing changed", tree(folder) == held, tell=False)

    folder = them.copied(base)
    server = them.start(folder)
    looks.that("a server", server.wait(), server.told)
    stays(
        "a store that a server keeps",
        (3, "", f"cannot lock {folder}: process {server.process.pid} has it\n"), folder, early,
    )
    server.end()
    folder = them.folder()
    looks.at("a folder that is not there", (3, "", f"cannot write {folder}/lock\n"), them.add(folder, early))
    looks.that("it is not made", not os.path.exists(folder))
    # of the head a sample lies at 500
    folder = them.copied(base)
    stays(
        "a block that ends above samples of the head",
        (1, "", f"refused: {folder} has samples before {10**6 + 1} that were not cut\n"), folder, early, tall,
    )
    server = them.start(folder)
    looks.that("it starts", server.wait(), server.told)
    looks.at("they are cut", OK, server.tell(Cut(501)))
    server.end()
    looks.at("then it is added", done(folder, 2, 6), them.add(folder, early, tall))
    folder = them.empty()
    looks.at("63 blocks", done(folder, 63, 63), them.add(folder, *[early] * 63))
    stays("one block more", (1, "", "refused: there would be 64 blocks, and 63 is the most\n"), folder, early)
    stays(
        "64 blocks", (1, "", "refused: there would be 64 blocks, and 63 is the most\n"), folder, *[early] * 64
    )
    digits, _ = them.block(EARLY, "--decimals", "3")
    stays(
        "blocks of other digits", (1, "", f"refused: values with other digits in {digits}\n"), folder, early,
        digits,
    )
    folder = them.copied(base)
    for name, code in [("index", "I"), ("chunks/000001", "C"), ("tombstones", "T"), ("meta.json", "B")]:
        broken = f"{them.work}/broken-{code}"
        shutil.copytree(early, broken)
        data = read(f"{broken}/{name}")
        with open(f"{broken}/{name}", "wb") as file:
            file.write(data[: len(data) // 2])
        held = tree(folder)
        status, out, err = them.add(folder, early, broken)
        looks.that(
            f"a block of which {name} is cut short",
            (status, out) == (1, "") and err.startswith(f"refused {code}") and err.endswith(f" ({broken})\n"),
            (status, out, err),
        )
        looks.that(f"{name} is cut short: nothing changed", tree(folder) == held, tell=False)
        os.remove(f"{broken}/{name}")
        stays(f"a block without {name}", (3, "", f"cannot read {broken}/{name}\n"), folder, broken)
    os.rename(f"{folder}/journal", f"{folder}.aside")
    stays(
        "blocks of which the journal is not there", (3, "", f"cannot read {folder}/journal\n"), folder, early
    )
    os.rename(f"{folder}.aside", f"{folder}/journal")
    with open(f"{folder}/journal", "r+b") as file:
        file.write(b"FZLK")
    held = tree(folder)
    status, out, err = them.add(folder, early)
    looks.at("a damaged journal", (1, "", [("J1", folder)]), (status, out, refusals_in(err)))
    looks.that("it stays", tree(folder) == held)
    for words in [[], [base], ["--into", "x", base, early]]:
        status, out, err = run([them.blocktool, "add", *words])
        looks.at(f"the words {' '.join(words)[-30:]!r}", (2, "", True), (status, out, "Usage: " in err))
    folder = them.copied(base)
    with open("/dev/full", "wb") as nowhere:
        ended = subprocess.run(
            [them.blocktool, "add", folder, early], stdout=nowhere, stderr=subprocess.PIPE, timeout=120
        )
    looks.at(
        "an addition that cannot tell what it did",
        (3, b"cannot write the lines\n"),
        (ended.returncode, ended.stderr),
    )
    them.has("an addition that cannot tell what it did", folder, added(world, part)).end()


def is_late(folder, total):
    """Whether the journal begins with a head of all blocks."""
    if not os.path.exists(f"{folder}/journal"):
        return False
    head, _ = Head.read(contents_of(read(f"{folder}/journal"))[0])
    return len(head.numbers) == total


def bases(them):
    """An empty folder, and a store of two blocks with deletions and a cut in its journal."""
    yield "an empty folder", them.empty(), World()
    yield "a store", *them.lived(session()[:2], [*session()[2:4], Deletion([equals("n", "1")], 0, 20)])


def either(them, looks, what, folder, worlds, late, early):
    """A start finds the store as it was, or with the blocks; and what was not added is added then."""
    server = them.start(folder)
    if looks.that(f"{what}: it starts", server.wait(), server.told, tell=False):
        them.says(what, server, worlds[late])
    server.end()
    if not late:
        looks.at(
            f"{what}: again", done(folder, 1, len(worlds[1].blocks)), them.add(folder, early), tell=False
        )
        them.has(f"{what}, again", folder, worlds[1]).end()


def killed(them, looks):
    """An addition is killed before each of its calls in turn, or in the middle of a write."""
    early, part = them.block(EARLY)
    for what, base, world in bases(them):
        worlds, n, after = (world, added(world, part)), 0, 0
        while True:
            n += 1
            folder = them.copied(base)
            got = them.add(folder, early, KILL_AT=n)
            if got[0] != -signal.SIGKILL:
                looks.at(f"{what}: an addition of {n - 1} calls", done(folder, 1, len(worlds[1].blocks)), got)
                break
            late = is_late(folder, len(worlds[1].blocks))
            after += late
            either(them, looks, f"{what}, killed at call {n}", folder, worlds, late, early)
            shutil.rmtree(folder)
        looks.that(
            f"{what}: it was killed before the new journal and after",
            after and n - 1 > 2 * after,
            (n - 1, after),
        )


def failing(them, looks):
    """Each call of an addition fails once: it says so with status 3, and the store is as it was, or with the
    blocks."""
    early, part = them.block(EARLY)
    for what, base, world in bases(them):
        worlds = (world, added(world, part))
        for kind in CALLS:
            count = 0
            for n in range(1, 300):
                name, number = list(ERRORS.items())[n % 2]
                folder = them.copied(base)
                kept, trace = f"{folder}.kept", f"{folder}.trace"
                got = them.add(
                    folder,
                    early,
                    **{f"FAIL_{kind}": f"{n},1", "FAIL_WITH": number, "KEPT": kept, "TRACE": trace},
                )
                if not int.from_bytes(read(kept)[32:40], "little"):
                    break
                lines = lines_of(trace)
                places = places_of(kind, lines)
                it = f"{what}: {lines[places[n - 1]]} ({kind.lower()} {n}) fails with {name}"
                late = is_late(folder, len(worlds[1].blocks))
                if hinders(lines, places[n - 1]):
                    them.cannot(it, got)
                else:
                    looks.at(f"{it}: what it says", done(folder, 1, len(worlds[1].blocks)), got, tell=False)
                    looks.that(f"{it}: they are added", late, tell=False)
                count += 1
                either(them, looks, it, folder, worlds, late, early)
                shutil.rmtree(folder)
            looks.say(f"{what}: each {kind.lower()} of an addition failed in turn, {count}")
            looks.that(f"{what}: there is a {kind.lower()}", count or kind in ("CUT", "REMOVE"))


def adding(looks, querier, others, preload, work):
    them = Adds(looks, querier, others, preload, work)
    lives(them, looks)
    deleted(them, looks)
    not_added(them, looks)
    if preload:
        killed(them, looks)
        failing(them, looks)
    else:
        looks.say("no library could be made: no call fails, and none is the last")
