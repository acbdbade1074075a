"""A server that cuts by itself: at which times, what it refuses from then on, what it tells, what is kept,
and that without --cut-every nothing is cut. What is due is reckoned here from the sentence of
docs/OPERATING.md."""
import os
import struct
import time
import urllib.request

from house import (
    LEAST, MOST, OK, Batch, Cut, Deletion, Server, World, equals, read, refused, run,
)
from lib import free_port


def labels(**more):
    return {"__name__": "cuts", "suite": "durable", **more}


def up(*samples, **more):
    return Batch([(labels(**more), list(samples))])


def due(every, floor, newest, after=None):
    """The last multiple above the floor that lies so many milliseconds, half of the step if it is not said,
    before the newest sample and before the clock; or None."""
    after = every - every // 2 if after is None else after
    at = (min(newest, int(time.time() * 1000)) - after) // every * every
    return at if at > floor else None


def newest_of(world):
    return max((t for samples in world.head.values() for t in samples), default=LEAST)


def follow(world, every, after=None):
    """What the server does by itself after an event."""
    at = due(every, world.floor, newest_of(world), after)
    if at is not None:
        world.apply(Cut(at))
    return at


def said(parts, joins):
    """What parts say; where a server joins its blocks, which of them it does is not said."""
    if not joins:
        return [sorted(map(repr, part.items())) for part in parts]
    rows = {}
    for part in parts[:-1]:
        for one, samples in part.items():
            rows.setdefault(one, {}).update(samples)
    return said([rows, parts[-1]], False)


def wait_for(looks, what, server, world, seconds=20, joins=False):
    """Waits until the server says what the world says, and a little, in which nothing more happens."""
    for _ in range(seconds * 20):
        if said(server.select()[0], joins) == said(world.parts(), joins):
            break
        time.sleep(0.05)
    time.sleep(0.3)
    looks.at(what, said(world.parts(), joins), said(server.select()[0], joins))


def counts(status):
    with urllib.request.urlopen(f"http://127.0.0.1:{status}/metrics", timeout=60) as reply:
        return dict(line.rsplit(" ", 1) for line in reply.read().decode().splitlines() if line[0] != "#")


EVERY = 1000


def session():
    """Batches, and the cut that each brings."""
    return [
        # nothing is before the first two, which make no block
        (up((0, 1), (499, 2)), -1000),
        (up((500, 3)), 0),
        (up((999, 4), (1000, 5), (1499, 6)), None),
        (up((1500, 7)), 1000),
        (up((1000, 1), (1200, 2), a="other"), None),
        (up((2499, 8)), None),
        (up((2500, 9), a="other"), 2000),
        (up((7499, 10)), 6000),
        (up((7500, 11)), 7000),
        (Deletion([equals("a", "other")], 0, 10000), None),
        (up((20000, 1), (20001, 2), a="third"), 19000),
    ]


def times(looks, querier, words, what, joins=False):
    """A session, event by event; where a store is kept, it is there after a new start."""
    status = free_port()
    server, world, cuts = (
        Server(querier, "--cut-every", str(EVERY), "--status-port", str(status), *words),
        World(),
        [],
    )
    if not looks.that(f"{what}: it starts", server.wait(), server.told):
        return world, cuts
    for event, wanted in session():
        looks.at(f"{what}: {event.line()}", world.judged(event), server.tell(event), tell=False)
        world.apply(event)
        at = follow(world, EVERY)
        if at is not None:
            cuts.append(at)
        looks.at(f"{what}: the cut that {event.line()} brings", wanted, at, tell=False)
        wait_for(looks, f"{what}: the parts after {event.line()}", server, world, joins=joins)
    looks.at(f"{what}: a sample below the cut", refused("E1", 0), server.tell(up((18999, 1), a="fourth")))
    looks.at(f"{what}: a sample at the cut", OK, server.tell(up((19000, 1), a="fourth")))
    world.apply(up((19000, 1), a="fourth"))
    looks.at(f"{what}: a cut at the cut", refused("E5"), server.tell(Cut(19000)))
    looks.at(f"{what}: a cut of a client", OK, server.tell(Cut(20001)))
    world.apply(Cut(20001))
    wait_for(looks, f"{what}: the parts after it", server, world, joins=joins)
    got = counts(status)
    for name, count in [
        ('events_total{kind="cut"}', len(cuts) + 1), ("workers", 4), ('requests_total{path="cut",status="200"}', 1),
    ]:
        looks.at(f"{what}: the count of {name}", str(count), got.get(f"fuzzledge_{name}"))
    few = int(got["fuzzledge_blocks"])
    looks.that(f"{what}: the count of blocks", few < len(world.blocks) if joins else few == len(world.blocks), few)
    looks.that(f"{what}: the count of joins", (int(got["fuzzledge_joins_total"]) > 0) == joins)
    looks.at(f"{what}: what it tells", [], [line for line in server.told_err if line.startswith("cannot")])
    server.end()
    return world, cuts


def kept(looks, querier, work):
    """A store in a folder, whose blocks are joined meanwhile: a journal that a join has begun anew has no cut
    from before."""
    folder = f"{work}/kept"
    world, cuts = times(looks, querier, ("--data", folder), "kept", joins=True)
    status, out, _ = run([querier, "journal", folder])
    listed = [int(line.split(" cut at ")[1]) for line in out.splitlines() if " cut at " in line]
    all_cuts = [*cuts, 20001]
    looks.at("kept: the cuts of its journal", all_cuts[len(all_cuts) - len(listed):], listed)
    before = read(f"{folder}/journal")
    server = Server(querier, "--data", folder)
    server.wait()
    looks.that("kept: a start without --cut-every", server.first_told().startswith("recovered "), server.told)
    wait_for(looks, "kept: what it says", server, world, joins=True)
    looks.at("kept: a late sample is no reason to cut", OK, server.tell(up((10**6, 1))))
    world.apply(up((10**6, 1)))
    wait_for(looks, "kept: nothing is cut", server, world, joins=True)
    server.end()
    looks.that("kept: no event but that one", len(read(f"{folder}/journal")) < len(before) + 100)
    # what was due is cut at the next start
    server = Server(querier, "--data", folder, "--cut-every", str(EVERY))
    server.wait()
    looks.at("kept: the cut of a start", 999000, follow(world, EVERY))
    wait_for(looks, "kept: the parts after the cut of a start", server, world, joins=True)
    server.end()


def one_word(looks, querier):
    """Far times, long steps, and the words that are refused."""
    for every, newest in [
        (1, 5), (7, -1), (7200000, 10**12), (2**62 - 1, MOST), (1000, -2500), (2**40, MOST),
    ]:
        server, world = Server(querier, "--cut-every", str(every)), World()
        server.wait()
        event = up((newest - 1, 1), (newest, 2))
        looks.at(f"every {every}: {event.line()}", OK, server.tell(event), tell=False)
        world.apply(event)
        at = follow(world, every)
        wait_for(looks, f"every {every}: a sample at {newest}: cut at {at}", server, world)
        if at is not None:
            looks.at(
                f"every {every}: a sample before it",
                refused("E1", 0),
                server.tell(up((at - 1, 1), a="other")),
            )
            looks.at(f"every {every}: a sample at it", OK, server.tell(up((at, 1), a="other")))
        server.end()
    for word in ["0", "-1", "x", "", str(2**62), str(2**64), "1.5"]:
        status, out, told = run([querier, "serve", "--port", "0", f"--cut-every={word}"])
        looks.at(f"--cut-every={word}", (2, "", True), (status, out, "--cut-every <MS>" in told))
    for words, room in [(("--workers", "64"), False), (("--workers", "63"), True),
                        (("--workers", "63", "--status-port", str(free_port())), False),
                        (("--workers", "62", "--status-port", str(free_port())), True)]:
        server = Server(querier, "--cut-every", "1000", *words)
        wanted = (True, -9, "") if room else (False, 1, "refused O2")
        looks.at(
            f"--cut-every with {' '.join(words)[:30]}", wanted, (server.wait(), server.end(), server.told)
        )


def late(looks, querier):
    """Samples that are late by --cut-after, and one from tomorrow."""
    for every, after, newest in [(1000, 5000, 6999), (1000, 0, 6999), (1000, 5000, 5999), (1000, 6000, 6999)]:
        server, world = Server(querier, "--cut-every", str(every), "--cut-after", str(after)), World()
        server.wait()
        event = up((0, 1), (newest, 2))
        looks.at(f"{after} after {every}: {event.line()}", OK, server.tell(event), tell=False)
        world.apply(event)
        at = follow(world, every, after)
        wait_for(looks, f"{after} after {every}: a sample at {newest}: cut at {at}", server, world)
        if at is not None:
            early, exact = up((at - 1, 1), a="b"), up((at, 1), a="b")
            looks.at(f"{after} after {every}: one before it", refused("E1", 0), server.tell(early))
            looks.at(f"{after} after {every}: one at it", OK, server.tell(exact))
        server.end()
    day = 86_400_000
    now = int(time.time() * 1000)
    server, world = Server(querier, "--cut-every", str(30 * day), "--cut-after", str(day)), World()
    server.wait()
    event = up((now - 60 * day, 1), (now + 40 * day, 2))
    looks.at("a sample of the time to come", OK, server.tell(event))
    world.apply(event)
    follow(world, 30 * day, day)
    wait_for(looks, "it cuts nothing that is to come", server, world)
    looks.at("a sample of now", OK, server.tell(up((now, 1), a="b")))
    server.end()


def refusals(looks, querier, preload, work):
    """Cuts that are refused: one line for each, and the next multiple is tried."""
    server, world, every = Server(querier, "--cut-every", "1000000"), World(), 1000000
    server.wait()
    for n in range(63):
        for event in [up((n, n)), Cut(n + 1)]:
            looks.at(f"63 blocks: {event.line()}", OK, server.tell(event), tell=False)
            world.apply(event)
    for newest in [every // 2, 3 * every // 2 - 1, 3 * every // 2, 5 * every // 2, 5 * every // 2 + 1]:
        looks.at(f"63 blocks: a sample at {newest}", OK, server.tell(up((newest, 1))))
        world.apply(up((newest, 1)))
        wait_for(looks, "63 blocks: the parts", server, world)
    looks.at(
        "63 blocks: what is told", ["cannot cut at 1000000: E6", "cannot cut at 2000000: E6"], server.told_err
    )
    began = cpu_of(server.process.pid)
    time.sleep(2)
    looks.that("63 blocks: it does not try at full speed", cpu_of(server.process.pid) - began < 0.5)
    server.end()
    if not preload:
        looks.say("there is no C compiler: cuts that are not kept are left")
        return
    for fault, wanted in [("FAIL_WRITE", "E1"), ("FAIL_SYNC", None)]:
        folder = f"{work}/{fault}"
        env = {"LD_PRELOAD": preload, "FOLDER": folder, "KEPT": f"{folder}.kept"}
        server = Server(querier, "--data", folder, "--cut-every", "1000", env=env)
        server.wait()
        # after a cut at 0 the next event makes none due
        looks.at(f"{fault}: a cut", OK, server.tell(Cut(0)))
        looks.at(f"{fault}: a batch", OK, server.tell(up((1, 1), (10, 2))))
        writes, syncs, _, _ = struct.unpack_from("<5Q", read(f"{folder}.kept"))[1:]
        server.end()
        numbers = {"FAIL_WRITE": writes, "FAIL_SYNC": syncs}
        folder += "2"
        env |= {
            "FOLDER": folder,
            "KEPT": f"{folder}.kept",
            fault: f"{numbers[fault] + 1},1",
            "FAIL_WITH": "5",
        }
        server, world = Server(querier, "--data", folder, "--cut-every", "1000", env=env), World()
        server.wait()
        looks.at(f"{fault}: a cut", OK, server.tell(Cut(0)))
        world.apply(Cut(0))
        looks.at(f"{fault}: a batch that makes a cut due", OK, server.tell(up((1, 1), (1500, 2))))
        world.apply(up((1, 1), (1500, 2)))
        wait_for(looks, f"{fault}: the parts", server, world)
        looks.at(f"{fault}: what is told", "cannot cut at 1000: H11", server.told.split("\n")[-1])
        event = up((2500, 3))
        if wanted:
            looks.at(f"{fault}: a later batch", OK, server.tell(event))
            world.apply(event)
            looks.at(f"{fault}: the next multiple", 2000, follow(world, 1000))
        else:
            looks.at(f"{fault}: a later batch", 503, server.tell(event)[0])
        wait_for(looks, f"{fault}: the parts then", server, world)
        server.end()


def cpu_of(process):
    """How many seconds of a processor a process took."""
    with open(f"/proc/{process}/stat") as file:
        words = file.read().rsplit(")", 1)[1].split()
    return (int(words[11]) + int(words[12])) / os.sysconf("SC_CLK_TCK")


def ends(looks, querier):
    """A server of few connections ends, though it cuts."""
    for words in [(), ("--status-port", str(free_port()))]:
        server = Server(querier, "--workers", "2", "--requests", "1", "--cut-every", "1000", *words)
        server.wait()
        looks.at("a write", OK, server.tell(up((5000, 1))))
        looks.at("another write", OK, server.tell(up((9000, 1))))
        looks.at("its end", 0, server.ended(20))


def never(looks, querier, block):
    """Without the option nothing is cut; over blocks, cuts are above their ranges."""
    server, world = Server(querier), World()
    server.wait()
    for t in range(0, 10**6, 10**5):
        looks.at("without --cut-every: a batch", OK, server.tell(up((t, 1))), tell=False)
        world.apply(up((t, 1)))
    wait_for(looks, "without --cut-every: the parts", server, world)
    server.end()
    server = Server(querier, "--cut-every", "1000", block)
    server.wait()
    before = len(server.select('{__name__=~".*"}')[0])
    looks.at("over a block: a batch", OK, server.tell(up((5000, 1), (9000, 1))))
    for _ in range(400):
        parts = server.select()[0]
        if len(parts) > before:
            break
        time.sleep(0.05)
    looks.at("over a block: the parts", [1, 1], [sum(map(len, part.values())) for part in parts[-2:]])
    server.end()


def cuts(looks, querier, preload, work, block):
    times(looks, querier, (), "in memory")
    kept(looks, querier, work)
    one_word(looks, querier)
    late(looks, querier)
    refusals(looks, querier, preload, work)
    ends(looks, querier)
    never(looks, querier, block)
