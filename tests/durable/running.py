"""A journal that is begun anew while the server runs: by its length, and after cuts; the server is killed at
each of its calls meanwhile, and a new one says what was acknowledged, and what was under way whole or not at
all."""
import os
import random
import shutil
import signal
import time

from blocks import Blocks
from house import (
    OK, Batch, Cut, Deletion, Head, Lost, World, contents_of, differences, equals, lines_of, read, recovered,
)

WORDS = ("--journal-mb", "1")


def large(clock, n=4000):
    """A batch whose record has some 40,000 bytes."""
    labels = {"__name__": "running", "n": str(clock // 5000 % 3), "suite": "durable"}
    return Batch([(labels, [(clock + k, 2**62 - clock - k) for k in range(n)])])


def told(server, what, count, seconds=20):
    """Waits until it has said so often that a journal was begun anew."""
    for _ in range(int(seconds * 100)):
        if (
            sum(line.startswith(what) for line in server.told_err) >= count
            or server.process.poll() is not None
        ):
            break
        time.sleep(0.01)
    return [line for line in server.told_err if line.startswith(what)]


def session():
    """A journal grows by more than one MB; a cut, and an eighth of that; a deletion of what the block has,
    and once more."""
    clock = 0
    for _ in range(28):
        yield large(clock)
        clock += 5000
    yield "rolled the journal: 0 blocks"
    yield Cut(clock - 5000)
    for _ in range(4):
        yield large(clock)
        clock += 5000
    yield "rolled the journal: 1 block"
    yield Deletion([equals("n", "1")], 5000, 6000)
    yield Cut(clock - 5000)
    for _ in range(4):
        yield large(clock)
        clock += 5000
    yield "rolled the journal: 2 blocks"
    yield Deletion([equals("n", "2")], clock - 1000, clock)


def grows(them, looks):
    """What the folder has after each of these, and what a start makes of it."""
    folder, world, numbers = them.folder(), World(), []
    server = them.start(folder, *WORDS)
    looks.that("it starts", server.wait(), server.told)
    rolls, since = 0, []
    for event in session():
        if not isinstance(event, str):
            looks.at(event.line()[:60], OK, server.tell(event), tell=False)
            world.apply(event)
            since.append(event)
            continue
        rolls += 1
        lines = told(server, "rolled the journal", rolls)
        looks.at("what it says", event, lines[-1] if len(lines) == rolls else lines)
        # each block is new, and the first of the second roll was struck
        numbers = [[], [1], [2, 3]][rolls - 1]
        head, behind = Head.read(contents_of(read(f"{folder}/journal"))[0])
        looks.at("the blocks that the head names", numbers, head.numbers)
        texts = [one.text() for one in since]
        looks.that(
            "the events behind it are the last ones", behind == texts[len(texts) - len(behind) :], len(behind)
        )
        looks.that("and few", len(behind) < len(since), (len(behind), len(since)))
        since = since[len(since) - len(behind) :]
        if numbers:
            them.there("while it runs", folder, world, numbers)
        them.says("while it runs", server, world)
    server.end()
    server = them.start(folder, *WORDS)
    looks.that("it starts again", server.wait(), server.told)
    looks.at("what a start finds", recovered(len(since), blocks=2), server.first_told())
    them.says("after a start", server, world)
    server.end()


def same(server, world):
    parts, rows = server.select()
    return rows == world.rows() and parts == world.parts(), differences(world.rows(), rows)


def is_of_roll(trace):
    """Whether the last call of a server, before which it was killed, was one of a roll."""
    lines = [line for line in lines_of(trace) if line != "reply"]
    return bool(lines) and lines[-1].split()[1].startswith(("journal.next", "blocks"))


def killed(them, looks):
    """The server is killed before each of its calls in turn, or in the middle of a write."""
    ended, rolling, n = 0, 0, 0
    while True:
        n += 1
        folder, world = them.folder(), World()
        trace = f"{folder}.trace"
        server = them.start(folder, *WORDS, KILL_AT=n, TRACE=trace)
        flying, rolls = None, 0
        if server.wait():
            for event in session():
                if isinstance(event, str):
                    rolls += 1
                    if len(told(server, "rolled the journal", rolls)) < rolls:
                        break
                    continue
                try:
                    looks.at(event.line()[:60], OK, server.tell(event), tell=False)
                    world.apply(event)
                except Lost:
                    flying = event
                    break
            else:
                looks.that("a run that is not killed", server.process.poll() is None, server.told)
                server.end()
                break
        looks.at(f"killed at call {n}: the status", -signal.SIGKILL, server.ended(), tell=False)
        ended += 1
        rolling += is_of_roll(trace)
        os.remove(trace)
        server = them.start(folder, *WORDS)
        if looks.that(f"killed at call {n}: it starts", server.wait(), server.told, tell=False):
            is_same, found = same(server, world)
            if not is_same and flying is not None:
                is_same, found = same(server, world.apply(flying))
            looks.that(f"killed at call {n}: what was acknowledged", is_same, found, tell=False)
            looks.at(f"killed at call {n}: a batch after it", OK, server.tell(large(10**6, 1)), tell=False)
        server.end()
        shutil.rmtree(folder)
    looks.that(
        "it was killed in rolls and out of them", rolling > 20 and ended - rolling > 20, (ended, rolling)
    )
    looks.say(f"{ended} servers were killed, {rolling} of them while they began the journal anew")


def failing(them, looks):
    """A write fails when the journal is to be begun anew: it goes on, and tries it again when it has
    grown."""
    ended = 0
    for n in range(1, 400, 7):
        folder, world = them.folder(), World()
        server = them.start(folder, *WORDS, FAIL_WRITE=f"{n},1", KEPT=f"{folder}.kept")
        if not server.wait():
            server.end()
            continue
        for event in session():
            if isinstance(event, str):
                told(server, "", len(server.told_err) + 1, 0.3)
                continue
            status, _ = server.tell(event)
            if status == 200:
                world.apply(event)
        ended += any(line.startswith("did not roll the journal") for line in server.told_err)
        is_same, found = same(server, world)
        looks.that(f"write {n} fails: what it says", is_same, found, tell=False)
        server.end()
        server = them.start(folder, *WORDS)
        if looks.that(f"write {n} fails: it starts", server.wait(), server.told, tell=False):
            is_same, found = same(server, world)
            looks.that(f"write {n} fails: a start", is_same, found, tell=False)
        server.end()
        shutil.rmtree(folder)
    looks.that("some rolls failed", ended, ended)


def rounds(them, looks, count, seed):
    """One client writes, deletes and cuts, and the server is killed at a random moment."""
    draw, rolls = random.Random(f"{seed} running"), 0
    for number in range(count):
        if number % 8 == 0:
            folder, world, clock = them.folder(), World(), 0
        server = them.start(folder, *WORDS)
        if not looks.that("it starts", server.wait(), server.told, tell=False):
            break
        until, flying = time.monotonic() + draw.uniform(0.05, 1.5), None
        while flying is None:
            way = draw.random()
            if way < 0.9:
                event, clock = large(clock, draw.randint(1, 4000)), clock + 5000
            elif way < 0.95 or len(world.blocks) > 50 or clock - 5000 <= world.floor:
                low = draw.randint(0, clock)
                event = Deletion([equals("n", str(draw.randrange(3)))], low, low + draw.randint(0, 4000))
            else:
                event = Cut(clock - 5000)
            if time.monotonic() > until:
                server.process.kill()
            try:
                looks.at(event.line()[:60], OK, server.tell(event), tell=False)
                world.apply(event)
            except Lost:
                flying = event
        server.ended()
        rolls += len([line for line in server.told_err if line.startswith("rolled the journal")])
        server = them.start(folder, *WORDS)
        if looks.that("it starts after a kill", server.wait(), server.told, tell=False):
            is_same, found = same(server, world)
            if not is_same:
                world.apply(flying)
                is_same, found = same(server, world)
            looks.that("what was acknowledged", is_same, found, tell=False)
        server.end()
    looks.that("journals were begun anew", rolls > count / 10, rolls)
    looks.say(f"{count} rounds, {rolls} journals begun anew while the server ran")


def running(looks, querier, preload, work, count, seed):
    them = Blocks(looks, querier, preload, work)
    grows(them, looks)
    rounds(them, looks, count, seed)
    if preload:
        killed(them, looks)
        failing(them, looks)
    else:
        looks.say("there is no C compiler: servers that are killed at a call are left")
