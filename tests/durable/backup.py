"""`querier backup`: beside a server that writes, deletes, cuts and begins its journal anew, the copy is the
store at some moment of the call, and opens by itself; whichever call of the copy is the last or fails, it
has no journal, or is whole; what cannot be copied is refused, and the store that is copied stays as it is."""
import copy
import os
import shutil
import signal
import threading
import time

from blocks import Blocks, row, session
from house import (
    OK, Batch, Cut, Deletion, Head, Lost, World, contents_of, equals, journal, lines_of, read, recovered, run,
    tree,
)

WORDS = ("--journal-mb", "1")
CALLS = ("WRITE", "SYNC", "MAKE", "RENAME")


class Copies(Blocks):
    def copy(self, folder, out, **how):
        """A copy, to its end; the calls on the folder of the copy may fail."""
        return run([self.querier, "backup", folder, out], self.failing(out, how))

    def line(self, out, blocks, events):
        return 0, f"{out}: {blocks} blocks, {events} events\n", ""

    def is_whole(self, what, out, world):
        """A copy has blocks that are read, a head and no event, and a server says the world of it."""
        head, behind = Head.read(contents_of(read(f"{out}/journal"))[0])
        self.looks.at(f"{what}: the events behind the head", [], behind, tell=False)
        status, text, err = run([self.querier, "journal", out])
        said = [Head.line(head), f"0 events, {os.path.getsize(f'{out}/journal')} bytes, "
                "0 bytes of a torn record"]
        self.looks.at(f"{what}: querier journal", (0, said, ""), (status, text.splitlines(), err), tell=False)
        if head.numbers:
            self.there(what, out, world, head.numbers)
        server = self.start(out)
        if self.looks.that(f"{what}: it starts", server.wait(), server.told, tell=False):
            said = recovered(0, blocks=len(world.blocks))
            self.looks.at(f"{what}: what it says", [said], server.first_lines(1), tell=False)
            self.says(what, server, world)
            more = Batch([row(9, (10**9, 1))])
            self.looks.at(f"{what}: a batch after it", OK, server.tell(more), tell=False)
        server.end()

    def has_none(self, what, out):
        """A copy that was cut off has no journal, so no program takes it."""
        path = f"{out}/journal"
        self.looks.that(f"{what}: no journal", not os.path.exists(path), tell=False)
        status, text, err = run([self.querier, "journal", out])
        self.looks.at(f"{what}: querier journal", (3, ""), (status, text), tell=False)
        if os.path.isdir(f"{out}/blocks") and os.listdir(f"{out}/blocks"):
            status, text, err = run([self.querier, "serve", "--port", "0", "--data", out])
            wanted = 3, "", f"cannot read {path}\n"
            self.looks.at(f"{what}: a start", wanted, (status, text, err), tell=False)


def still(them, looks):
    """A store at rest, with blocks in the journal alone, and in its folder; with and without a server."""
    folder, world = them.kept(session())
    held, count = tree(folder), len(session())
    out = them.folder()
    looks.at("a store without a roll", them.line(out, len(world.blocks), count), them.copy(folder, out))
    looks.that("its folder is as it was", tree(folder) == held)
    them.is_whole("a store without a roll", out, world)
    server = them.start(folder)
    looks.that("it starts", server.wait(), server.told)
    held, out = tree(folder), them.folder()
    os.mkdir(out)
    looks.at("after a roll", them.line(out, len(world.blocks), 0), them.copy(folder, out))
    more = [Deletion([equals("n", "1")], 0, 20), Batch([row(2, (700, 3))])]
    looks.that("its folder is as it was", tree(folder) == held)
    them.is_whole("after a roll", out, world)
    for event in more:
        looks.at(event.line(), OK, server.tell(event), tell=False)
        world.apply(event)
    held, out = tree(folder), them.folder()
    looks.at("with events after it", them.line(out, len(world.blocks), len(more)), them.copy(folder, out))
    looks.that("its folder is as it was", tree(folder) == held)
    server.end()
    them.is_whole("with events after it", out, world)
    # a copy of a copy says the same
    again = them.folder()
    world.apply(Batch([row(9, (10**9, 1))]))
    looks.at("a copy of the copy", them.line(again, len(world.blocks), 1), them.copy(out, again))
    with open(f"{again}/journal", "ab") as file:
        file.write(b"\0\0\0\1")
    last = them.folder()
    looks.at("of one with a torn record", them.line(last, len(world.blocks), 0), them.copy(again, last))
    looks.at("which stays", b"\0\0\0\1", read(f"{again}/journal")[-4:])
    them.is_whole("the last copy", last, world.apply(Batch([row(9, (10**9, 1))])))


def empty(them, looks):
    """A store that has nothing."""
    folder, out = them.folder(), them.folder()
    server = them.start(folder)
    looks.that("it starts", server.wait(), server.told)
    looks.at("a store that has nothing", them.line(out, 0, 0), them.copy(folder, out))
    server.end()
    them.is_whole("a store that has nothing", out, World())


class Client(threading.Thread):
    """Sends events until it is told to end; those that were acknowledged, and the one under way."""

    def __init__(self, server):
        super().__init__(daemon=True)
        self.server, self.over = server, threading.Event()
        self.sent, self.known, self.strange = [], 0, []

    def events(self):
        clock, cuts, turn = 0, 0, 0
        while True:
            turn += 1
            labels = {"__name__": "backup", "n": str(turn % 3), "suite": "durable"}
            yield Batch([(labels, [(clock + k, 2**62 - clock - k) for k in range(150)])])
            clock += 500
            if turn % 37 == 0:
                yield Deletion([equals("n", str(turn % 2))], clock - 9000, clock - 6000)
            if turn % 150 == 0 and cuts < 4:
                cuts += 1
                yield Cut(clock - 2500)

    def run(self):
        for event in self.events():
            if self.over.is_set():
                break
            self.sent.append(event)
            try:
                reply = self.server.tell(event)
            except Lost:
                break
            if reply != OK:
                self.strange.append((event.line()[:60], reply))
            self.known = len(self.sent)

    def waits_for(self, count):
        """Waits until so many events are acknowledged, or no more come."""
        while self.known < count and self.is_alive():
            time.sleep(0.01)

    def end(self):
        self.over.set()
        self.join()


def beside(them, looks, count):
    """Copies while a client writes, and the server begins its journal anew: each is the store at some moment
    between begin and end."""
    folder, out = them.folder(), them.folder()
    server = them.start(folder, *WORDS)
    looks.that("it starts", server.wait(), server.told)
    client = Client(server)
    client.start()
    copies, restless = [], 0
    for number in range(count):
        # so many events lie between copies that cuts come, and rolls after them, however slow the machine is
        client.waits_for(40 * (number + 1))
        at = f"{out}.{number}"
        begin = client.known
        ended = them.copy(folder, at)
        if ended == (1, "", "refused O7\n"):
            restless += 1
            looks.that(f"copy {number}: no journal", not os.path.exists(f"{at}/journal"), tell=False)
        elif looks.at(f"copy {number}", (0, ""), (ended[0], ended[2]), tell=False):
            copies.append((at, begin, len(client.sent)))
    client.end()
    looks.at("what the server refused", [], client.strange)
    rolls = sum(line.startswith("rolled the journal") for line in server.told_err)
    server.end()
    looks.that("journals were begun anew meanwhile", rolls > 2, rolls)
    looks.that("few copies found no rest", restless <= count / 5, restless)
    world, done, spans = World(), 0, 0
    for at, begin, end in copies:
        for event in client.sent[done:begin]:
            world.apply(event)
        done = begin
        is_some_of(them, looks, at, copy.deepcopy(world), client.sent[begin:end])
        spans += end - begin
    looks.that("events came meanwhile", spans > count, spans)
    told = f"{rolls} journals begun anew and {spans} events meanwhile"
    looks.say(f"{len(copies)} copies, {restless} refused, {told}")


def is_some_of(them, looks, at, world, events):
    """The copy says this world, or that after some of the events."""
    server = them.start(at)
    if not looks.that(f"{at}: it starts", server.wait(), server.told, tell=False):
        return
    parts, rows = server.select()
    server.end()
    found = rows == world.rows() and parts == world.parts()
    for event in events:
        if found:
            break
        world.apply(event)
        found = rows == world.rows() and parts == world.parts()
    looks.that(f"{at}: the store at some moment", found, len(events), tell=False)
    if world.blocks:
        names = sorted(f"{at}/blocks/{name}" for name in os.listdir(f"{at}/blocks"))
        status, out, err = run([them.querier, "check", *names])
        looks.at(f"{at}: check", (0, len(world.blocks), ""), (status, out.count(": ok "), err), tell=False)


def killed(them, looks):
    """A copy is killed before each of its calls, or each fails: what it leaves is no store, or the copy."""
    folder, world = them.kept(session())
    whole = 0
    for n in range(1, 300):
        out = them.folder()
        status, text, err = them.copy(folder, out, KILL_AT=n)
        if status == 0:
            break
        looks.at(f"killed at call {n}: the status", -signal.SIGKILL, status, tell=False)
        if os.path.exists(f"{out}/journal"):
            whole += 1
            them.is_whole(f"killed at call {n}", out, world)
        else:
            them.has_none(f"killed at call {n}", out)
        shutil.rmtree(out, ignore_errors=True)
    wanted = them.line(out, len(world.blocks), len(session()))
    looks.at("a copy that is not killed", wanted, (status, text, err))
    looks.that("it was killed often", n > 20, n)
    for kind in CALLS:
        ended = 0
        for n in range(1, 100):
            out = them.folder()
            kept = f"{out}.kept"
            status, text, err = them.copy(folder, out, **{f"FAIL_{kind}": f"{n},1", "KEPT": kept})
            if not int.from_bytes(read(kept)[32:40], "little"):
                break
            ended += 1
            what = f"{kind.lower()} {n} fails"
            if status == 0:
                them.is_whole(what, out, world)
                continue
            looks.at(f"{what}: the status", (3, ""), (status, text), tell=False)
            looks.that(f"{what}: what it says", err.startswith("cannot write "), err, tell=False)
            if os.path.exists(f"{out}/journal"):
                them.is_whole(what, out, world)
            elif os.path.isdir(out):
                them.has_none(what, out)
        looks.say(f"{ended} calls failed: {kind.lower()}")
    looks.say(f"{n} copies were killed, {whole} of them left the copy")


def refused(them, looks):
    """What cannot be copied, and where to: nothing of it is changed."""
    folder, _ = them.kept(session())
    server = them.start(folder)
    server.wait()
    server.end()
    held, out = tree(folder), them.folder()
    looks.at("into itself", (1, "", "refused O6\n"), them.copy(folder, folder))
    looks.that("which stays", tree(folder) == held)
    os.makedirs(f"{out}/blocks")
    looks.at("into a folder that is not empty", (1, "", "refused O6\n"), them.copy(folder, out))
    looks.at("which stays", ["blocks"], os.listdir(out))
    nothing = them.folder()
    os.mkdir(nothing)
    for what, source in (("a folder without a journal", nothing), ("no folder", f"{nothing}/none")):
        out = them.folder()
        wanted = 3, "", f"cannot read {source}/journal\n"
        looks.at(what, wanted, them.copy(source, out))
        looks.that("no journal there", not os.path.exists(f"{out}/journal"))
    out = f"{them.folder()}/below/it"
    looks.at("below no folder", (3, "", f"cannot write {out}\n"), them.copy(folder, out))
    number = os.listdir(f"{folder}/blocks")[0]
    for what, code, path, change in (
        ("a block's file is missing", f"J15 at {number}", f"{folder}/blocks/{number}/index", None),
        ("a block is changed", f"J16 at {number}", f"{folder}/blocks/{number}/index", 40),
        ("the journal is changed", "J3 at 5", f"{folder}/journal", 20),
    ):
        was, out = read(path), them.folder()
        if change is None:
            os.remove(path)
        else:
            with open(path, "wb") as file:
                file.write(was[:change] + bytes([was[change] ^ 1]) + was[change + 1 :])
        status, text, err = them.copy(folder, out)
        started = run([them.querier, "serve", "--port", "0", "--data", folder])
        looks.at(what, (1, "", started[2]), (status, text, err))
        looks.that(f"{what}: its code", err.startswith(f"refused {code[:3]}"), err)
        looks.that(f"{what}: no journal there", not os.path.exists(f"{out}/journal"))
        with open(path, "wb") as file:
            file.write(was)
    looks.that("the store stays", tree(folder) == held)


def restless(them, looks):
    """A journal that is another each time that it is read."""
    folder, out = them.folder(), them.folder()
    os.mkdir(folder)
    over = threading.Event()

    def put(floor):
        with open(f"{folder}/next", "wb") as file:
            file.write(journal([], Head(floor).contents()))
        os.replace(f"{folder}/next", f"{folder}/journal")

    def change():
        floor = 0
        while not over.is_set():
            floor += 1
            put(floor)

    put(0)
    thread = threading.Thread(target=change, daemon=True)
    thread.start()
    # on a busy machine the thread may pause: then a copy finds rest, and the next one is looked at
    for _ in range(50):
        ended = them.copy(folder, out)
        if ended != them.line(out, 0, 0):
            break
        shutil.rmtree(out)
    over.set()
    thread.join()
    looks.at("a journal that never rests", (1, "", "refused O7\n"), ended)
    looks.that("no journal there", not os.path.exists(f"{out}/journal"))
    shutil.rmtree(out)
    looks.at("and then", them.line(out, 0, 0), them.copy(folder, out))


def backup(looks, querier, preload, work, count):
    them = Copies(looks, querier, preload, work)
    empty(them, looks)
    still(them, looks)
    refused(them, looks)
    restless(them, looks)
    beside(them, looks, min(count, 15))
    if preload:
        killed(them, looks)
    else:
        looks.say("there is no C compiler: copies that are killed at a call are left")
