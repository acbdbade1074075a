"""A device that fails, a disk that is full, and a folder that nobody may write to: what is not kept is
refused with H11 and seen by nobody, queries go on, and a new start has all that was acknowledged."""
import contextlib
import os
import shutil
import struct
import subprocess
import threading
import urllib.request

from house import (
    NOT_KEPT, OK, Batch, Cut, Deletion, Folders, Server, World, differences, equals, journal, numbered,
    read, run, tree,
)
from lib import free_port

ERRORS = {"EIO": 5, "ENOSPC": 28, "EROFS": 30, "EDQUOT": 122}
NOBODY = 65534


def row(n, *samples):
    return {"__name__": "fault", "n": str(n), "suite": "durable"}, list(samples)


def session():
    """Events of which each is accepted, whichever of those before it were not kept."""
    return [
        Batch([row(1, (10, 1), (20, 2)), row(2, (10, 3))]),
        Batch([row(1, (30, 4)), row(3, (30, 5))]),
        Deletion([equals("n", "1")], 0, 15),
        Batch([row(2, (40, 6))]),
        Cut(25),
        Batch([row(4, *[(50 + k, k) for k in range(200)])]),
        Deletion([equals("n", "3")], 0, 1000),
        Batch([row(1, (300, 7))]),
    ]


def is_cannot(server):
    """Whether the last that it told is what it cannot do."""
    return bool(server.told_err) and server.told_err[-1].startswith("cannot ")


class Faults(Folders):
    def start(self, folder, *words, **how):
        env = self.failing(folder, {"KEPT": f"{folder}.kept", **how})
        return Server(self.querier, "--data", folder, *words, env=env)

    def counts(self, folder):
        """How many writes, syncs and cuts there were, and how many of all failed."""
        return struct.unpack_from("<5Q", read(f"{folder}.kept"))[1:]

    def says(self, what, server, world):
        parts, rows = server.select()
        return self.looks.that(f"{what}: the samples", rows == world.rows() and parts == world.parts(),
                               differences(world.rows(), rows), tell=False)

    def tell(self, what, server, events, world):
        """Tells the server of events: those that it did not keep. Queries say those that it kept."""
        refused = []
        for event in events:
            got = server.tell(event)
            self.looks.that(f"{what}: the reply to {event.line()}", got in (OK, NOT_KEPT), got, tell=False)
            if got == OK:
                world.apply(event)
            else:
                refused.append(event)
            self.says(f"{what}: after {event.line()}", server, world)
        return refused

    def again(self, what, folder, worlds):
        """A start without faults says one of these worlds, and takes what it is told."""
        server = Server(self.querier, "--data", folder)
        if not self.looks.that(f"{what}: a new start", server.wait(), server.told, tell=False):
            return
        parts, rows = server.select()
        same = [world for world in worlds if (world.parts(), world.rows()) == (parts, rows)]
        self.looks.that(
            f"{what}: what a new start says", same, differences(worlds[0].rows(), rows), tell=False
        )
        for world in same[:1]:
            self.looks.at(
                f"{what}: refusals after it",
                [],
                self.tell(what, server, [Batch([row(9, (10**6, 1))])], world),
                tell=False,
            )
        server.end()

    def one(self, what, **fails):
        """A session with faults, and a start after it. Which events were refused, and how many calls
        failed."""
        folder, world, events = self.folder(), World(), session()
        server = self.start(folder, **fails)
        if not server.wait():
            status = server.ended()
            self.looks.at(f"{what}: the status of a start", 3, status, tell=False)
            self.looks.that(f"{what}: what a start says", is_cannot(server), server.told, tell=False)
            failed = self.counts(folder)[3]
            self.again(what, folder, [world])
            return None, failed
        refused = self.tell(what, server, events, world)
        failed = self.counts(folder)[3]
        server.end()
        after = [world]
        if refused and "FAIL_SYNC" in fails:
            # the event whose sync failed may be found
            after.append(
                self.replay([event for event in events if event not in refused or event is refused[0]])
            )
        self.again(what, folder, after)
        return [events.index(event) for event in refused], failed

    def replay(self, events):
        world = World()
        for event in events:
            world.apply(event)
        return world


def each_call(faults, looks):
    """Each write and each sync of a session fails in turn, once or from there on."""
    count = len(session())
    for kind in ("WRITE", "SYNC"):
        starts, sessions = 0, 0
        for n in range(1, 100):
            # the numbers of those that are refused
            for many, name in [(1, "EIO"), (0, "ENOSPC" if kind == "WRITE" else "EIO")]:
                what = f"{kind.lower()} {n} fails, {'once' if many else 'and all later ones'}"
                refused, failed = faults.one(
                    what, **{f"FAIL_{kind}": f"{n},{many}", "FAIL_WITH": ERRORS[name]}
                )
                if refused is None or not failed:
                    starts += refused is None
                    continue
                sessions += 1
                is_one = kind == "WRITE" and many == 1
                wanted = (
                    refused[:1] if is_one else list(range(refused[0], count)) if refused else ["one at least"]
                )
                looks.at(f"{what}: which events are refused", wanted, refused, tell=False)
            if not failed:
                break
        looks.say(f"each {kind.lower()} fails in turn: {starts} starts and {sessions} sessions with a fault")
        looks.that(f"a {kind.lower()} of each event fails", sessions >= 2 * count, sessions)


def other_faults(faults, looks):
    everything = list(range(len(session())))
    # the first write of an event; those before it are of the start
    folder = faults.folder()
    server = faults.start(folder)
    server.wait()
    writes, syncs, cuts, _ = faults.counts(folder)
    server.end()
    first = f"{writes + 3},1"
    for name, number in ERRORS.items():
        refused, _ = faults.one(f"a write fails with {name}", FAIL_WRITE=first, FAIL_WITH=number)
        looks.at(f"a write fails with {name}", [2], refused)
    for part in (1, 4, 7, 8, 9, 20):
        refused, _ = faults.one(f"{part} bytes are written, and the next write fails",
                                FAIL_WRITE=f"{writes + 2},2", FAIL_PART=part, FAIL_WITH=28)
        looks.at(f"{part} bytes are written, and the next write fails", [1], refused)
    refused, _ = faults.one(
        "five bytes are written, and the rest later", FAIL_WRITE=f"{writes + 2},1", FAIL_PART=5
    )
    looks.at("five bytes are written, and the rest later", [], refused)
    refused, _ = faults.one("a write is interrupted", FAIL_WRITE=first, FAIL_WITH=4)
    looks.at("a write is interrupted", [], refused)
    refused, _ = faults.one(
        "part is written, and cannot be cut off again", FAIL_WRITE=f"{writes + 2},2", FAIL_PART=9,
        FAIL_CUT=f"{cuts + 1},1",
    )
    looks.at("part is written, and cannot be cut off again: nothing more is taken", everything[1:], refused)
    refused, _ = faults.one(
        "part is written, and the cut is not synced", FAIL_WRITE=f"{writes + 2},2", FAIL_PART=9,
        FAIL_SYNC=f"{syncs + 2},1",
    )
    looks.at("part is written, and the cut is not synced: nothing more is taken", everything[1:], refused)


def cut_back(faults, looks):
    """What a failed write left is cut off: the journal has the bytes of what was acknowledged, before a new
    start too."""
    folder, world = faults.folder(), World()
    probe = faults.folder()
    server = faults.start(probe)
    server.wait()
    writes = faults.counts(probe)[0]
    server.end()
    server = faults.start(folder, FAIL_WRITE=f"{writes + 2},2", FAIL_PART=11, FAIL_WITH=28)
    server.wait()
    refused = faults.tell("a write that is cut off", server, session(), world)
    kept = numbered(event for event in session() if event.line() not in [one.line() for one in refused])
    looks.at("which event is refused", [session()[1].line()], [event.line() for event in refused])
    looks.that(
        "the bytes of the journal are those of what was acknowledged",
        read(f"{folder}/journal") == journal(kept),
    )
    server.end()
    faults.again("a write that is cut off", folder, [world])


def failing_starts(faults, looks):
    """Each call of a start over a journal with a torn end fails in turn: nothing that was acknowledged is
    lost."""
    base, world = faults.folder(), World()
    server = faults.start(base)
    server.wait()
    faults.tell("before", server, session(), world)
    server.end()
    with open(f"{base}/journal", "ab") as file:
        file.write(b"\x00\x00\x00")
    for kind in ("WRITE", "SYNC", "CUT"):
        ended, not_rolled = 0, 0
        for n in range(1, 200):
            folder = faults.folder()
            shutil.copytree(base, folder)
            server = faults.start(folder, **{f"FAIL_{kind}": f"{n},1"})
            listens, what = server.wait(), f"{kind.lower()} {n} of a start fails"
            failed = faults.counts(folder)[3]
            if listens:
                # a fault that hinders nothing, or the roll of the journal
                not_rolled += any(line.startswith("did not roll ") for line in server.first_lines(2))
                faults.says(what, server, world)
                server.end()
            else:
                ended += 1
                looks.at(f"{what}: the status", 3, server.ended(), tell=False)
                looks.that(f"{what}: what it says", is_cannot(server), server.told, tell=False)
            faults.again(what, folder, [faults.replay(session())])
            if not failed:
                break
        looks.that(
            f"each {kind.lower()} of a start failed in turn: some starts ended, or did not roll",
            ended + not_rolled,
            (ended, not_rolled),
        )


def several(faults, looks):
    """Ten writes in a row fail beside four clients. Changes that wait are written together, so each failure
    refuses the changes of one to four clients, and none of them is seen."""
    folder, probe = faults.folder(), faults.folder()
    server = faults.start(probe)
    server.wait()
    writes = faults.counts(probe)[0]
    server.end()
    status = free_port()
    server = faults.start(folder, "--status-port", str(status), FAIL_WRITE=f"{writes + 20},10", FAIL_WITH=28)
    server.wait()
    replies = [[] for _ in range(4)]

    def write(client):
        for n in range(25):
            event = Batch([row(f"{client}", (n + 1, client * 1000 + n))])
            replies[client].append((event, server.tell(event)))

    threads = [threading.Thread(target=write, args=(client,)) for client in range(4)]
    for thread in threads:
        thread.start()
    for thread in threads:
        thread.join()
    told = [one for client in replies for one in client]
    kept, refused = (sum(got == wanted for _, got in told) for wanted in (OK, NOT_KEPT))
    looks.at("ten writes fail beside four clients", 100, kept + refused)
    looks.that("ten writes fail beside four clients: how many are refused", 10 <= refused <= 40, refused)
    with urllib.request.urlopen(f"http://127.0.0.1:{status}/metrics", timeout=60) as reply:
        counts = dict(line.rsplit(" ", 1) for line in reply.read().decode().splitlines() if line[0] != "#")
    for name, count in [
        ('refusals_total{code="H11"}', refused), ('refusals_total{code="H10"}', 0),
        ('events_total{kind="batch"}', kept), ('requests_total{path="write",status="503"}', refused),
        ('requests_total{path="write",status="200"}', kept), ("samples_accepted_total", kept),
    ]:
        looks.at(f"the count of {name}", str(count), counts.get(f"fuzzledge_{name}"))
    world = faults.replay([event for event, got in told if got == OK])
    faults.says("ten writes fail beside four clients", server, world)
    server.end()
    faults.again("ten writes fail beside four clients", folder, [world])


@contextlib.contextmanager
def mounted(folder, size):
    """A file system in memory, of so many bytes; or None if none may be mounted."""
    os.mkdir(folder)
    done = subprocess.run(
        ["mount", "-t", "tmpfs", "-o", f"size={size}", "durable", folder], capture_output=True
    )
    try:
        yield None if done.returncode else folder
    finally:
        if not done.returncode:
            subprocess.run(["umount", "-l", folder], check=False)


def fill(faults, looks, what, server, world, base, make_room=None):
    """Writes until the disk is full; small events may still be taken. With room again, all are."""
    refused, n = 0, 0
    while refused < 5 and n < 2000:
        n += 1
        event = Batch([row(base + n, *[(k, k * 2**40) for k in range(60 if n % 2 else 1)])])
        got = server.tell(event)
        if got == OK:
            world.apply(event)
        else:
            looks.at(f"{what}: the refusal", NOT_KEPT, got, tell=False)
            refused += 1
    looks.at(f"{what}: five batches are refused", 5, refused)
    faults.says(f"{what}: queries go on", server, world)
    if make_room:
        make_room()
        looks.at(
            f"{what}: with room again", [], faults.tell(what, server, [Batch([row(1, (10**6, 1))])], world)
        )


def full(faults, looks, work):
    with mounted(f"{work}/full", 262144) as disk:
        if disk is None and not faults.preload:
            looks.say("no tmpfs may be mounted here: a full disk is left")
            return
        if disk is None:
            looks.say("no tmpfs may be mounted here: the full disk is that of the preloaded library")
            folder, world = faults.folder(), World()
            server = faults.start(folder, FAIL_ROOM=100000)
            server.wait()
            fill(faults, looks, "a full disk", server, world, 1000)
            server.end()
            faults.again("a full disk", folder, [world])
            return
        folder, world, ballast = f"{disk}/data", World(), f"{disk}/ballast"
        with open(ballast, "wb") as file:
            file.write(bytes(65536))
        server = Server(faults.querier, "--data", folder)
        looks.that("a small disk: it starts", server.wait(), server.told)
        fill(faults, looks, "a full disk", server, world, 1000, lambda: os.remove(ballast))
        fill(faults, looks, "a disk that is full again", server, world, 5000)
        server.end()
        # over a disk that is full
        server = Server(faults.querier, "--data", folder)
        if server.wait():
            faults.says("a start over a full disk", server, world)
            looks.say("a start over a full disk: it serves")
            server.end()
        else:
            looks.at("a start over a full disk: its status", 3, server.ended())
            looks.say(f"a start over a full disk: {server.told}")
        copy = faults.folder()
        shutil.copytree(folder, copy)
        faults.again("what was on a full disk", copy, [world])


def read_only(faults, looks, work):
    """Folders and files that the user may not write to."""
    before = []
    if os.getuid() == 0:
        before = ["setpriv", f"--reuid={NOBODY}", f"--regid={NOBODY}", "--clear-groups"]
        if not shutil.which("setpriv"):
            looks.say("no setpriv is here: read-only folders are left")
            return

    def own(path):
        for at, folders, files in os.walk(path):
            for name in [".", *folders, *files]:
                if before:
                    os.chown(os.path.join(at, name), NOBODY, NOBODY)

    def starts(folder):
        server = Server(faults.querier, "--data", folder, before=before)
        server.wait()
        return server

    base = f"{work}/read-only"
    os.mkdir(base)
    # the program has to be reached by nobody
    above = f"{base}/above"
    os.mkdir(above)
    own(base)
    check, _, _ = run([*before, faults.querier, "--version"])
    if check:
        looks.say("the program cannot be run by nobody: read-only folders are left")
        return
    os.chmod(above, 0o555)
    server = starts(f"{above}/data")
    looks.at("a folder that cannot be made", (3, True), (server.end(), server.told.startswith("cannot ")))
    os.mkdir(f"{above}/data")
    own(f"{above}/data")
    os.chown(above, os.getuid(), os.getgid())
    os.chmod(above, 0o711)
    server = starts(f"{above}/data")
    looks.that("a folder below one that the user may pass and not list", server.port, server.told)
    server.end()

    folder, world = f"{base}/data", World()
    os.mkdir(folder)
    own(folder)
    os.chmod(folder, 0o555)
    server = starts(folder)
    looks.at(
        "an empty folder that is read-only",
        (3, True, {}),
        (server.end(), server.told.startswith("cannot "), tree(folder)),
    )
    os.chmod(folder, 0o755)
    server = starts(folder)
    looks.that("a folder that may be written to", server.port, server.told)
    faults.tell("a folder that may be written to", server, session()[:3], world)
    os.chmod(folder, 0o555)
    faults.tell("a folder that is made read-only while it is served", server, session()[3:6], world)
    server.end()
    os.chmod(folder, 0o755)
    server = starts(folder)
    if looks.that("after it", server.port, server.told):
        faults.says("after a folder was made read-only", server, world)
    server.end()
    os.chmod(f"{folder}/journal", 0o444)
    held = tree(folder)
    server = starts(folder)
    looks.at("a journal that is read-only", (3, True, True),
             (server.end(), server.told.startswith("cannot "), tree(folder) == held))
    os.chmod(f"{folder}/journal", 0o000)
    server = starts(folder)
    looks.at("a journal that nobody may read", (3, True), (server.end(), server.told.startswith("cannot ")))
    os.chmod(f"{folder}/journal", 0o644)
    server = starts(folder)
    if looks.that("a journal that may be written to again", server.port, server.told):
        faults.says("a journal that may be written to again", server, world)
    server.end()
    with mounted(f"{work}/remounted", 1048576) as disk:
        if disk:
            shutil.copytree(folder, f"{disk}/data")
            if not subprocess.run(["mount", "-o", "remount,ro", disk], capture_output=True).returncode:
                server = Server(faults.querier, "--data", f"{disk}/data")
                server.wait()
                looks.at(
                    "a file system that is read-only",
                    (3, True),
                    (server.end(), server.told.startswith("cannot ")),
                )


def faults(looks, querier, preload, work):
    if preload is None:
        looks.say("there is no C compiler: faults are left, but for a full disk and read-only folders")
    them = Faults(looks, querier, preload, work)
    if preload:
        each_call(them, looks)
        other_faults(them, looks)
        cut_back(them, looks)
        failing_starts(them, looks)
        several(them, looks)
    full(them, looks, work)
    read_only(them, looks, work)
