"""A server that cuts, joins and lets samples leave by itself is killed at each of its calls meanwhile, and
each of them fails: a new one says what was acknowledged, of what was under way all or nothing, and nothing
else; once it has begun the journal anew, its folder has the blocks of the head and no litter."""
import concurrent.futures
import contextlib
import os
import shutil
import signal
import subprocess
import time

from house import (
    NOT_KEPT, OK, Batch, Cut, Deletion, Folders, Head, Lost, Server, contents_of, differences, equals,
    lines_of, read,
)
from upkeep import EVERY, Map, since

# an eighth of that is a window of three cuts
KEEP = 24 * EVERY
WORDS = ("--cut-every", str(EVERY), "--cut-after", "0", "--keep", f"{KEEP // 1000}s")
# how many servers run side by side: they mostly wait for the pauses of the one who joins
SIDE_BY_SIDE = 4
# of how many calls one is the last or fails
STEP = int(os.environ.get("CALLS_STEP") or 1)
# where blocks may end if a cut was refused
ENDS = (0, 1000, 2000, 3000, 4000, 6000)
# the calls that fail, and how many of each there are at least
KINDS = {"WRITE": 30, "SYNC": 30, "CUT": 0, "MAKE": 20, "RENAME": 3, "REMOVE": 15}


def row(n, *samples):
    return {"__name__": "live", "n": str(n), "suite": "durable"}, list(samples)


def spread(first, last, step=100):
    """A batch of three series with samples from a time to another."""
    return Batch([row(n, *[(at + n, 10 * at + n) for at in range(first, last, step)]) for n in (1, 2, 3)])


def before():
    """Two blocks of a cut each."""
    return [spread(0, 1000), Cut(EVERY), spread(1000, 2000), Cut(2 * EVERY)]


def session():
    """Events, and behind each what the server has done then by itself: how many parts there are, and the
    first word of a line with how many of these there are."""
    return [
        # the third cut: two blocks become one; the first begins before all times, and so in no window
        (spread(2000, 3500), 3, ("joined ", 1)),
        # a deletion in both
        (Deletion([equals("n", "1")], 500, 1500), 3, None),
        (spread(3500, 4200), 4, None),
        # a deletion in a block that is not saved, and in the head
        (Deletion([equals("n", "2")], 3400, 4100), 4, None),
        # two blocks of the next window, of which one was struck, as was the first: all are written anew
        (spread(4300, 6200), 4, ("joined ", 2)),
        (Deletion([equals("n", "3")], 0, 10**6), 4, None),
        # 21 cuts at once; two blocks have ended for so long that they leave
        (spread(6300, 27101, 800), 3, ("removed ", 1)),
        (Batch([row(4, (27300, 1), (27400, 2))]), 3, None),
    ]


class Told:
    """What one run found: each as wanted or not. It is counted in one thread."""

    def __init__(self):
        self.found, self.lines, self.rolling, self.failed = [], [], False, 0

    def that(self, what, holds, otherwise=""):
        self.found.append((what, bool(holds), otherwise))
        return holds

    def counted(self, looks):
        for what, holds, otherwise in self.found:
            looks.that(what, holds, otherwise, tell=False)


class Lives(Folders):
    def __init__(self, looks, querier, preload, work, more=()):
        super().__init__(looks, querier, preload, work)
        # samples that the map has and nobody sent: a test that passes with them sees nothing
        self.more = more

    def start(self, folder, **how):
        return Server(self.querier, "--data", folder, *WORDS, env=self.failing(folder, how))

    def copied(self, base, name):
        folder = f"{self.work}/{name}"
        shutil.copytree(base, folder)
        return folder

    def base(self):
        """A folder with two blocks, and the map of it."""
        folder, rows = self.folder(), Map()
        server = Server(self.querier, "--data", folder)
        self.looks.that("it starts", server.wait(), server.told, tell=False)
        for event in before():
            self.looks.at(event.line()[:60], OK, server.tell(event), tell=False)
            if not isinstance(event, Cut):
                rows.apply(event)
        server.end()
        server = Server(self.querier, "--data", folder)
        self.looks.that("it starts again", server.wait(), server.told, tell=False)
        server.end()
        for event in self.more:
            rows.apply(event)
        return folder, rows


def is_troubled(server):
    """Whether it has told of a call that failed."""
    return any(line.startswith(("cannot", "did not")) for line in server.told_err)


def until(server, holds, has_faults=False, seconds=30):
    """Waits until something holds of a server; whether it does. Once it has told of a fault, it has half a
    second."""
    end = time.monotonic() + seconds
    while time.monotonic() < end and server.process.poll() is None:
        try:
            if holds(server):
                return True
        except Lost:
            # it was killed just now
            with contextlib.suppress(subprocess.TimeoutExpired):
                server.process.wait(10)
            return False
        if has_faults and is_troubled(server):
            end = min(end, time.monotonic() + 0.5)
            has_faults = False
        time.sleep(0.1)
    return False


def has_come(parts, line):
    """Whether a server has so many parts and has told so many such lines."""
    def holds(server):
        told = not line or sum(told.startswith(line[0]) for told in server.told_err) >= line[1]
        return told and len(server.select()[0]) == parts
    return holds


def is_cut(at):
    """Whether the head has no sample before a time."""
    def holds(server):
        return all(time >= at for samples in server.select()[0][-1].values() for time in samples)
    return holds


def lived(server, rows, told, has_faults=False):
    """Tells a server of the session, and waits for what it does by itself. The events that it did not keep,
    and the one that was under way."""
    refused = []
    for event, parts, line in session():
        try:
            got = server.tell(event)
        except Lost:
            return refused, event
        if got == OK:
            rows.apply(event)
        elif has_faults and got == NOT_KEPT:
            refused.append(event)
        else:
            told.that(f"the reply to {event.line()[:60]}", False, got)
        came = until(server, has_come(parts, line), has_faults, 0.5 if refused else 30)
        if server.process.poll() is not None:
            return refused, None
        troubled = has_faults and (refused or is_troubled(server))
        told.that(f"what it does by itself after {event.line()[:60]}", came or troubled, server.told)
    return refused, None


def worlds(rows, flying, ends=(0, 3000)):
    """The maps that a new start may say: with what was under way or without it, and with what has been kept
    for long enough, up to the end of a block, or without it."""
    maps = [rows]
    for event in flying:
        maps.append(maps[-1].with_event(event))
    return [since(one.rows, end) for one in maps for end in ends]


def litter(folder):
    """What a folder has that its head does not name, and what is missing there."""
    head, _ = Head.read(contents_of(read(f"{folder}/journal"))[0])
    wanted = {"journal", "lock"} | {
        f"blocks/{number}/{name}" for number in head.numbers
        for name in ("chunks/000001", "index", "meta.json", "tombstones")
    }
    found = {
        os.path.relpath(os.path.join(at, name), folder) for at, _, names in os.walk(folder) for name in names
    }
    numbers = {str(number) for number in head.numbers}
    return found ^ wanted, set(os.listdir(f"{folder}/blocks")) ^ numbers


def later(server, folder, told, what, rows):
    """Cuts more after a start, of which a join brings two together: so the journal is begun anew."""
    for first, last, at in [
        (30000, 30600, 30000), (31100, 31700, 31000), (33000, 33100, 33000), (34100, 34200, 34000),
        (36000, 36100, 36000),
    ]:
        event = spread(first, last)
        got = server.tell(event)
        told.that(f"{what}: {event.line()[:40]} after it", got == OK, got)
        rows = rows.with_event(event)
        told.that(f"{what}: the cut at {at} after it", until(server, is_cut(at)), server.told)
    # a block that has none before it begins before all times, and lies in no window; the last two do
    came = until(server, lambda _: Head.read(contents_of(read(f"{folder}/journal"))[0])[0].floor == 36000)
    told.that(f"{what}: a join after it", came, server.told)
    count = -1
    while count != len(server.told_err):
        count = len(server.told_err)
        time.sleep(0.3)
    return rows


def again(them, told, what, folder, wanted):
    """A start over what was left says one of these rows, and goes on without litter; so does one more."""
    server = them.start(folder)
    if told.that(f"{what}: it starts", server.wait(), server.told):
        rows = server.select()[1]
        if told.that(f"{what}: what it says", rows in wanted, differences(wanted[0], rows)):
            # what has been kept for long enough leaves now, if it did not yet
            more = later(server, folder, told, what, Map(rows))
            rows = server.select()[1]
            same = [since(more.rows, end) for end in (*ENDS, 27000)]
            told.that(f"{what}: what it says later", rows in same, differences(same[0], rows))
            parts = len(server.select()[0])
            told.that(f"{what}: few blocks", parts <= 6, parts)
            told.that(f"{what}: what its folder has", litter(folder) == (set(), set()), litter(folder))
            server.end()
            server = them.start(folder)
            told.that(f"{what}: it starts once more", server.wait(), server.told)
            told.that(f"{what}: what it says then", server.select()[1] == rows)
    server.end()


def is_of_join(trace):
    """Whether the last call before a kill was one of those that write blocks, begin a journal or remove
    blocks."""
    lines = [line for line in lines_of(trace) if line != "reply"]
    return bool(lines) and lines[-1].split()[1].startswith(("journal.next", "blocks"))


def one_kill(them, base, rows, n):
    """The server is killed before its nth call, or in the middle of a write; None if it has not so many."""
    told, rows = Told(), Map({one: dict(samples) for one, samples in rows.rows.items()})
    folder, what = them.copied(base, f"killed{n}"), f"killed at call {n}"
    trace = f"{folder}.trace"
    server, flying = them.start(folder, KILL_AT=n, TRACE=trace), None
    if server.wait():
        _, flying = lived(server, rows, told)
    if server.process.poll() is None and flying is None:
        # it may yet be at work
        time.sleep(0.3)
    if server.process.poll() is None and flying is None:
        server.end()
        told.that("a run that is not killed: what it says", not is_troubled(server), server.told)
        told.lines = None
    else:
        status = server.ended()
        told.that(f"{what}: the status", status == -signal.SIGKILL, status)
        told.rolling = is_of_join(trace)
    again(them, told, what, folder, worlds(rows, [flying] if flying else []))
    os.remove(trace)
    shutil.rmtree(folder)
    return told


def in_turn(them, one, looks, numbers):
    """Runs one for each number, some side by side, until one has nothing more to do; what they told."""
    done = []
    with concurrent.futures.ThreadPoolExecutor(SIDE_BY_SIDE) as pool:
        numbers, is_over = iter(numbers), False
        under_way = [pool.submit(one, n) for _, n in zip(range(SIDE_BY_SIDE), numbers)]
        while under_way:
            told = under_way.pop(0).result()
            told.counted(looks)
            if told.lines is None:
                is_over = True
            else:
                done.append(told)
            number = None if is_over else next(numbers, None)
            if number is not None:
                under_way.append(pool.submit(one, number))
    looks.that("there is a last one", is_over)
    return done


def killed(them, looks, base, rows):
    done = in_turn(them, lambda n: one_kill(them, base, rows, n), looks, range(1, 2000, STEP))
    joins = sum(told.rolling for told in done)
    both = joins > 60 // STEP and len(done) - joins > 15 // STEP
    looks.that("it was killed in joins and out of them", both, (len(done), joins))
    looks.say(
        f"{len(done)} servers were killed, {joins} of them while they wrote or removed blocks, or began the "
        "journal anew"
    )


def one_fault(them, base, rows, kind, n, many):
    """The nth call of a kind fails, alone or with all later ones: it goes on, and tells it."""
    told, rows = Told(), Map({one: dict(samples) for one, samples in rows.rows.items()})
    what = f"{kind.lower()} {n} fails{'' if many else ', as do all later ones'}"
    folder = them.copied(base, f"{kind}{n}-{many}")
    kept = f"{folder}.kept"
    error = [5, 28][n % 2]
    server = them.start(folder, **{f"FAIL_{kind}": f"{n},{many}", "FAIL_WITH": error, "KEPT": kept})
    refused, listens = [], server.wait()
    if listens:
        refused, flying = lived(server, rows, told, True)
        told.that(f"{what}: it runs on", flying is None and server.process.poll() is None, server.told)
        if server.process.poll() is None:
            found = server.select()[1]
            told.that(f"{what}: what it says", found in worlds(rows, [], ENDS), differences(rows.rows, found))
    else:
        told.that(f"{what}: the status of a start", server.ended() == 3, server.told)
    server.end()
    told.failed = int.from_bytes(read(kept)[32:40], "little")
    if not told.failed:
        told.lines = None
        told.that(f"{what}, but there is none: nothing is refused", not refused and not is_troubled(server))
    told.rolling = any(line.startswith("cannot join ") for line in server.told_err)
    # a change that was written and not synced may be found
    again(them, told, what, folder, worlds(rows, refused, ENDS))
    os.remove(kept)
    shutil.rmtree(folder)
    return told


def failing(them, looks, base, rows):
    for kind, least in KINDS.items():
        def one(n, kind=kind):
            return one_fault(them, base, rows, kind, n, 1)

        done = in_turn(them, one, looks, range(1, 2000, STEP))
        refused = sum(told.rolling for told in done)
        looks.that(f"each {kind.lower()} failed in turn", len(done) >= least // STEP, len(done))
        looks.say(
            f"each {kind.lower()} failed in turn: {len(done)} servers, {refused} of them could not join"
        )
        if kind in ("WRITE", "SYNC", "MAKE"):
            some = range(1, STEP * len(done) + 1, 4 * STEP)
            with concurrent.futures.ThreadPoolExecutor(SIDE_BY_SIDE) as pool:
                every = list(pool.map(lambda n, kind=kind: one_fault(them, base, rows, kind, n, 0), some))
            for told in every:
                told.counted(looks)
            looks.say(f"from each fourth {kind.lower()} on all failed: {len(every)} servers")


def sees(them, looks, base, rows):
    """Beside a map that has a sample more, or one less, a run is not as wanted."""
    for what, event in [
        ("a sample more", Batch([row(1, (27450, 7))])),
        ("one less", Deletion([equals("n", "4")], 27400, 27400)),
    ]:
        told, wanted = Told(), Map({one: dict(samples) for one, samples in rows.rows.items()})
        folder = them.copied(base, f"sees-{what[:3]}")
        server = them.start(folder)
        server.wait()
        lived(server, wanted, told)
        server.end()
        wanted.apply(event)
        again(them, told, what, folder, worlds(wanted, []))
        looks.at(f"beside a map with {what} it fails", [f"{what}: what it says"],
                 [name for name, holds, _ in told.found if not holds])
        shutil.rmtree(folder)


def joining_live(looks, querier, preload, work):
    if not preload:
        looks.say("there is no C compiler: servers that are killed at a call of a join are left")
        return
    them = Lives(looks, querier, preload, work)
    base, rows = them.base()
    sees(them, looks, base, rows)
    killed(them, looks, base, rows)
    failing(them, looks, base, rows)
