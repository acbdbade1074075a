"""The folder of a store that is kept: two servers, other versions, what is left over, words that are refused;
and a server without --data, which writes no file."""
import contextlib
import os
import signal

from house import (
    NEW, NOTHING, OK, Batch, Cut, Deletion, Server, World, contents_of, equals, journal, lines_of, numbered,
    read, recovered, run, tree,
)


def up(*samples):
    return Batch([({"__name__": "up", "suite": "durable"}, list(samples))])


def one_server(looks, querier, work):
    folder = f"{work}/two"
    server = Server(querier, "--data", folder)
    looks.that("a folder that is not there is made", server.wait() and os.path.isdir(folder), server.told)
    looks.at("what a start in a new folder says", f"began {folder}/journal", server.first_told())
    looks.at("a new journal", NEW, read(f"{folder}/journal"))
    looks.at("a write", OK, server.tell(up((1, 1))))
    held = tree(folder)
    other = Server(querier, "--data", folder)
    other.wait()
    looks.at(
        "a second server",
        (3, f"cannot lock {folder}: process {server.process.pid} has it"),
        (other.end(), other.told),
    )
    looks.at("what the second one changed", held, tree(folder))
    status, out, _ = run([querier, "journal", folder])
    looks.at(
        "journal beside a server",
        (
            0,
            [
                "head: floor -4611686018427387904, 0 blocks, 0 series, 0 samples",
                "1 batch 1 samples of 1 series, 1 to 1",
            ],
        ),
        (status, out.splitlines()[:2]),
    )
    looks.at("the first one goes on", OK, server.tell(up((2, 2))))
    with open(f"{folder}/lock", "wb"):
        pass
    other = Server(querier, "--data", folder)
    other.wait()
    looks.at(
        "a second server, if the lock names none",
        (3, f"cannot lock {folder}: another process has it (see the file lock there)"),
        (other.end(), other.told),
    )
    server.end(signal.SIGTERM)
    server = Server(querier, "--data", folder)
    looks.that("a server after it", server.wait(), server.told)
    looks.at("what it says", recovered(2), server.first_told())
    server.end()


def at_once(looks, querier, work):
    """Servers that begin one folder at the same moment: one has it."""
    for turn in range(3):
        folder = f"{work}/at-once{turn}"
        servers = [Server(querier, "--data", folder) for _ in range(6)]
        serving = [server for server in servers if server.wait()]
        looks.at("servers that have the folder, of six at once", 1, len(serving))
        # who has it is named as soon as it has written its number
        held = [f"cannot lock {folder}: {who} has it" for who in
                ["another process", *(f"process {server.process.pid}" for server in serving)]]
        others = [
            (server.ended(), server.told.split(" (")[0] in held)
            for server in servers
            if server not in serving
        ]
        looks.at("the others", [(3, True)] * 5, others)
        for server in serving[:1]:
            looks.at("a write to the one", OK, server.tell(up((1, 1))))
        for server in serving:
            server.end()
        looks.at("its journal", journal(numbered([up((1, 1))])), read(f"{folder}/journal"))


def new_folders(looks, querier, work):
    for what, make in [
        ("an empty folder", lambda folder: os.mkdir(folder)),
        ("a left-over journal.next, and no journal", lambda folder: left_over(folder, None)),
        ("a journal.next of one byte, and no journal", lambda folder: left_over(folder, None, b"F")),
        ("files of others, and no journal", lambda folder: others(folder)),
    ]:
        folder = f"{work}/{what.replace(' ', '-')}"
        make(folder)
        server = Server(querier, "--data", folder)
        if looks.that(what, server.wait(), server.told):
            looks.at(f"{what}: a new journal", NEW, read(f"{folder}/journal"))
            looks.at(f"{what}: a write", OK, server.tell(up((1, 1))))
        server.end()
        looks.at(f"{what}: the journal", journal(numbered([up((1, 1))])), read(f"{folder}/journal"))
    looks.at("files of others stay", b"mine", read(f"{work}/files-of-others,-and-no-journal/notes"))
    folder, kept = f"{work}/left-over", [up((1, 1)), up((2, 2))]
    left_over(folder, journal([event.text() for event in kept]))
    server = Server(querier, "--data", folder)
    looks.that("a left-over journal.next beside a journal", server.wait(), server.told)
    looks.at("what it says", recovered(2), server.first_told())
    looks.at("the samples", {(("__name__", "up"), ("suite", "durable")): {1: 1, 2: 2}}, server.select()[1])
    server.end()
    looks.at("the journal", journal([event.text() for event in kept]), read(f"{folder}/journal"))


def left_over(folder, data, more=b"FZLJ\x01 and what no one finished" * 10):
    os.mkdir(folder)
    with open(f"{folder}/journal.next", "wb") as file:
        file.write(more)
    if data is not None:
        with open(f"{folder}/journal", "wb") as file:
            file.write(data)


def others(folder):
    os.mkdir(folder)
    with open(f"{folder}/notes", "wb") as file:
        file.write(b"mine")


# the head of a store of doubles that has nothing: FORMATS.md has its record
DOUBLES = (b"\x12" + NOTHING[0][1:],)


def meanings(looks, querier, work):
    """A store of doubles stays one when its journal is begun anew, and its blocks say so; one of whole
    numbers stays as it was. Their numbers are served as they stand."""
    looks.at(
        "the record of FORMATS.md",
        "0000000c" "05248417" "12ffffffffffffffff7f0000" "5b674550",
        journal([], DOUBLES)[5:].hex(),
    )
    for what, head, member in [
        ("a store of whole numbers", NOTHING, ""),
        ("a store of doubles", DOUBLES, ',"values":"doubles"'),
    ]:
        folder = f"{work}/{what.replace(' ', '-')}"
        os.mkdir(folder)
        with open(f"{folder}/journal", "wb") as file:
            file.write(journal([up((1, 1)).text(), up((5, 2)).text(), Cut(3).text()], head))
        server = Server(querier, "--data", folder)
        looks.that(what, server.wait(), server.told)
        looks.at(f"{what}: its samples", {(("__name__", "up"), ("suite", "durable")): {1: 1, 5: 2}},
                 server.select()[1])
        looks.at(f"{what}: a write", OK, server.tell(up((6, 3))))
        server.end()
        contents, _ = contents_of(read(f"{folder}/journal"))
        kinds = [content[0] for content in contents]
        looks.at(f"{what}: the kinds of its journal", [head[0][0], 17, 1], kinds)
        meta = read(f"{folder}/blocks/1/meta.json").decode()
        looks.that(f"{what}: meta.json", meta.endswith(f'"decimals":0{member}}}\n'), meta)


def refused_folders(looks, querier, work, blocks):
    sound = journal([up((1, 1)).text()])
    for what, data, code in [
        ("another magic", b"FZLK" + sound[4:], "J1 at 0"),
        ("another version", sound[:4] + b"\x02" + sound[5:], "J2 at 4"),
        ("the version of a character", sound[:4] + b"1" + sound[5:], "J2 at 4"),
        ("a journal of no byte", b"", "J1 at 0"),
        ("a journal of four bytes", b"FZLJ", "J2 at 4"),
        ("a journal of no record", sound[:5], "J8 at 0"),
        ("a journal whose head is cut short", sound[:20], "J8 at 0"),
        ("a text", b"hello\n", "J1 at 0"),
        ("zeros", bytes(4096), "J1 at 0"),
    ]:
        folder = f"{work}/{what.replace(' ', '-')}"
        os.mkdir(folder)
        with open(f"{folder}/journal", "wb") as file:
            file.write(data)
        for _ in range(2):
            server = Server(querier, "--data", folder)
            server.wait()
            looks.at(what, (1, f"refused {code}", [], {"journal": data}),
                     (server.end(), server.told, server.told_out, tree(folder)))
        looks.at(f"{what}: journal", (1, "", f"refused {code}\n"), run([querier, "journal", folder]))
    for what, make in [
        ("a file in the place of the folder", lambda path: open(path, "wb").close()),
        ("a folder in the place of the journal", lambda path: os.makedirs(f"{path}/journal")),
        ("a folder in the place of the lock", lambda path: os.makedirs(f"{path}/lock")),
        ("a folder in the place of journal.next", lambda path: os.makedirs(f"{path}/journal.next")),
    ]:
        path = f"{work}/{what.replace(' ', '-')}"
        make(path)
        before = tree(path)
        server = Server(querier, "--data", path)
        server.wait()
        looks.at(
            what, (3, True, True), (server.end(), server.told.startswith("cannot "), tree(path) == before)
        )
    server = Server(querier, "--data", f"{work}/none/none")
    server.wait()
    looks.at("a folder in one that is not there", (3, True, False),
             (server.end(), server.told.startswith("cannot "), os.path.exists(f"{work}/none")))
    folder = f"{work}/beside"
    for words in [
        ("--data", folder, *blocks[:1]),
        (*blocks[:1], "--data", folder),
        ("--data", folder, "none"),
    ]:
        server = Server(querier, *words)
        server.wait()
        looks.at(f"blocks beside --data ({' '.join(words)[-40:]})", (2, True, False),
                 (server.end(), "Usage:" in server.told, os.path.exists(folder)))
    for word in ("0", "-1", "1048577", "x", "1.5", ""):
        server = Server(querier, "--data", folder, "--journal-mb", word)
        server.wait()
        looks.at(f"--journal-mb {word!r}", (2, True, False),
                 (server.end(), "error: " in server.told, os.path.exists(folder)))
    status, _, told = run([querier, "journal", f"{work}/none"])
    looks.at("journal of what is not there", (3, f"cannot read {work}/none\n"), (status, told))
    status, _, told = run([querier, "journal"])
    looks.at("journal of nothing", (2, True), (status, "Usage:" in told))


def options(looks, querier, work):
    """The other options of `serve` beside --data."""
    folder = f"{work}/options"
    server = Server(querier, "--data", folder, "--workers", "2", "--requests", "1")
    looks.that("a server of two requests", server.wait(), server.told)
    looks.at("a write to it", OK, server.tell(up((1, 1))))
    looks.at("another write to it", OK, server.tell(up((2, 2))))
    looks.at("it ends by itself", 0, server.ended())
    server = Server(querier, "--data", folder, "--read-only")
    looks.that("a server that is read-only", server.wait(), server.told)
    looks.at("a write to it", (404, {"refused": "H3"}), server.tell(up((3, 3))))
    looks.at("the samples", {(("__name__", "up"), ("suite", "durable")): {1: 1, 2: 2}}, server.select()[1])
    server.end()
    looks.at("its journal", journal(numbered([up((1, 1)), up((2, 2))])), read(f"{folder}/journal"))


def written_by(process):
    """The files that a process has open to be written."""
    paths = []
    for name in os.listdir(f"/proc/{process}/fd"):
        # a connection may be closed meanwhile
        with contextlib.suppress(OSError):
            path = os.readlink(f"/proc/{process}/fd/{name}")
            with open(f"/proc/{process}/fdinfo/{name}") as info:
                flags = int(next(line for line in info if line.startswith("flags")).split()[1], 8)
            if flags & os.O_ACCMODE and path.startswith("/") and path != "/dev/null":
                paths.append(path)
    return paths


def in_memory(looks, querier, preload, work, blocks):
    """Without --data no file is written, wherever it is."""
    folder, opened = f"{work}/no-data", f"{work}/opened"
    os.mkdir(folder)
    env = {"HOME": folder, "TMPDIR": folder, **({"LD_PRELOAD": preload, "OPENED": opened} if preload else {})}
    server = Server(querier, *map(os.path.abspath, blocks), env=env, cwd=folder)
    looks.that("a server without --data", server.wait(), server.told)
    world = World()
    floor = 100
    for event in [
        Batch([({"__name__": "up", "suite": "durable"}, [(floor + k, k) for k in range(500)])]),
        Deletion([equals("suite", "durable")], floor + 3, floor + 9),
        Cut(floor + 250),
        up((floor + 600, 1)),
    ]:
        looks.at(f"without --data: {event.line()}", OK, server.tell(event))
        world.apply(event)
    looks.at("without --data: the samples", world.rows(), server.select()[1])
    looks.at("without --data: files open to be written", [], written_by(server.process.pid))
    with open(f"/proc/{server.process.pid}/io") as counts:
        looks.at(
            "without --data: bytes to a disk",
            "0",
            next(line.split()[1] for line in counts if line.startswith("write_bytes")),
        )
    server.end(signal.SIGTERM)
    looks.at("without --data: what its folder has", {}, tree(folder))
    if preload:
        looks.that(
            "without --data: files opened to be written",
            not os.path.exists(opened),
            os.path.exists(opened) and read(opened),
        )


def calls(looks, querier, preload, work):
    """The order of the calls on a folder, as the preloaded library tells it: what a start reads is synced,
    and each record is synced before the reply goes out."""
    if not preload:
        looks.say("there is no C compiler: the order of calls is left")
        return
    folder, events = f"{work}/calls", [
        up((1, 1)), Deletion([equals("suite", "durable")], 0, 0), Cut(1), up((2, 2)),
    ]
    for start in ("a first start", "a second start"):
        trace = f"{folder}.{start.replace(' ', '-')}"
        server = Server(
            querier, "--workers", "1", "--data", folder,
            env={"LD_PRELOAD": preload, "FOLDER": folder, "TRACE": trace},
        )
        looks.that(f"{start}: it listens", server.wait(), server.told)
        before = lines_of(trace)
        wanted = ["lock lock", "sync journal", "sync .", "read journal", "cut journal", "sync journal"]
        if start == "a first start":
            wanted = [
                "make .", "sync ..", "lock lock", "write journal.next", "sync journal.next", "sync .",
                "rename journal", "sync .",
            ]
        looks.that(f"{start}: its calls", is_within(wanted, before), before)
        looks.that(
            f"{start}: the folder and the one above are synced", {"sync .", "sync .."} <= set(before), before
        )
        touched = [line for line in before if line.split()[0] != "remove" and "journal" in line]
        looks.that(
            f"{start}: nothing before the lock", before.index("lock lock") < before.index(touched[0]), before
        )
        opened = (
            ["open journal r"] if start == "a first start" else ["open journal r", "open journal w append"]
        )
        looks.at(
            f"{start}: how the journal is opened",
            opened,
            [line for line in before if line.startswith("open journal ")],
        )
        refused = [up((0, 5)), Cut(0)] if start == "a second start" else []
        for event in refused:
            looks.at(f"{start}: {event.line()}", 409, server.tell(event)[0])
        looks.at(
            f"{start}: calls of refused events",
            ["reply"] if refused else [],
            short_of(lines_of(trace)[len(before) :]),
        )
        for event in events:
            before = lines_of(trace)
            looks.at(f"{start}: {event.line()}", OK, server.tell(event))
            lines = [line for line in lines_of(trace)[len(before):] if line != "open journal w append"]
            looks.at(f"{start}: its calls", ["write journal", "sync journal", "reply"], short_of(lines))
        before = lines_of(trace)
        server.select()
        looks.at(f"{start}: calls of a query", ["reply"], short_of(lines_of(trace)[len(before):]))
        server.end()
        events = [up((5, 5)), Deletion([equals("suite", "durable")], 2, 2), Cut(4)]


def short_of(lines):
    """Lines of which none stands twice in a row."""
    return [line for n, line in enumerate(lines) if not n or line != lines[n - 1]]


def is_within(wanted, lines):
    """Whether these lines stand among others in this order."""
    rest = iter(lines)
    return all(line in rest for line in wanted)


def folders(looks, querier, preload, work, blocks):
    one_server(looks, querier, work)
    at_once(looks, querier, work)
    new_folders(looks, querier, work)
    meanings(looks, querier, work)
    refused_folders(looks, querier, work, blocks)
    options(looks, querier, work)
    calls(looks, querier, preload, work)
    in_memory(looks, querier, preload, work, blocks)
