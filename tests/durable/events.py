"""Events of each kind at their bounds: what is acknowledged is in the journal byte for byte, and a start says
the same."""
import os

from house import (
    LEAST, MOST, OK, OPERATORS, Batch, Cut, Deletion, Head, Server, World, differences, equals, journal,
    numbered, read, recovered, refused, rolled,
)

# patterns that are dear to build, or odd; each is accepted or refused, and what is accepted is read again
PATTERNS = [
    "", ".", ".*", "a|", "(a|b)*c", "[^a]", "[[:alpha:]]+", r"\d+\.\d+", r"(?i)UP", r"(?s:.)", r"\p{Greek}+",
    "größer|ß", "日本", r"\x{1F600}", r"\w{400}", r"(\w*\W*){100}", "a{1000}", "((((a{10}){10}){10}){10})",
    "(((((((a{10}){10}){10}){10}){10}){10}){10})", "(" * 40 + "a" + ")" * 40, "x" * 256, "x" * 257, "(",
    "a**", r"\b", r"^a$", r"\z", "a\nb", 'say "hi"', "back\\\\slash", "\t\x01\x7f",
]


def labels(**more):
    return {"__name__": "odd", "suite": "durable", **more}


def bounds():
    """Events at the bounds of numbers, label sets and batches, all of which are accepted in this order."""
    yield Batch([])
    yield Batch([(labels(), [])])
    yield Batch([(labels(), [(LEAST, -(2**63)), (LEAST + 1, 2**63 - 1), (-1, 0), (0, -1)])])
    yield Batch([(labels(a="", b="x"), [(0, 1)]), (labels(b="x"), [(0, 1), (1, 2)])])
    yield Batch([({"suite": "durable"}, [(5, 5)])])
    yield Batch([(labels(text=text), [(5, n)]) for n, text in enumerate(
        ["größer", "日本語", "🙂", 'a "quote"', "a \\ backslash", "line\nfeed", "\t\r\x01", "x" * 10000])])
    yield Batch([(labels(**{f"l{n:02}": str(n) for n in range(62)}), [(5, 5)])])
    # one label set in several rows, one after another and with others between
    yield Batch(
        [
            (labels(), [(6, 1)]), (labels(), [(7, 2)]), (labels(n="1"), [(6, 3)]), (labels(), []),
            (labels(n="1"), [(7, 4)]), (labels(), [(8, 5)]),
        ]
    )
    # the same sample again, alone and before others
    yield Batch([(labels(), [(8, 5)])])
    yield Batch([(labels(), [(8, 5), (8, 5), (9, 6)])])
    yield Batch([(labels(n="2"), [(10 + k, k) for k in range(4096)])])
    yield Batch([(labels(n=f"one {n}"), [(10, n)]) for n in range(4096)])
    yield Batch([(labels(n=f"{n} " + "y" * 1900), [(10, n)]) for n in range(500)])
    yield Deletion([equals("n", "one 5")], LEAST, MOST)
    yield Deletion([equals("n", "2")], 20, 20)
    yield Deletion([equals("none", "none")], MOST, MOST)
    yield Deletion([equals("__name__", "odd"), ("text", "!=", "", lambda value: value != ""),
                    *[("n", "!=", str(n), lambda value, n=n: value != str(n)) for n in range(14)]], 0, 5)
    yield Cut(LEAST + 1)
    yield Cut(0)
    yield Batch([(labels(), [(MOST, 1)])])
    yield Cut(4000)
    yield Cut(MOST)


def compare(looks, what, server, world):
    parts, rows = server.select()
    looks.that(f"{what}: the samples", rows == world.rows(), differences(world.rows(), rows))
    looks.that(f"{what}: the parts", parts == world.parts(),
               f"{[sum(map(len, part.values())) for part in world.parts()]} samples wanted, "
               f"{[sum(map(len, part.values())) for part in parts]} there")


def kept(looks, querier, folder, events, what):
    """Events that are accepted, each compared with the world that they make; and a start after them. The
    journal is not begun anew meanwhile."""
    server, world = Server(querier, "--data", folder, "--journal-mb", "64"), World()
    looks.that(f"{what}: it starts", server.wait(), server.told)
    for event in events:
        wanted = world.judged(event)
        looks.at(f"{what}: {event.line()[:60]}", wanted, server.tell(event), tell=False)
        world.apply(event)
    compare(looks, what, server, world)
    server.end()
    looks.that(
        f"{what}: the journal", read(f"{folder}/journal") == journal(numbered(events))
    )
    server = Server(querier, "--data", folder)
    if looks.that(f"{what}: it starts again", server.wait(), server.told):
        head = Head.of(world, range(1, 1 + len(world.blocks)))
        looks.at(
            f"{what}: what it says", [recovered(len(events)), rolled(folder, head)], server.first_lines(2)
        )
        looks.that(
            f"{what}: the journal that was begun anew",
            read(f"{folder}/journal") == journal([], head.contents()),
        )
        compare(looks, f"{what}, again", server, world)
    return server, world


def blocks(looks, querier, work):
    """63 blocks, and the refusal of a 64th before a start and after it; what was refused is not kept."""
    folder, events = f"{work}/blocks", []
    for n in range(63):
        events += [Batch([(labels(n=str(n % 7)), [(10 * n, n), (10 * n + 9, -n)])]), Cut(10 * n + 5)]
    server, world = kept(looks, querier, folder, events, "63 blocks")
    for event, wanted in [
        (Cut(10**6), refused("E6")),
        (Cut(5), refused("E5")),
        (Batch([(labels(), [(1, 1)])]), refused("E1", 0)),
    ]:
        looks.at(f"beside 63 blocks: {event.line()}", wanted, server.tell(event))
    # a cut that makes no block is taken
    deletion = Deletion([equals("suite", "durable")], 625, MOST)
    looks.at("a deletion of the head", OK, server.tell(deletion))
    looks.at("a cut of nothing", OK, server.tell(Cut(10**6)))
    head = Head.of(world, range(1, 64)).contents()
    looks.that("63 blocks: the journal has no event that was refused",
               read(f"{folder}/journal") == journal([event.text() for event in (deletion, Cut(10**6))], head))
    world.apply(deletion).apply(Cut(10**6))
    server.end()
    server = Server(querier, "--data", folder)
    if looks.that("63 blocks: a third start", server.wait(), server.told):
        head = Head.of(world, range(1, 64))
        looks.at(
            "63 blocks: what a third start says",
            [recovered(2, blocks=63), rolled(folder, head)],
            server.first_lines(2),
        )
        compare(looks, "63 blocks, a third time", server, world)
        looks.at("a cut at the floor", refused("E5"), server.tell(Cut(10**6)))
        looks.at(
            "63 blocks: their folders", {str(n) for n in range(1, 64)}, set(os.listdir(f"{folder}/blocks"))
        )
    server.end()


def patterns(looks, querier, work):
    """Deletions by patterns, by each operator: those that are acknowledged are read again."""
    folder, told, count = f"{work}/patterns", [], 0
    server = Server(querier, "--data", folder)
    looks.that("patterns: it starts", server.wait(), server.told)
    for pattern in PATTERNS:
        for op in OPERATORS:
            event = Deletion([("none", op, pattern, None), equals("suite", "another")], 0, 10)
            status, reply = server.tell(event)
            if status == 200:
                told.append(event)
            else:
                looks.at(
                    f"the refusal of {event.selector()[:60]}", (400, "H6"), (status, reply["refused"]),
                    tell=False,
                )
            count += 1
    server.end()
    looks.say(f"{count} deletions by patterns, of which {len(told)} were accepted")
    looks.that(
        "patterns: the journal", read(f"{folder}/journal") == journal([event.text() for event in told])
    )
    server = Server(querier, "--data", folder)
    looks.that("patterns: a start", server.wait(), server.told)
    looks.at("patterns: what it says", recovered(len(told)), server.first_told())
    server.end()



def events(looks, querier, work):
    server, world = kept(looks, querier, f"{work}/bounds", list(bounds()), "events at their bounds")
    for event in [Batch([(labels(), [(MOST, 2)])]), Batch([(labels(), [(MOST - 1, 1)])]), Cut(MOST)]:
        looks.at(f"after them: {event.line()}", world.judged(event), server.tell(event))
    server.end()
    blocks(looks, querier, work)
    patterns(looks, querier, work)
