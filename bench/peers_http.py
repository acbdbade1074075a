"""The classes of bench/peers.py that ask servers: http, writes, memory and patterns."""
import statistics
import subprocess
import time

from peers_house import MB, Failed, tell
from peers_table import milli

SMALL = 'metric_3{instance="host-00012:9100"}'
MIDDLE = '{job="job-07"}'
ALL = '{dc="main"}'
BLOCKS = [(10_000, 120), (100_000, 60)]
# the work, its selector, and the most of the faster peer's time over new connections and kept ones
SELECTORS = [
    ("one series", SMALL, 0.5, 0.7),
    ("one in a hundred", MIDDLE, 0.6, None),
    ("`!=` within one metric", 'metric_3{job!="job-07"}', 0.6, None),
    ("`!~` within one metric", 'metric_3{job!~"job-[01].*"}', 0.6, None),
    ("an absent label within one metric", 'metric_3{zone=""}', 0.6, None),
    ("all", ALL, 0.4, None),
]
# the work, the series and the samples of each in a batch, the clients, and the least beside the peer
BATCHES = [
    ("4,096 samples of 256 series", 256, 16, 1, 1.0),
    ("4,096 samples of 256 series", 256, 16, 4, 1.5),
    ("4,096 samples of 4,096 series", 4096, 1, 1, None),
    ("4,096 samples of 4,096 series", 4096, 1, 4, None),
    ("100 samples of 100 series", 100, 1, 16, None),
]
NESTED = "(((((((a{10}){10}){10}){10}){10}){10}){10}){10}"
# refused; and accepted, the dearest that were found
PATTERNS = [NESTED, "\\w{400}", "(\\w*\\W*){100}"]


def asked_in_turn(house, servers, selector, rounds, kept=True):
    """Of each server by its name: milliseconds over new connections, and over a kept one, and the
    reply's bytes; and the number of series, which is the same of all, as is that of samples."""
    lines = [(server, "new") for server in servers]
    lines += [(server, "kept") for server in servers[1:] if kept]
    asked = "".join(f"{how} {server.port} {server.target(selector)}\n" for server, how in lines)
    told = [line.split() for line in house.tool("turns", rounds, input=asked).splitlines()]
    counts = {(series, samples) for _, _, _, series, samples in told}
    if len(counts) != 1:
        each = [f"{one.name} {line[3]} and {line[4]}" for (one, _), line in zip(lines, told)]
        raise Failed(f"{selector}: series and samples differ: {'; '.join(each)}")
    found = {}
    for (server, how), (middle, _, size, _, _) in zip(lines, told):
        found.setdefault(server.name, {"bytes": int(size)})[how] = float(middle)
    return found, int(told[0][3])


def compared(here, others, most, kept_most):
    """The ratios to the faster of the peers, their target, and whether it is met."""
    if not others:
        return "", "", True
    ratio = here / min(one["new"] for one in others)
    text, met = f"{ratio:.2f}", not most or ratio <= most
    if "kept" in others[0]:
        kept = here / min(one["kept"] for one in others)
        text += f" ({kept:.2f})"
        met = met and (not kept_most or kept <= kept_most)
    return text, f"{most or ''}{f' ({kept_most})' if kept_most else ''}", met


def size_of(count):
    return f"{count / 1e3:.0f} kB" if count < 1e6 else f"{count / MB:.0f} MB"


def selector_of(pattern):
    """A selector with a pattern, whose backslashes are escaped."""
    return '{a=~"' + pattern.replace("\\", "\\\\") + '"}'


def rounds_of(selector, rounds, is_large):
    if selector == SMALL:
        return rounds * 20
    is_dear = selector == ALL or is_large and selector != MIDDLE
    return max(3, rounds // 3) if is_dear else rounds


def http(house, table, rounds, quick):
    for series, samples in BLOCKS[:1] if quick else BLOCKS:
        is_large = series > 10_000
        tell(f"http: the servers get {series} series of {samples} samples")
        block = house.block(series, samples)
        with house.serving(block) as querier, house.peers(series, samples) as peers:
            names = ", ".join(f"{one.name} (kept)" for one in peers)
            table.title(f"HTTP, {series:,} x {samples}, ms", names)
            servers = [querier, *peers]
            for work, selector, most, kept_most in SELECTORS:
                most = None if is_large and selector == ALL else most
                count = rounds_of(selector, rounds, is_large)
                selector_row(house, table, servers, work, selector, count, (most, kept_most))
            if not is_large:
                at_once(house, table, servers, 1 if quick else 2)
            here, *others = (f"{one.peak():.0f}" for one in servers)
            table.row("peak memory after these, MB", here, ", ".join(others))


def selector_row(house, table, servers, work, selector, rounds, targets):
    """Asks for a selector, and prints its row."""
    tell(f"http: {work}")
    found, series = asked_in_turn(house, servers, selector, rounds, kept=selector != ALL)
    here, *others = (found[one.name] for one in servers)
    beside = ", ".join(
        milli(one["new"]) + (f" ({milli(one['kept'])})" if "kept" in one else "") for one in others)
    table.row(f"{work}: {series:,} series, {size_of(here['bytes'])}", milli(here["new"]), beside,
              *compared(here["new"], others, *targets))


def at_once(house, table, servers, seconds):
    tell("http: 16 clients")
    rates = [house.load(one.port, 16, seconds, "get", one.target(SMALL))["rate"] for one in servers]
    here, *others = (f"{rate:,.0f}" for rate in rates)
    table.row("one series, 16 clients: replies a second", here, ", ".join(others), "", "30,000",
              rates[0] >= 30_000)


def writes(house, table, rounds, quick):
    with house.serving() as querier, house.victoria_if() as victoria:
        ways = [("write", querier)]
        if victoria:
            ways += [("import", victoria), ("import-kept", victoria)]
        table.title("Writes, million samples a second", "VictoriaMetrics (kept)" if victoria else "")
        for work, series, samples, clients, least in BATCHES:
            tell(f"writes: {clients} clients, {work}")
            here, *others = rates_in_turn(house, ways, 1 if quick else 3, (clients, series, samples))
            beside, ratio, target, met = "", "", "", True
            if others:
                beside = f"{others[0]:.2f} ({others[1]:.2f})"
                ratio = f"{here / others[0]:.2f} ({here / others[1]:.2f})"
            if others and least:
                target, met = f"{least} and more", here >= least * max(others)
            if clients == 16:
                target, met = "1.5 million", here >= 1.5
            clients = "one client" if clients == 1 else f"{clients} clients"
            table.row(f"{work}, {clients}", f"{here:.2f}", beside, ratio, target, met)
        table.row("peak memory after these, MB", f"{querier.peak():.0f}",
                  f"{victoria.peak():.0f}" if victoria else "")


def rates_in_turn(house, ways, turns, batch):
    """The median rate of each way to write, a second each in turn, in millions of samples."""
    clients, series, samples = batch
    rates = {way: [] for way, _ in ways}
    for _ in range(turns):
        for way, server in ways:
            told = house.load(server.port, clients, 1, way, series, samples)
            if told["bad"]:
                raise Failed(f"{server.name} refused {told['bad']} batches ({way})")
            rates[way].append(told["rate"] * series * samples / 1e6)
    return [statistics.median(one) for one in rates.values()]


def memory(house, table, rounds, quick):
    tell("memory: 16 clients")
    with house.serving(house.block(10_000, 120)) as querier:
        before = querier.peak()
        found, _ = asked_in_turn(house, [querier], ALL, 1)
        reply = found["querier"]["bytes"] / MB
        house.load(querier.port, 16, 2 if quick else 4, "get", querier.target(ALL))
        each = (querier.peak() - 40) / 16 / reply
        table.title("Memory, MB")
        table.row("16 clients at all of 10,000 x 120", f"{querier.peak():,.0f}",
                  f"{before:.0f} before, a reply of {reply:.0f}", f"40 and {each:.2f} of a reply each",
                  "40 and 1.2", each <= 1.2)


def patterns(house, table, rounds, quick):
    table.title("Patterns, ms more than a plain selector takes")
    for pattern in PATTERNS:
        tell(f"patterns: {pattern}")
        first, again, grown = [], [], []
        for _ in range(2 if quick else 5):
            with house.serving(workers=1) as querier:
                plain, dear = querier.target('{a="b"}'), querier.target(selector_of(pattern))
                usual = statistics.median(querier.ask(plain) for _ in range(30))
                before = querier.peak()
                first.append(querier.ask(dear) - usual)
                more = 1 if querier.ask(dear) > 20 else 30
                again.append(statistics.median(querier.ask(dear) for _ in range(more)) - usual)
                grown.append(querier.peak() - before)
        built, later, grew = statistics.median(first), statistics.median(again), max(grown)
        table.row(f"`{pattern}`", f"{milli(built)}, {grew:.0f} MB", "", "", "50, 16 MB",
                  built <= 50 and grew <= 16)
        table.row("the same again", milli(max(0.0, later)), "", "", "0.1", later <= 0.1)
    with house.serving(house.block(10_000, 120), workers=4) as querier:
        beside_patterns(house, table, querier, 15 if quick else 60)


def beside_patterns(house, table, querier, rounds):
    """A small query alone, and beside eight clients that send a pattern."""
    asked = f"new {querier.port} {querier.target(SMALL)}\n"
    dear = querier.target(selector_of(NESTED))
    alone = house.tool("turns", 300, input=asked).split()
    load = [f"{house.work}/load", str(querier.port), "8", "60", "get", dear]
    clients = subprocess.Popen(load, stdout=subprocess.DEVNULL)
    try:
        time.sleep(0.5)  # until each of them has begun
        told = house.tool("turns", rounds, input=asked).split()
    finally:
        clients.kill()
        clients.wait()
    here, most, usual = float(told[0]), float(told[1]), float(alone[0])
    table.row("one series, four workers, beside eight clients that send the first",
              f"{milli(here)}, most {milli(most)}", f"alone {milli(usual)}", f"{here / usual:,.0f}")
