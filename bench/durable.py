#!/usr/bin/env python3
"""durable [--folder FOLDER] [--rounds N] [--quick]: measures `querier serve` with --data and without.

In one run it starts both on free ports of 127.0.0.1, the first over a new folder below FOLDER (TMPDIR), which
has to be on a real disk, and prints one table as Markdown, in ratios, with what one fdatasync of 4 kB takes
there:
  writes    4,096 samples of 256 series by one client and four, 100 samples by 16 clients, each in turn with
            the server without --data
  reads     of one series by four clients, while nobody writes
  bytes     the journal beside the bodies of the requests
  start     the samples of a journal that a start replays in a second, less what a start over nothing takes
Rates are medians of N turns of a second (5). A target that is missed is told.

QUERIER names a program that is built already (or PREFIX, where make install put it); else it is built where
it stands. It needs rustc. All that it makes is removed at the end. Exit status: 0 if all was measured, 1 if
something did not run, 2 for words that it does not know, 130 or 143 if it was interrupted."""
import json
import os
import shutil
import statistics
import sys
import tempfile
import time
import urllib.request

sys.dont_write_bytecode = True
from peers_house import (  # noqa: E402
    MB, Failed, House, find_program, parser_of, run, run_to_end, select_target, tell, words_of,
)
from peers_table import Table, milli  # noqa: E402

# the work, series and samples of each in a batch, clients, and the least beside the server without --data
BATCHES = [
    ("4,096 samples of 256 series", 256, 16, 1, None),
    ("4,096 samples of 256 series", 256, 16, 4, 0.6),
    ("100 samples of 100 series", 100, 1, 16, None),
]
# of these the journal is held beside the bodies
SHAPES = [(256, 16), (4096, 1), (100, 1)]
SMALL = '{__name__="metric_3",instance="host-00012:9100"}'


class Data(House):
    """A house whose servers may keep what they are told in folders of a disk."""

    def __init__(self, querier, above):
        super().__init__(querier, None)
        self.disk = tempfile.mkdtemp(prefix="fuzzledge-durable-", dir=above)
        self.count = 0

    def __exit__(self, *all):
        shutil.rmtree(self.disk, ignore_errors=True)
        super().__exit__(*all)

    def fresh(self):
        self.count += 1
        return f"{self.disk}/data{self.count}"

    def keeping(self, folder):
        # no start begins the journal anew
        return self.serving("--journal-mb", "1048576", "--data", folder)


def sync_times(folder, count):
    """The milliseconds of each of so many appends of 4 kB that are synced."""
    times, piece = [], bytes(4096)
    path = f"{folder}/synced"
    fd = os.open(path, os.O_WRONLY | os.O_CREAT | os.O_APPEND)
    for _ in range(count):
        os.write(fd, piece)
        before = time.perf_counter()
        os.fdatasync(fd)
        times.append((time.perf_counter() - before) * 1e3)
    os.close(fd)
    os.remove(path)
    return times


def writes(house, table, rounds):
    table.title("Writes, million samples a second", "without `--data`")
    with house.keeping(house.fresh()) as kept, house.serving() as memory:
        for work, series, samples, clients, least in BATCHES:
            tell(f"writes: {clients} clients, {work}")
            rates = {kept: [], memory: []}
            for _ in range(rounds):
                for server, found in rates.items():
                    told = house.load(server.port, clients, 1, "write", series, samples)
                    if told["bad"]:
                        raise Failed(f"{told['bad']} batches were refused")
                    found.append(told["rate"])
            here, beside = (statistics.median(found) for found in rates.values())
            million = series * samples / 1e6
            ratio = here / beside
            clients_told = "one client" if clients == 1 else f"{clients} clients"
            table.row(
                f"{work}, {clients_told}", f"{here * million:.2f}", f"{beside * million:.2f}", f"{ratio:.2f}",
                f"{least} and more" if least else "", not least or ratio >= least,
            )
            if clients == 16:
                times = sync_times(house.disk, 100)
                each = 1e3 / statistics.mean(times)
                table.row(
                    "the same, replies a second, beside one `fdatasync` each", f"{here:,.0f}", f"{each:,.0f}",
                    f"{here / each:.2f}", "5 and more", here / each >= 5,
                )


def reads(house, table, rounds):
    tell("reads")
    table.title("Reads, replies a second", "without `--data`")
    with house.keeping(house.fresh()) as kept, house.serving() as memory:
        for server in (kept, memory):
            house.tool("load", server.port, "fill", 10_000, 12)
        rates = {kept: [], memory: []}
        for _ in range(rounds):
            for server, found in rates.items():
                found.append(house.load(server.port, 4, 1, "get", select_target(SMALL))["rate"])
        here, beside = (statistics.median(found) for found in rates.values())
        table.row("one series of 10,000, 4 clients", f"{here:,.0f}", f"{beside:,.0f}", f"{here / beside:.2f}",
                  "0.95 and more", here / beside >= 0.95)


def body_of(series, samples, turn):
    """A body as bench/load.rs sends it."""
    def row(n):
        labels = {"__name__": "load", "client": "0", "n": str(n), "run": "12345"}
        times = (1_750_000_000_000 + (turn * samples + k) * 1000 for k in range(samples))
        return {"labels": labels, "samples": [[t, n * 7 + k] for k, t in enumerate(times)]}

    return json.dumps([row(n) for n in range(series)], separators=(",", ":")).encode()


def sizes(house, table):
    table.title("Journal, bytes a sample", "bodies")
    for series, samples in SHAPES:
        folder = house.fresh()
        with house.keeping(folder) as server:
            sent, before = 0, os.path.getsize(f"{folder}/journal")
            for turn in range(5):
                body = body_of(series, samples, turn)
                sent += len(body)
                urllib.request.urlopen(f"http://127.0.0.1:{server.port}/write", body, 60).close()
            grown, count = os.path.getsize(f"{folder}/journal") - before, 5 * series * samples
        table.row(
            f"{series * samples:,} samples of {series:,} series", f"{grown / count:.1f}",
            f"{sent / count:.1f}", f"{grown / sent:.2f}", "1.2", grown / sent <= 1.2,
        )


def start_of(house, folder):
    """The seconds until a server over the folder listens, and its memory."""
    before = time.perf_counter()
    with house.keeping(folder) as server:
        return time.perf_counter() - before, server.peak()


def starts(house, table, rounds, quick):
    table.title("A start, million samples a second", "seconds, journal, peak memory")
    nothing = house.fresh()
    start_of(house, nothing)
    alone = min(start_of(house, nothing)[0] for _ in range(3))
    series = 1_000 if quick else 10_000
    for work, fill in [
        (f"{series:,} x 120 in batches of 34 series", ("fill", series, 120)),
        ("100 samples of 100 series each", None),
    ]:
        tell(f"start: {work}")
        folder = house.fresh()
        with house.keeping(folder) as server:
            if fill:
                house.tool("load", server.port, *fill)
                count = fill[1] * fill[2]
            else:
                told = house.tool("load", server.port, 16, 2 if quick else 5, "write", 100, 1).split()
                count = int(told[0]) * 100
        size = os.path.getsize(f"{folder}/journal") / MB
        found = [start_of(house, folder) for _ in range(min(3, rounds))]
        took = min(seconds for seconds, _ in found)
        rate = count / max(took - alone, 1e-3) / 1e6
        table.row(
            f"{count:,} samples: {work}",
            f"{rate:.2f}",
            f"{took:.2f} (over nothing {alone:.2f}), {size:.0f} MB, {max(peak for _, peak in found):.0f} MB",
            "",
            "2 million" if fill else "",
            not fill or rate >= 2,
        )
        shutil.rmtree(folder)


def main():
    parser = parser_of(__doc__, 5)
    parser.add_argument("--folder", default=tempfile.gettempdir(), metavar="FOLDER")
    words = words_of(parser)
    kind = run(["stat", "-f", "-c", "%T", words.folder]).strip()
    if kind in ("tmpfs", "ramfs"):
        raise Failed(f"{words.folder} is in memory ({kind}): name a folder of a disk by --folder")
    rounds = min(2, words.rounds) if words.quick else words.rounds
    with Data(find_program("querier"), words.folder) as house:
        times = sorted(sync_times(house.disk, 50 if words.quick else 200))
        print(
            f"One `fdatasync` of 4 kB in {words.folder} ({kind}): {milli(statistics.median(times))} ms, mean "
            f"{milli(statistics.mean(times))}, 99th {milli(times[len(times) * 99 // 100])}.\n"
        )
        table = Table()
        writes(house, table, rounds)
        reads(house, table, rounds)
        sizes(house, table)
        starts(house, table, rounds, words.quick)
        table.done()


if __name__ == "__main__":
    run_to_end(main)
