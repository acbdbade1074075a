"""The classes of bench/peers.py that run programs over files: command and audits."""
import os

from peers_house import MB, Cost, tell
from peers_http import ALL
from peers_table import milli

ONE = 'metric_3{instance="host-00500:9100"}'
# the series and samples of a block, and the most of the time of `sha256sum` of its files
COMMANDS = [
    (10_000, 120, {"`select` of one series": 0.2, "`select` of all into a file": 0.7}),
    (100_000, 60, {"`select` of one series": 0.1, "`select` of all into a file": 0.5}),
    (1_048_576, 1, {"`check` on 4 processors": 0.4, "`check` on 2 processors": 0.65}),
]
# the block and the selector, which program's time is compared, and the most of it
AUDITS = [
    (100_000, 60, "one series", ONE, "check", 1.2),
    (10_000, 120, "all", ALL, "select", 4),
]


def files_of(folder):
    return [f"{folder}/{name}" for name in ("meta.json", "index", "chunks/000001", "tombstones")]


def megabytes(*paths):
    return sum(os.path.getsize(path) for path in paths) / MB


def works_of(block, is_large):
    """The name, the words and the processors of each work over a block."""
    yield "`check` on 4 processors", ["check", block], 4
    yield "`check` on 2 processors", ["check", block], 2
    yield "`select` of one series", ["select", ONE, block], None
    if not is_large:
        yield "`select` of all into a file", ["select", ALL, block], None


def command(house, table, rounds, quick):
    table.title("Command line, ms and peak memory", "`sha256sum` of the files")
    for series, samples, targets in COMMANDS:
        block = house.block(series, samples)
        files = files_of(block)
        for name, words, processors in works_of(block, series > 1_000_000):
            work, most = f"{name}, {series:,} x {samples}", targets.get(name)
            if processors and processors > os.cpu_count():
                table.row(work, "", "not so many processors here")
                continue
            tell(f"command: {work}")
            here, sums = Cost(), Cost()
            for _ in range(3 if quick else 5):
                sums.add(["sha256sum", *files], processors=processors)
                here.add([house.querier, *words], f"{house.work}/reply", processors=processors)
            ratio, target, met = here.median / sums.median, most or "", True
            if most:
                met = ratio <= most
            if most and series > 1_000_000:
                target, met = f"{most}, 350 MB", met and here.peak <= 350
            table.row(work, f"{milli(here.median)}, {here.peak:.0f} MB",
                      f"{milli(sums.median)}, {megabytes(*files):.0f} MB", f"{ratio:.2f}", target, met)


def audits(house, table, rounds, quick):
    table.title("Audits, ms and peak memory", "`check`, `select`")
    for series, samples, name, selector, other, most in AUDITS:
        work = f"{name} of {series:,} x {samples}"
        tell(f"audits: {work}")
        block, reply = house.block(series, samples), f"{house.work}/reply"
        costs = {"check": Cost(), "select": Cost(), "audit": Cost()}
        for _ in range(1 if quick else 3):
            costs["check"].add([house.querier, "check", block])
            costs["select"].add([house.querier, "select", selector, block], reply)
            costs["audit"].add([house.auditor, "--selector", selector, block], given=reply)
        here = costs["audit"]
        ratio = here.median / costs[other].median
        bound = megabytes(*files_of(block)) + 2 * megabytes(reply)
        table.row(work, f"{milli(here.median)}, {here.peak:.0f} MB",
                  f"{milli(costs['check'].median)}, {milli(costs['select'].median)}",
                  f"{ratio:.2f} of `{other}`", f"{most}, {bound:.0f} MB",
                  ratio <= most and here.peak <= bound)
