#!/usr/bin/env python3
"""run [PART]..: runs `querier serve --data` and compares what it says with what was sent.

It kills the server, damages its journals, has its device fail and its folder be what it should not. The
parts, of which the last four are run only if they are named, and the others if none is:
  folders  two servers over one folder, other versions, what is left over; and that no file is written without
           --data
  events   events of each kind at their bounds, 63 blocks, and patterns: the bytes of the journal, and a start
           over them
  cuts     a server that cuts by itself: when, what it refuses then, and what it tells if it may not cut
  blocks   the blocks of cuts in the folder, and the journal that is begun anew: a start that does this is
           killed at each of its calls; blocks that are missing or changed are refused, and what is not the
           store's stays
  running  a journal that is begun anew while the server runs, which is killed at each of its calls meanwhile
  damage   journals that are cut short at each of their last 4,096 bytes, or have each of their bytes changed,
           or hold contents that are no events: each is refused, and left as it is, or read as a front of what
           was sent
  faults   each write and each sync that fails in turn, a full disk, folders that are read-only
  joining  `blocktool join`: a store says the same as before in fewer blocks; the join is killed at each of
           its calls, and each of them fails; what is not joined stays as it is
  adding   `blocktool add`: a store has the samples of blocks beneath its own; killed and failing calls as
           above; what is refused
  backup   `querier backup`: beside a server that writes and rolls, each copy is the store at some moment; the
           copy is killed at each of its calls, and each of them fails; what is refused
  upkeep   a server that joins the blocks of its cuts, and with --keep lets old samples leave: it has few blocks,
           and says what a plain map says, also after it was killed at random moments; other blocks stay
           as they lie
  rounds   ROUNDS (100) crashes beside four clients: what was acknowledged is there, what was under way is
           there whole or not at all, and nothing else. In some rounds the power is cut too: what was not
           synced is lost.
  joining-live
           a server that cuts, joins and lets samples leave is killed at each of its calls meanwhile, and each
           of them fails; then its folder has no litter. With CALLS_STEP=N each nth
  meanwhile
           replies and audits while blocks are joined, in cuts of 32 times MEANWHILE_SAMPLES (500); the longest
           write and read are told, beside those without joins
  full     a full disk, and one with little room while the oldest leave; a store of 1 GB with --keep-gb,
           which takes 3 GB of disk and is left with FULL_GB=0
  year     YEAR_DAYS (367) days of cuts each two hours: blocks, memory, disk and what left late are told

SEED is the number from which all is drawn; it is told, and drawn anew if there is none. QUERIER, and
BLOCKTOOL and AUDITOR for the parts joining, adding, rounds and meanwhile, name programs that are built
already (or PREFIX, where make install put them); else they are built where they stand. It needs a C compiler
(CC) for failing_files.c; root for a disk that is full and for some folders, else these are told and left.
Exit status 0 if all is as wanted.
"""
import os
import pathlib
import random
import shutil
import signal
import subprocess
import sys
import tempfile

HERE = pathlib.Path(__file__).resolve().parent
sys.dont_write_bytecode = True
sys.path.insert(0, str(HERE.parent))
from adding import adding  # noqa: E402
from backup import backup  # noqa: E402
from blocks import blocks  # noqa: E402
from cuts import cuts  # noqa: E402
from damage import damage  # noqa: E402
from events import events  # noqa: E402
from faults import faults  # noqa: E402
from folders import folders  # noqa: E402
from full import full  # noqa: E402
from house import Looks  # noqa: E402
from joining import joining  # noqa: E402
from joining_live import joining_live  # noqa: E402
from lib import TOP, end_all, find_program  # noqa: E402
from meanwhile import meanwhile  # noqa: E402
from rounds import rounds  # noqa: E402
from running import running  # noqa: E402
from upkeep import upkeep  # noqa: E402
from year import year  # noqa: E402

PARTS = [
    "folders", "events", "cuts", "blocks", "running", "damage", "faults", "joining", "adding", "backup",
    "upkeep", "rounds",
]
# those that are run only if they are named
LONG = ["joining-live", "meanwhile", "full", "year"]


def failing_files(work):
    """The library that is preloaded into a server whose calls fail; nothing without a compiler."""
    compiler = os.environ.get("CC") or "cc"
    if not shutil.which(compiler):
        return None
    library = f"{work}/failing.so"
    subprocess.run([compiler, "-O2", "-shared", "-fPIC", "-o", library, HERE / "failing_files.c"], check=True)
    return library


def parts_of(names, preload):
    """Each part as a function of its looks and its folder."""
    querier, block = find_program("querier"), f"{TOP}/examples/good"
    others = auditor = None
    if {"joining", "adding", "rounds", "meanwhile"} & set(names):
        auditor = find_program("auditor")
    if {"joining", "adding"} & set(names):
        others = find_program("blocktool"), auditor
    count = int(os.environ.get("ROUNDS") or 100)
    seed = os.environ.get("SEED") or str(random.SystemRandom().randrange(10**6))
    return {
        "folders": lambda looks, work: folders(looks, querier, preload, work, [block]),
        "events": lambda looks, work: events(looks, querier, work),
        "cuts": lambda looks, work: cuts(looks, querier, preload, work, block),
        "blocks": lambda looks, work: blocks(looks, querier, preload, work),
        "running": lambda looks, work: running(looks, querier, preload, work, count, seed),
        "damage": lambda looks, work: damage(looks, querier, work, seed),
        "faults": lambda looks, work: faults(looks, querier, preload, work),
        "joining": lambda looks, work: joining(looks, querier, others, preload, work),
        "adding": lambda looks, work: adding(looks, querier, others, preload, work),
        "backup": lambda looks, work: backup(looks, querier, preload, work, count),
        "upkeep": lambda looks, work: upkeep(looks, querier, work, seed),
        "rounds": lambda looks, work: rounds(looks, (querier, auditor), preload, work, count, seed),
        "joining-live": lambda looks, work: joining_live(looks, querier, preload, work),
        "meanwhile": lambda looks, work: meanwhile(looks, querier, auditor, work, seed),
        "full": lambda looks, work: full(looks, querier, work),
        "year": lambda looks, work: year(looks, querier, work, seed),
    }


def run(part, name, work):
    """Runs a part in a folder of its own, and gives what it looked at."""
    looks = Looks(name)
    os.mkdir(f"{work}/{name}")
    part(looks, f"{work}/{name}")
    looks.done()
    return looks


def main(names):
    for name in names:
        if name not in PARTS + LONG:
            sys.exit(f"tests/durable: there is no part {name}; the parts are {', '.join(PARTS + LONG)}")
    names = names or PARTS
    # a run that is cut off kills its servers too
    signal.signal(signal.SIGTERM, lambda *_: sys.exit(143))
    with tempfile.TemporaryDirectory(ignore_cleanup_errors=True) as work:
        # a user without privileges enters it
        os.chmod(work, 0o711)
        parts = parts_of(names, failing_files(work))
        try:
            looks = [run(parts[name], name, work) for name in names]
        finally:
            end_all()
    passed, failed = sum(one.passed for one in looks), sum(one.failed for one in looks)
    print(f"{passed} passed, {failed} failed")
    return 1 if failed else 0


if __name__ == "__main__":
    sys.exit(main(sys.argv[1:]))
