#!/usr/bin/env python3
"""scripts: runs the scripts of tests/ that this machine has the programs for.

    tests/scripts.py [NAME ..]

With names only these run. The longest parts of tests/durable are run by `make year` alone. It builds those of
`querier`, `auditor`, `explain` and `blocktool` that they need once (RT), or takes those that QUERIER, AUDITOR,
EXPLAIN and BLOCKTOOL name (or PREFIX, where make install put them), and hands them to the scripts. JOBS scripts
run side by side (half of the processors if it is not set): each has its own folder and ports. Those that look at
time or memory, or have the prover at work, run alone after the others.

Each script is told when it ends; at the end are those that passed, those that failed and those that were left
out, and why. What a script prints is left in a folder, which is told if one failed. Exit status 0 if none
failed.
"""
import concurrent.futures
import os
import pathlib
import shutil
import subprocess
import sys
import tempfile
import time

sys.dont_write_bytecode = True
from lib import CRATES, TOP, find_program  # noqa: E402

# the variables that name programs of this machine, if they are not of that name
VARIABLES = {"cc": "CC", "chromium": "CHROMIUM", "rt": "RT", "rustc": "RUSTC"}
ALL = " ".join(CRATES)
HTML = "tests/pages-html.py"
# Each has a name, the programs that it asks, the programs of this machine that it needs, and the command.
# Those that take long are first.
BESIDE = [
    ("importing", "querier auditor blocktool", "promtool prometheus curl python3", "tests/importing.sh"),
    ("store-audits", "querier auditor blocktool", "", "tests/store_audits.py"),
    ("audits", "querier auditor", "rustc curl", "tests/audits.sh"),
    ("scraping", "querier", "prometheus promtool curl python3", "tests/scraping.sh"),
    ("serving", "querier", "curl awk python3", "tests/serving.sh"),
    ("nginx", "querier", "nginx openssl curl python3", "tests/nginx.sh"),
    ("browser", "querier", "chromium curl python3", "tests/browser.sh"),
    ("port-browser", "querier", "chromium", "tests/port-browser.py"),
    (
        "live", "querier", "prometheus promtool vmagent",
        "tests/live/run.py rules hostile meanings same viewer shared vmagent",
    ),
    ("live-pages", "querier", "", "tests/live/run.py pages"),
    ("scaling", "querier auditor", "rustc", "tests/scaling.py"),
    ("readme", ALL, "curl python3", "tests/readme.sh"),
    ("pages", ALL, "", "tests/pages.py"),
    ("progress", "querier", "", "tests/progress.py"),
]
ALONE = [
    ("pages-html", "explain", "", HTML),
    (
        "pages-browser", "explain", "chromium",
        f'{HTML} "$WORK" && tests/pages-browser.py "$WORK" "$WORK"/*.html',
    ),
    ("live-killed", "querier", "prometheus promtool", "tests/live/run.py silent killed"),
    ("durable", "querier auditor blocktool", "cc", "tests/durable/run.py"),
    ("allocations", "", "cc rt", "tests/allocations.sh"),
]


def lacking(tools):
    """The programs that this machine does not have."""
    names = [os.environ.get(VARIABLES.get(tool, "")) or tool for tool in tools.split()]
    return [name for name in names if shutil.which(name) is None]


def run(row, logs):
    """Runs a script: its name, what became of it, and more of that."""
    name, _, tools, command = row
    if absent := lacking(tools):
        return name, "left out", f"{' and '.join(absent)} {'is' if len(absent) == 1 else 'are'} not here"
    began = time.monotonic()
    with tempfile.TemporaryDirectory() as work, open(logs / name, "w", encoding="utf-8") as log:
        done = subprocess.run(
            ["bash", "-c", command], cwd=TOP, env={**os.environ, "WORK": work}, stdin=subprocess.DEVNULL,
            stdout=log, stderr=subprocess.STDOUT,
        )
    took = f"{time.monotonic() - began:.0f} s"
    return (
        (name, "failed", f"status {done.returncode}, {took}") if done.returncode else (name, "passed", took)
    )


def results(beside, alone, logs):
    """Runs the scripts, and gives what became of each when it ends."""
    jobs = int(os.environ.get("JOBS") or max(1, (os.cpu_count() or 2) // 2))
    with concurrent.futures.ThreadPoolExecutor(jobs) as pool:
        for ended in concurrent.futures.as_completed([pool.submit(run, row, logs) for row in beside]):
            yield ended.result()
    for row in alone:
        yield run(row, logs)


def main(names):
    unknown = set(names) - {row[0] for row in BESIDE + ALONE}
    if unknown:
        sys.exit(f"scripts: no script is named {' or '.join(sorted(unknown))}")
    beside, alone = ([row for row in rows if not names or row[0] in names] for rows in (BESIDE, ALONE))
    for program in CRATES:
        if any(program in row[1].split() and not lacking(row[2]) for row in beside + alone):
            os.environ[program.upper()] = find_program(program)
    logs = pathlib.Path(tempfile.mkdtemp(prefix="scripts-"))
    ended = {"passed": [], "failed": [], "left out": []}
    for name, what, more in results(beside, alone, logs):
        print(f"{name}: {what} ({more})", flush=True)
        ended[what].append(f"{name} ({more})")
    print()
    for what, scripts in ended.items():
        print(f"{what}: {', '.join(scripts) or 'none'}")
    if ended["failed"]:
        print(f"what they printed is in {logs}")
    else:
        shutil.rmtree(logs)
    print(", ".join(f"{len(scripts)} {what}" for what, scripts in ended.items()))
    return 1 if ended["failed"] else 0


if __name__ == "__main__":
    sys.exit(main(sys.argv[1:]))
