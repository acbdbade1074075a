#!/usr/bin/env python3
"""scaling: asks four queriers over the quarters of a block, and one over the whole of it.

Each of the four has a quarter of the series of one block (cut by the label `job`). A front asks all four and
joins their rows. The rows must be those of the querier over the whole block, and the auditor must find each
of the four replies valid for its own directory (docs/SCALING.md says what that means).

QUERIER and AUDITOR name programs that are built already (or PREFIX, where make install put them); else they
are built where they stand. The block has SERIES (4000) of SAMPLES (120). It needs rustc (RUSTC). Exit status
0 if all is as wanted.
"""
import concurrent.futures
import heapq
import json
import os
import subprocess
import sys
import tempfile
import time
import urllib.parse
import urllib.request

sys.dont_write_bytecode = True
from lib import TOP, Running, end_all, find_program  # noqa: E402

SELECTORS = [
    'metric_3{job="job-07"}', 'metric_0{code!="200"}', 'metric_1{zone=~"a|b"}', '{dc="main"}', '{job="none"}',
]


def make_blocks(work):
    """The whole block, and the four shares of its series."""
    tool = f"{work}/make_block"
    compiler = os.environ.get("RUSTC") or "rustc"
    subprocess.run([compiler, "-O", TOP / "bench" / "make_block.rs", "-o", tool], check=True)
    size = [os.environ.get("SERIES") or "4000", os.environ.get("SAMPLES") or "120"]
    subprocess.run([tool, *size, f"{work}/whole"], check=True)
    shares = [f"{work}/{share}" for share in range(4)]
    for number, share in enumerate(shares):
        subprocess.run([tool, *size, share, str(number), "4"], check=True)
    return f"{work}/whole", shares


def port_over(querier, folder):
    """The port of a server over a block."""
    server = Running([querier, "serve", "--port", "0", "--workers", "2", folder])
    if not server.wait():
        sys.exit(f"scaling: a server does not listen: {server.told}")
    return server.port


def ask(port, selector):
    query = urllib.parse.urlencode({"selector": selector, "from": -2**62, "to": 2**62 - 1})
    with urllib.request.urlopen(f"http://127.0.0.1:{port}/select?{query}") as reply:
        return reply.read()


def front(ports, selector):
    """Asks all of them, and joins their rows in label order; a label set is in one of them alone."""
    with concurrent.futures.ThreadPoolExecutor(len(ports)) as pool:
        replies = list(pool.map(lambda port: ask(port, selector), ports))
    parts = (json.loads(reply)["rows"] for reply in replies)
    return replies, list(heapq.merge(*parts, key=lambda row: list(row["labels"].items())))


def is_valid(auditor, selector, folder, reply):
    judged = subprocess.run([auditor, "--selector", selector, folder], input=reply, capture_output=True)
    return judged.returncode == 0 and judged.stdout.startswith(b"block 0: valid\n")


def compare(auditor, whole, ports, shares, selector):
    """Whether the rows of a selector are the same, and each reply is valid; and prints what it took."""
    began = time.perf_counter()
    alone = json.loads(ask(whole, selector))["rows"]
    between = time.perf_counter()
    replies, rows = front(ports, selector)
    ended = time.perf_counter()
    valid = sum(is_valid(auditor, selector, *one) for one in zip(shares, replies))
    print(f"{selector}: {len(rows)} rows, {'the same' if rows == alone else 'OTHERS'}; "
          f"{valid} of {len(replies)} certificates valid; "
          f"one {1000 * (between - began):.1f} ms, four {1000 * (ended - between):.1f} ms", flush=True)
    return rows == alone and valid == len(shares)


def main():
    querier, auditor = find_program("querier"), find_program("auditor")
    with tempfile.TemporaryDirectory() as work:
        try:
            block, shares = make_blocks(work)
            whole, *ports = [port_over(querier, folder) for folder in (block, *shares)]
            good = [compare(auditor, whole, ports, shares, selector) for selector in SELECTORS]
        finally:
            end_all()
    print(f"{len(good)} selectors, {good.count(False)} not as wanted")
    return 0 if all(good) else 1


if __name__ == "__main__":
    sys.exit(main())
