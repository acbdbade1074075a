#!/usr/bin/env python3
"""peers [--only CLASS].. [--rounds N] [--quick]: measures each class of work beside others.

In one run on this machine it starts `querier serve`, Prometheus and VictoriaMetrics (Debian: prometheus,
victoria-metrics) over the same samples, on free ports of 127.0.0.1, and prints one table as Markdown. A peer
that is not installed is left out, which is told. The classes:
  http      the same selectors asked of all three in turn, over new connections and over kept ones where a
            peer keeps them; all must reply with as many series and samples
  writes    batches to `querier` and to the import of VictoriaMetrics, by one client, four and sixteen
  remote    remote write and remote read, by the bytes that a Prometheus sends, over new connections
  memory    the peak memory of `querier` while 16 clients ask for a large reply
  patterns  patterns that are dear to build, and a small query beside eight clients that send one
  command   `select` and `check` beside `sha256sum` of the same files
  audits    `auditor` beside `check` and `select`
Times are medians: in `http` of N rounds (15), twenty times as many for one series, a third for large replies;
of one to five elsewhere. Memory is the greatest. A target that is missed is told. --quick leaves the servers
over 100,000 x 60 out, and takes few rounds.

QUERIER and AUDITOR name programs that are built already (or PREFIX, where make install put them); else they
are built where they stand. It needs rustc. All that it makes is in a folder below TMPDIR, and is removed at
the end. Exit status: 0 if all was measured, 1 if something did not run or replies differ, 2 for words that it
does not know, 130 or 143 if it was interrupted."""
import sys

sys.dont_write_bytecode = True
from peers_files import audits, command  # noqa: E402
from peers_house import PEERS, House, find_program, parser_of, present, run_to_end, words_of  # noqa: E402
from peers_http import http, memory, patterns, writes  # noqa: E402
from peers_remote import remote  # noqa: E402
from peers_table import Table  # noqa: E402

CLASSES = {one.__name__: one for one in (http, writes, remote, memory, patterns, command, audits)}


def main():
    parser = parser_of(__doc__, 15)
    parser.add_argument("--only", action="append", choices=CLASSES, metavar="CLASS",
                        help="measures this class alone, or those that are named")
    words = words_of(parser)
    with House(find_program("querier"), find_program("auditor")) as house:
        for peer in PEERS:
            if not present(peer):
                print(f"{peer} is not installed here, and left out.\n")
        table = Table()
        for name in words.only or CLASSES:
            CLASSES[name](house, table, min(3, words.rounds) if words.quick else words.rounds, words.quick)
    table.done()


if __name__ == "__main__":
    run_to_end(main)
