#!/usr/bin/env python3
"""Holds the port of Prometheus against real senders and readers, and against hand-made bodies.

    tests/live/run.py [PART..]   rules pages hostile silent meanings same viewer shared killed vmagent; all if
    none is named

QUERIER names the program, or PREFIX says where `make install` put it; else it is built (RT). `rules`,
`pages`, `hostile`, `silent` and `meanings` need nothing else, `same`, `viewer`, `shared` and `killed` need
prometheus and promtool, `vmagent` needs vmagent. SECONDS is how long a Prometheus scrapes (45), KILLS how
often the store is killed (20)."""
import contextlib
import hashlib
import json
import os
import pathlib
import random
import re
import shutil
import signal
import socket
import subprocess
import sys
import tempfile
import threading
import time
import urllib.parse
import urllib.request

HERE = pathlib.Path(__file__).resolve().parent
sys.path[:0] = [str(HERE.parent), str(HERE)]
import lib  # noqa: E402
import shown  # noqa: E402
import wire  # noqa: E402

SECONDS = int(os.environ.get("SECONDS") or 45)
KILLS = int(os.environ.get("KILLS") or 20)
DAY = 86_400_000
looked = 0


def holds(name, fact):
    global looked
    looked += 1
    lib.holds(name, fact)


def now():
    return int(time.time() * 1000)


class Store:
    """A server that keeps its store in a folder, with the port of Prometheus."""

    def __init__(self, folder, *words):
        self.folder, self.words, self.port = folder, words, lib.free_port()
        self.start()

    def start(self):
        self.running = lib.Running([
            lib.find_program("querier"), "serve", "--data", str(self.folder), "--port", "0",
            "--prometheus-port", str(self.port), *self.words,
        ])
        assert self.running.wait(), self.running.told

    def kill(self):
        return self.running.end(signal.SIGKILL)

    def rows(self, selector='{__name__!=""}'):
        """The rows of the first port: of each label set the bits of the double at each time."""
        words = urllib.parse.urlencode({"selector": selector, "from": -(2**62), "to": 2**62 - 1})
        with urllib.request.urlopen(f"http://127.0.0.1:{self.running.port}/select?{words}") as reply:
            rows = json.load(reply)["rows"]
        return {
            tuple(sorted(row["labels"].items())): {at: wire.restored(value) for at, value in row["samples"]}
            for row in rows
        }


@contextlib.contextmanager
def store_in(room, *words, name="kept"):
    store = Store(pathlib.Path(room) / name, *words)
    try:
        yield store
    finally:
        store.kill()


@contextlib.contextmanager
def beside(*words, env=None):
    """A program that runs as long as the block does."""
    process = subprocess.Popen(
        [str(word) for word in words], stdin=subprocess.DEVNULL, stdout=subprocess.DEVNULL,
        stderr=subprocess.DEVNULL, env={**os.environ, "GOMAXPROCS": "1", **(env or {})},
    )
    try:
        yield process
    finally:
        process.terminate()
        with contextlib.suppress(subprocess.TimeoutExpired):
            process.wait(320)
        process.kill()
        process.wait()


def waits_for(what, fact, seconds=60):
    """Waits until a fact holds; whether it did in time."""
    until = time.time() + seconds
    while time.time() < until:
        with contextlib.suppress(OSError, KeyError, IndexError, ValueError):
            if fact():
                return True
        time.sleep(0.25)
    print("waited in vain for", what)
    return False


UP = [("__name__", "up"), ("job", "a")]


def told(reply):
    status, text = reply
    return status, json.loads(text) if text.strip() else {}


def counted(status):
    """What the status port counts of the port of Prometheus: replies by status, and connections."""
    with urllib.request.urlopen(f"http://127.0.0.1:{status}/metrics") as reply:
        lines = reply.read().decode().splitlines()
    front = 'fuzzledge_prometheus_port_replies_total{status="'
    replies = {int(line[len(front):len(front) + 3]): int(line.rsplit(" ", 1)[1])
               for line in lines if line.startswith(front)}
    name = "fuzzledge_prometheus_port_connections "
    return replies, [int(line[len(name):]) for line in lines if line.startswith(name)]


def rules(room):
    """Each row of the table of docs/HTTP.md, by hand-made bodies."""
    at = now() - 60_000
    status_port = lib.free_port()
    with store_in(room, "--status-port", str(status_port)) as store:
        port = store.port
        one = lambda *samples, labels=UP: (labels, [(time, wire.bits_of(value)) for time, value in samples])
        holds("a write is taken", wire.write(port, [one((at, 1.5))])[0] == 200)
        holds("the same again changes nothing", wire.write(port, [one((at, 1.5))])[0] == 200)
        holds("it stands there bit for bit", store.rows() == {tuple(UP): {at: wire.bits_of(1.5)}})
        status, reply = told(wire.write(port, [one((at, 2.5)), one((at + 1, 3.0))]))
        holds("another value at its time is left out", status == 400 and reply["left"] == {"E3": 1})
        holds("and is the cause", reply["cause"] == "E3" and reply["of"] == 2)
        holds("the good one beside it is kept", store.rows()[tuple(UP)][at + 1] == wire.bits_of(3.0))
        status, reply = told(wire.write(port, [one((at - 5, 1.0), (at, 1.5), (at + 2, 4.0))]))
        holds("an older one is left out, and a held one is not", status == 400 and reply["left"] == {"E2": 1})
        holds("what comes behind it is kept", at + 2 in store.rows()[tuple(UP)])
        for code, labels in [
            ("L1", [("__name__", "up"), ("a-b", "x")]), ("L1", [("__name__", "up"), ("", "x")]),
            ("L2", [("__name__", "up"), ("a", "1"), ("a", "2")]),
            ("L3", [("__name__", "up")] + [(f"l{number}", "x") for number in range(64)]),
            ("L4", [("__name__", "up"), ("a", b"\xff")]),
            ("L5", [("__name__", "up"), ("a", "x" * 70_000)]),
            ("N2", [("__name__", "not a metric")]),
        ]:
            status, reply = told(wire.write(port, [one((at, 1.0), labels=labels), one((at + 10, 9.0))]))
            left_out = status == 400 and reply["left"] == {code: 1}
            holds(f"labels {str(labels)[:50]} are left out as {code}", left_out)
            at += 1
        holds("labels come in any order, and empty values are none", wire.write(
            port, [one((at, 1.0), labels=[("z", ""), ("job", "b"), ("__name__", "up")])])[0] == 200)
        holds("so they stand", (("__name__", "up"), ("job", "b")) in store.rows())
        status, reply = told(wire.write(port, [one((now() + 2 * DAY, 1.0), labels=UP + [("x", "y")])]))
        holds("a sample more than a day ahead is left out", status == 400 and reply["left"] == {"N4": 1})
        holds("an empty body is taken", wire.write(port, [])[0] == 200)
        body = wire.compressed(wire.write_request([one((at, 1.0))]))
        for name, wanted, headers in [
            ("no Content-Encoding", 415, {"Content-Type": "application/x-protobuf"}),
            ("another one", 415, {**wire.WRITES, "Content-Encoding": "gzip"}),
            ("another type", 415, {**wire.WRITES, "Content-Type": "application/json"}),
            ("another version", 415, {**wire.WRITES, "X-Prometheus-Remote-Write-Version": "2.0.0"}),
            ("two lengths", 411, None),
        ]:
            if headers is None:
                head = b"POST /api/v1/write HTTP/1.1\r\nContent-Length: 1\r\nContent-Length: 2\r\n\r\n"
                reply = raw(port, head + b"xx")
                wire.replies[port, 411] += 1
                holds(name, reply.startswith(b"HTTP/1.1 411 "))
                continue
            holds(name, wire.ask(port, "/api/v1/write", body, headers)[0] == wanted)
        holds("no Snappy", wire.ask(port, "/api/v1/write", b"\xff\xff", wire.WRITES)[0] == 400)
        no_message = wire.compressed(b"\x0a\xff")
        holds("no message", wire.ask(port, "/api/v1/write", no_message, wire.WRITES)[0] == 400)
        holds("no such path", wire.ask(port, "/api/v1/none", body, wire.WRITES)[0] == 404)
        holds("another method", wire.ask(port, "/api/v1/write", None, {}, "GET")[0] == 405)
        holds("the version is told", wire.ask(port, "/api/v1/status/buildinfo", None, {}, "GET")[0] == 200)
        reads(store, at)
        patterns(store, at)
        replies, connections = counted(status_port)
        wanted = {status: count for (of, status), count in wire.replies.items() if of == port}
        told_of = {status: count for status, count in replies.items() if count}
        holds(f"replies are counted by status: {told_of}, {wanted}", wanted == told_of)
        holds("no connection is left", connections == [0])
        guarded(room)


def reads(store, at):
    for job, value in [("c", 0.25), ("d", -0.0)]:
        labels = [("__name__", "gauge"), ("job", job)]
        wire.write(store.port, [(labels, [(at, wire.bits_of(value)), (at + 5, wire.STALE)])])
    status, series = wire.read(store.port, 0, at + 100, [(0, "__name__", "gauge")])
    holds("a read is answered", status == 200)
    holds("with doubles bit for bit, in label order", series == [
        ((("__name__", "gauge"), ("job", job)), [(at, wire.bits_of(value)), (at + 5, wire.STALE)])
        for job, value in [("c", 0.25), ("d", -0.0)]
    ])
    for name, start, end, count in [
        ("a range beyond the store's times is clipped", -(2**63), 2**63 - 1, 2),
        ("a range that ends before it begins has no rows", 10, 5, 0),
        ("a range before all has none", 0, at - 1, 0),
    ]:
        holds(name, [wire.read(store.port, start, end, [(0, "__name__", "gauge")])[0],
                     len(wire.read(store.port, start, end, [(0, "__name__", "gauge")])[1])] == [200, count])
    for kind, value, count in [(0, "c", 1), (1, "c", 1), (2, "c|d", 2), (3, "c", 1), (2, "", 0)]:
        status, series = wire.read(store.port, 0, at + 9, [(0, "__name__", "gauge"), (kind, "job", value)])
        holds(f"matcher {kind} of {value!r}", (status, len(series)) == (200, count))
    holds("a kind that is none is refused", wire.read(store.port, 0, 1, [(4, "a", "b")])[0] == 400)
    holds("a pattern that is none is refused", wire.read(store.port, 0, 1, [(2, "a", "(")])[0] == 400)


def patterns(store, at):
    """A choice of many texts, as Grafana's variables write one, and the limits of reads and of match[]."""
    for host in ["host000", "host059", "host060"]:
        for end in ["", "0"]:
            labels = [("__name__", "of_host"), ("instance", f"{host}.example.org:910{end}")]
            wire.write(store.port, [(labels, [(at, wire.bits_of(1.0))])])
    labels = [("__name__", "of_host"), ("instance", "host000é.example.org:9100")]
    wire.write(store.port, [(labels, [(at, 0)])])
    hosts = [f"host{number:03}.example.org:9100" for number in range(60)]
    plain = "|".join(hosts)
    form = {"Content-Type": "application/x-www-form-urlencoded"}

    def listed(selector):
        asked = urllib.parse.urlencode({"match[]": selector})
        status, _, reply = wire.ask(store.port, "/api/v1/series", asked, form)
        reply = json.loads(reply)
        return (status, len(reply["data"])) if status == 200 else (status, reply["cause"])

    for pattern, count in [
        (plain, 2), (f"({plain})", 2), (plain.replace(".", "\\."), 2), (f"({plain})".replace(".", "\\."), 2),
        (plain.replace("000", "..."), 3), (plain.replace("000", "000."), 2), (f"|{plain}", 2), ("x" * 257, 0),
        ("|".join(hosts * 43), 2), ("x" * 65_536, 0),
    ]:
        about = f"a pattern of {len(pattern)} bytes, {pattern[:26]}"
        for kind, wanted in [(2, count), (3, 7 - count)]:
            matchers = [(0, "__name__", "of_host"), (kind, "instance", pattern)]
            status, series = wire.read(store.port, 0, at, matchers)
            holds(f"{about}: {kind} reads {wanted}", (status, len(series)) == (200, wanted))
        text = pattern.replace("\\", "\\\\")
        holds(f"{about} is listed", listed(f'of_host{{instance=~"{text}"}}') == (200, count))
    for pattern, cause in [
        ("x" * 65_537, "M3"), ("|".join(hosts * 44), "M3"), (f"{plain}.*", "M3"), (f"a({plain})", "M3"),
        ("a)(b", "M2"),
    ]:
        status, reply = wire.read(store.port, 0, at, [(2, "instance", pattern)])
        holds(f"a read of {pattern[:9]}.. is refused", (status, json.loads(reply)["cause"]) == (400, cause))
        refused = listed(f'{{instance=~"{pattern}"}}') == (400, cause)
        holds(f"a match[] of {pattern[:9]}.. is refused", refused)
    for count, status, cause in [(64, 200, None), (65, 400, "M5")]:
        matchers = [(0, "__name__", "of_host")] * count
        holds(f"a read with {count} matchers", wire.read(store.port, 0, at, matchers)[0] == status)
        selector = "{" + ",".join(['__name__="of_host"'] * count) + "}"
        holds(f"a match[] with {count} matchers", listed(selector) == (status, 7 if status == 200 else cause))


def guarded(room):
    token = pathlib.Path(room) / "token"
    token.write_text("a-long-token\n")
    token.chmod(0o600)
    with store_in(room, "--guard", str(token), name="guarded") as store:
        sample = [(UP, [(now() - 5, wire.bits_of(1.0))])]
        bearer = {"Authorization": "Bearer a-long-token"}
        holds("a write without the token", wire.write(store.port, sample)[0] == 403)
        holds("changes nothing", store.rows() == {})
        holds("a write with it", wire.write(store.port, sample, bearer)[0] == 200)
        holds("a read needs none", wire.read(store.port, 0, 2**61, [(0, "__name__", "up")])[0] == 200)
        holds("a page of a browser is refused", wire.read(
            store.port, 0, 2**61, [(0, "__name__", "up")], {"Origin": "http://elsewhere"})[0] == 403)
    with store_in(room, "--read-only", name="guarded") as store:
        holds("a store that is read only takes no write", wire.write(store.port, sample)[0] == 404)
        holds("and is read", len(wire.read(store.port, 0, 2**61, [(0, "__name__", "up")])[1]) == 1)


def asked(store, headers=None, **words):
    """The reply to a request for a page: its status, and the page, or the text of a refusal."""
    path = f"/page?{urllib.parse.urlencode(words)}"
    status, fields, body = wire.ask(store.port, path, None, headers, "GET")
    if status != 200:
        return status, body.decode()
    holds("a page is HTML", fields["content-type"] == "text/html; charset=utf-8")
    page = shown.Page(body.decode())
    faults = page.faults(form=False)
    holds(f"a page has no script, and fetches nothing, but {faults}", not faults)
    return status, page


def rows_of(store, **words):
    """The rows of a page, as series and figures."""
    status, page = asked(store, **words)
    if status != 200:
        return status, page
    return [tuple(row[name] for name in ["series", *shown.FIGURES]) for row in page.rows]


# A value that would be markup, the series that has it, as a selector writes it, and as a page shows it.
MARKUP = '<script>alert("1")</script>&\'<b>'
MARKED = 'gauge{job="<script>alert(\\"1\\")</script>&\'<b>"}'
# What is written of each series, a second apart, and how a page shows it: how many samples, the first, the
# last, the least and the greatest, as Prometheus prints them.
WRITTEN = [
    (MARKED, MARKUP, [2.0, float("nan"), float("inf")], ("3", "2", "+Inf", "2", "+Inf")),
    ('gauge{job="a"}', "a", [0.25, 1.5, -0.1], ("3", "0.25", "-0.1", "-0.1", "1.5")),
    ('gauge{job="b"}', "b", [3.0, 1e6, 1e-5], ("3", "3", "1e-05", "1e-05", "1e+06")),
]
REFUSED = [
    ("H5", None, ["", "from=1&to=2", "selector=up&selector=up", "selector=up&limit=1", "selector=up&from=01",
                  "selector=up&from=1e3", "selector=up&to=1.5", "selector=up&to=+1", "selector=up&from=-0",
                  "selector=up&to=4611686018427387904", "selector=up&from=-4611686018427387905",
                  "selector=up&from=2&to=1", "selector=up&to=1&to=1", "selector=up&about=up&about=up",
                  "selector=up&about=&about=", "Selector=up", "selector=up%7B&about=1&x"]),
    ("H6", "M4", ["selector", "selector=", "selector=up%7B", "selector=up%7Bjob%3Da%7D",
                  "selector=up%7B&about=1", "selector=%3Cscript%3E"]),
    ("H6", "M6", ["selector=%7B%7D"]),
    ("H6", "M5", ["selector=%7B" + ",".join(["a%3D%22b%22"] * 17) + "%7D"]),
    ("H6", "M3", [f"selector=%7Bjob%3D~%22{'a' * 257}%22%7D"]),
    ("H6", "M2", ["selector=%7Bjob%3D~%22a%29%28b%22%7D"]),
    ("G16", None, ["selector=up&about=up%7Bjob%21%3D%22a%22%7D", "selector=up&about=1+2",
                   "selector=up&about=up%7Ba%3D%221%22%2Ca%3D%222%22%7D", "about=%7B&selector=up"]),
]


def pages(room):
    """The form, and pages of answers: they show what was written, and text from outside as a text."""
    at = now() - 60_000
    with store_in(room) as store:
        for path in ["/", "/?selector=up"]:
            status, fields, body = wire.ask(store.port, path, None, {}, "GET")
            form = shown.Page(body.decode())
            holds(f"{path} is HTML", (status, fields["content-type"]) == (200, "text/html; charset=utf-8"))
            holds(f"the form has no script, and fetches nothing, but {form.faults(form=True)}",
                  not form.faults(form=True))
            names = [one.get("name") for tag, one in form.elements if tag in ("input", "button", "textarea")]
            holds(f"its fields are {names}", names == ["selector", "from", "to", "about", None])
        empty = asked(store, selector="gauge")[1]
        holds("an empty store has no row", empty.rows == [] and "No series is missing" in empty.text)
        series = [(UP, [(at, wire.bits_of(1.0))])]
        for _, job, values, _ in WRITTEN:
            samples = [(at + 1000 * number, wire.bits_of(value)) for number, value in enumerate(values)]
            series.append(([("__name__", "gauge"), ("job", job)], samples))
        holds("samples are taken", wire.write(store.port, series)[0] == 200)
        whole = [(text, *figures, "head") for text, _, _, figures in WRITTEN]
        rows_are(store, "all that was written", whole, selector="gauge")
        questions(store, at, whole)
        refusals(store)
        blocks(store, at, whole)
        many(store, at)
    admitted(room, at)


def rows_are(store, name, wanted, **words):
    found = rows_of(store, **words)
    if found != wanted:
        print(found, wanted)
    holds(f"a page has {name}", found == wanted)


def questions(store, at, whole):
    """Selectors, ranges, and series that are asked about."""
    middle = [(row[0], "1", *[value] * 4, "head") for row, value in zip(whole, ["NaN", "1.5", "1e+06"])]
    rows_are(store, "one moment", middle, selector="gauge", **{"from": at + 1000, "to": at + 1000})
    empty = {"about": "", "to": "", "from": ""}
    rows_are(store, "all, with empty fields", whole, selector="gauge", **empty)
    rows_are(store, "nothing after all", [], selector="gauge", **{"from": at + 2001})
    rows_are(store, "the series of a text that would be markup", whole[:1], selector=MARKED)
    rows_are(store, "those of a pattern", whole[1:], selector='{job=~"a|b",__name__!="up"}')
    page = asked(store, selector=MARKED, about=MARKED)[1]
    holds("what is asked is shown as a text", page.text.count(MARKED) >= 3)
    holds("what is asked about, too", f"{MARKED}It is in the answer, as row 1." in page.text)
    for about, said in [
        ('gauge{job="b"}', "It is in the answer, as row 3."),
        ('up{job="a"}', 'It is not in the answer, since __name__="gauge" rejects these labels'),
        ('gauge{job="c"}', "Every matcher accepts these labels, and it is not a row."),
    ]:
        page = asked(store, selector="gauge", about=about)[1]
        holds(f"{about}: {said}", said in page.text)
    unjudged = "No series is missing, by the certificates below. Nobody judged: head."
    holds("nobody judged", unjudged in page.text)
    words = urllib.parse.urlencode({"selector": "gauge", "from": -(2**62), "to": 2**62 - 1})
    with urllib.request.urlopen(f"http://127.0.0.1:{store.running.port}/select?{words}") as reply:
        text = reply.read()
    holds("the reply of the first port is what a page shows",
          f"a reply of {len(text):,} bytes; their SHA-256 is {hashlib.sha256(text).hexdigest()}" in page.text)


def refusals(store):
    """What is refused, and with which code."""
    for code, cause, queries in REFUSED:
        line = {"refused": code} if cause is None else {"cause": cause, "refused": code}
        for query in queries:
            status, fields, body = wire.ask(store.port, f"/page?{query}", None, {}, "GET")
            refused = (status, fields["content-type"], json.loads(body)) == (400, "application/json", line)
            holds(f"{query[:60]} is refused with {code}: {status} {body[:60]}", refused)
    for method, path, wanted in [
        ("GET", "/page", (400, "H5")), ("GET", "/page/", (404, "H3")),
        ("GET", "/page/x?selector=up", (404, "H3")), ("GET", "//", (404, "H3")),
        ("GET", "/index.html", (404, "H3")), ("GET", "/favicon.ico", (404, "H3")),
        ("HEAD", "/", (405, None)), ("HEAD", "/page?selector=up", (405, None)), ("POST", "/", (405, "H4")),
        ("POST", "/page", (405, "H4")), ("PUT", "/page?selector=up", (405, "H4")),
        ("DELETE", "/", (405, "H4")),
    ]:
        form = {"Content-Type": "application/x-www-form-urlencoded"} if method == "POST" else {}
        status, _, body = wire.ask(store.port, path, b"selector=up" if form else None, form, method)
        got = (status, json.loads(body)["refused"] if body else None)
        holds(f"{method} {path}: {got}", got == wanted)
    long = raw(store.port, b"GET /page?selector=up&about=" + b"a" * 9000 + b" HTTP/1.1\r\nHost: a\r\n\r\n")
    holds("a head of more than 8,192 bytes", long.startswith(b"HTTP/1.1 431 "))
    holds("HTTP/1.0 without a Host is taken",
          raw(store.port, b"GET /page?selector=up HTTP/1.0\r\n\r\n").startswith(b"HTTP/1.1 200 OK\r\n"))


def blocks(store, at, whole):
    """Pages over a block and the head, of a block that is skipped, and of samples that are deleted."""
    first = lambda path, body: wire.ask(store.running.port, path, json.dumps(body).encode())[0]
    holds("a block is made", first("/cut", {"at": at + 1500}) == 200)
    both = [(*row[:6], "block 0, head") for row in whole]
    rows_are(store, "the rows of a block and the head", both, selector="gauge")
    late = [(row[0], "1", *[value] * 4, "head") for row, value in zip(whole, ["+Inf", "-0.1", "1e-05"])]
    status, page = asked(store, selector="gauge", **{"from": at + 1500})
    rows_are(store, "what the head has", late, selector="gauge", **{"from": at + 1500})
    holds("a block is skipped", status == 200 and "1 part is told to be skipped" in page.text
          and "Told to be skipped: block 0" in page.text and "Nobody judged: head, block 0." in page.text)
    deletion = {"from": at, "selector": '{job="a"}', "to": at}
    holds("samples are deleted", first("/delete", deletion) == 200)
    fewer = [both[0], (whole[1][0], "2", "1.5", "-0.1", "-0.1", "1.5", "block 0, head"), both[2]]
    rows_are(store, "no deleted sample", fewer, selector="gauge")
    early = {"from": at, "to": at}
    rows_are(store, "no row without a sample", [], selector='gauge{job="a"}', **early)
    page = asked(store, selector="gauge", about='gauge{job="a"}', **early)[1]
    holds("a series whose sample is deleted is no row", "or it was deleted" in page.text)
    store.kill()
    store.start()
    rows_are(store, "the same after a new start", fewer, selector="gauge")


def many(store, at):
    """Of an answer of many rows the first 50 are shown, and all are counted."""
    names = sorted(str(number) for number in range(120))
    series = [
        ([("__name__", "many"), ("n", name)], [(at + 5000, wire.bits_of(int(name) / 2))]) for name in names
    ]
    holds("many series are taken", wire.write(store.port, series)[0] == 200)
    halves = [f"{int(name) // 2}.5" if int(name) % 2 else str(int(name) // 2) for name in names]
    wanted = [(f'many{{n="{name}"}}', "1", *[half] * 4, "head") for name, half in zip(names, halves)]
    rows_are(store, "50 rows of many", wanted[:50], selector="many")
    page = asked(store, selector="many")[1]
    holds("all are counted", "120 are one matching series each" in page.text)


def admitted(room, at):
    """Who may ask for pages, with a guard and of a store that nobody may change."""
    token = pathlib.Path(room) / "token_of_pages"
    token.write_text("a-long-token\n")
    token.chmod(0o600)
    wanted = [('up{job="a"}', "1", "0.5", "0.5", "0.5", "0.5", "head")]
    elsewhere = {"Origin": "http://elsewhere"}
    with store_in(room, name="open") as store:
        holds("without a guard a page of a browser may ask", asked(store, elsewhere, selector="up")[0] == 200)
    with store_in(room, "--guard", str(token), name="guarded") as store:
        bearer = {"Authorization": "Bearer a-long-token"}
        sample = [(UP, [(at, wire.bits_of(0.5))])]
        holds("a write with the token", wire.write(store.port, sample, bearer)[0] == 200)
        rows_are(store, "what it has, without a token", wanted, selector="up")
        here = ["127.0.0.1", f"127.0.0.1:{store.port}", f"localhost:{store.port}", f"[::1]:{store.port}"]
        for host in here:
            holds(f"Host: {host}", asked(store, {"Host": host}, selector="up")[0] == 200)
        for headers in [elsewhere, {"Origin": "null"}, {"Host": f"elsewhere:{store.port}"}, {"Host": ""}]:
            for path in ["/", "/page?selector=up", "/page?selector=up%7B", "/none"]:
                status, _, body = wire.ask(store.port, path, None, headers, "GET")
                refused = (status, json.loads(body)) == (403, {"refused": "H12"})
                holds(f"{path} with {headers}: {status}", refused)
    with store_in(room, "--read-only", name="guarded") as store:
        rows_are(store, "what a store has that is read only", wanted, selector="up")
        holds("and there is the form", wire.ask(store.port, "/", None, {}, "GET")[0] == 200)


def raw(port, content, wait=10):
    """Sends bytes, and reads until the end."""
    with socket.create_connection(("127.0.0.1", port), wait) as connection:
        connection.sendall(content)
        connection.shutdown(socket.SHUT_WR)
        reply = b""
        with contextlib.suppress(OSError):
            while piece := connection.recv(65_536):
                reply += piece
    return reply


def hostile(room):
    """Every prefix of a good body, every byte of it changed, and bodies that tell of more than they have."""
    at = now() - 60_000
    series = [(UP, [(at + number, wire.bits_of(number / 2))]) for number in range(3)]
    good = wire.compressed(wire.write_request(series))
    with store_in(room) as store:
        wire.ask(store.port, "/api/v1/write", good, wire.WRITES)
        before = store.rows()
        for end in range(len(good)):
            status, _, _ = wire.ask(store.port, "/api/v1/write", good[:end], wire.WRITES)
            holds(f"the first {end} bytes", status in (200, 400))
        holds("a prefix changes nothing", store.rows() == before)
        for place in range(len(good)):
            changed = bytearray(good)
            changed[place] ^= random.randint(1, 255)
            status, _, _ = wire.ask(store.port, "/api/v1/write", bytes(changed), wire.WRITES)
            holds(f"byte {place} changed", status in (200, 400))
        for name, body in [
            ("a length of 4 GiB", wire.varint(2**32 - 1) + b"\x00a"),
            ("a copy of what is not there", b"\x05\x00\x61\x01\x02"),
            ("copies without end", wire.varint(2**24) + b"\x00a" + b"\xfe\x01\x00" * 1000),
            ("a million empty series", wire.compressed(b"\x0a\x00" * 1_000_000)),
            ("a length of a field beyond the body", wire.compressed(b"\x0a" + wire.varint(2**63))),
            ("deeply nested", wire.compressed(b"\x0a\x7e" * 60)),
        ]:
            status, _, reply = wire.ask(store.port, "/api/v1/write", body, wire.WRITES)
            holds(f"{name}: {status} {reply[:60]}", status == 400)
        too_long = raw(store.port, b"POST /api/v1/write HTTP/1.1\r\nContent-Length: 17825792\r\n\r\n")
        holds("a body of 17 MiB is refused", too_long.startswith(b"HTTP/1.1 400 "))
        # a byte changed above can have moved the newest sample of `UP`
        other = [("__name__", "untouched")]
        holds("it still serves", wire.write(store.port, [(other, [(at, wire.bits_of(7.0))])])[0] == 200)


def silent(room):
    """A read beside a hundred clients that say nothing, or half a head, takes about its time without them."""
    at = now() - 60_000
    with store_in(room) as store:
        wire.write(store.port, [(UP, [(at, wire.bits_of(1.0))])])

        def took():
            times = []
            for _ in range(30):
                began = time.time()
                assert wire.read(store.port, 0, 2**61, [(0, "__name__", "up")])[0] == 200
                times.append(time.time() - began)
            return sorted(times)[15]

        alone = took()
        others = []
        for number in range(100):
            one = socket.create_connection(("127.0.0.1", store.port))
            if number % 2:
                one.sendall(b"POST /api/v1/write HTTP/1.1\r\nContent-")
            others.append(one)
        time.sleep(0.5)
        among = took()
        print(f"a read takes {alone * 1000:.2f} ms alone, {among * 1000:.2f} ms beside 100 silent clients")
        holds("a read does not wait for silent clients", among < 2 * alone + 0.02)
        for one in others:
            one.close()


def prometheus(room, name, config, port, *words):
    """A Prometheus over a folder of its own."""
    path = pathlib.Path(room) / f"{name}.yml"
    path.write_text(config)
    return beside(
        "prometheus", f"--config.file={path}", f"--storage.tsdb.path={pathlib.Path(room) / name}",
        f"--web.listen-address=127.0.0.1:{port}", "--web.console.templates=", "--web.console.libraries=",
        "--storage.remote.flush-deadline=5m", *words,
    )


def scraping(port, exporter, store, rules=""):
    return f"""
global: {{scrape_interval: 1s, evaluation_interval: 1s}}
{rules}
scrape_configs:
  - job_name: self
    static_configs: [{{targets: ["127.0.0.1:{port}"]}}]
  - job_name: app
    static_configs: [{{targets: ["127.0.0.1:{exporter}"]}}]
remote_write:
  - url: http://127.0.0.1:{store.port}/api/v1/write
    queue_config: {{batch_send_deadline: 1s}}
"""


def viewing(store, rules=""):
    return f"""
global: {{evaluation_interval: 1s}}
{rules}
remote_read:
  - url: http://127.0.0.1:{store.port}/api/v1/read
    read_recent: true
"""


def queried(port, query, at):
    words = urllib.parse.urlencode({"query": query, "time": at})
    with urllib.request.urlopen(f"http://127.0.0.1:{port}/api/v1/query?{words}") as reply:
        answer = json.load(reply)
    return sorted(json.dumps(one, sort_keys=True) for one in answer["data"]["result"]), answer.get("warnings")


LINE = re.compile(rb"\{(.*)\} (\S+) (-?\d+)$")
LABEL = re.compile(rb'([a-zA-Z_][a-zA-Z0-9_]*)="((?:[^"\\]|\\.)*)"')


def unquoted(text):
    """A label's value as promtool prints it, without its escapes."""
    return re.sub(r"\\(.)", lambda found: {"n": "\n"}.get(found[1], found[1]), text.decode())


def dumped(folder):
    """What promtool sees on the disk of a Prometheus: of each label set the double at each time."""
    found = {}
    ran = subprocess.run(["promtool", "tsdb", "dump", str(folder)], stdout=subprocess.PIPE, check=True)
    for line in ran.stdout.splitlines():
        labels, value, at = LINE.match(line).groups()
        key = tuple(sorted((name.decode(), unquoted(text)) for name, text in LABEL.findall(labels)))
        found.setdefault(key, {})[int(at)] = float(value)
    return found


def has_sent(port):
    """Up to which second a Prometheus has sent what it scraped."""
    with urllib.request.urlopen(f"http://127.0.0.1:{port}/metrics") as reply:
        lines = reply.read().decode().splitlines()
    name = "prometheus_remote_storage_queue_highest_sent_timestamp_seconds{"
    return min(float(line.rsplit(" ", 1)[1]) for line in lines if line.startswith(name))


def all_sent(port):
    """Waits until a Prometheus has sent all that it had scraped by now: the time, in milliseconds."""
    at = time.time()
    holds("all is sent", waits_for("the sender", lambda: has_sent(port) > at + 5, 300))
    return int(at * 1000)


def same_double(value, bits):
    if value != value:
        kept = wire.double_of(bits)
        return kept != kept
    # Prometheus sends a minus zero as a zero
    return wire.bits_of(value) == bits or value == 0 == bits


def until(at, rows):
    """The samples up to a time."""
    return {labels: early for labels, samples in rows.items()
            if (early := {time: value for time, value in samples.items() if time <= at})}


def compare(name, disk, rows, at):
    """Compares what was scraped up to a time: at its end a Prometheus does not send all that it wrote."""
    disk, rows = until(at, disk), until(at, rows)
    missing = different = 0
    for labels, samples in disk.items():
        held = rows.get(labels, {})
        for at, value in samples.items():
            missing += at not in held
            different += at in held and not same_double(value, held[at])
    more = sum(at not in disk.get(labels, {}) for labels, samples in rows.items() for at in samples)
    total = sum(map(len, disk.values()))
    stale = sum(bits == wire.STALE for samples in rows.values() for bits in samples.values())
    print(f"{name}: {total} samples of {len(disk)} series, {stale} stale markers, {missing} missing, "
          f"{different} different, {more} more")
    holds(f"{name}: there are samples", total > 100)
    holds(f"{name}: nothing is missing", missing == 0)
    holds(f"{name}: bit for bit", different == 0)
    holds(f"{name}: nothing more", more == 0)


def same(room):
    """All that a Prometheus has on its disk is in the store, bit for bit, and nothing else."""
    port, exporter = lib.free_port(), lib.free_port()
    with store_in(room) as store, beside(sys.executable, HERE / "exporter.py", exporter):
        with prometheus(room, "scraper", scraping(port, exporter, store), port):
            time.sleep(SECONDS)
            at = all_sent(port)
        compare("a Prometheus", dumped(pathlib.Path(room) / "scraper"), store.rows(), at)
        before = store.rows()
        store.kill()
        store.start()
        holds("a new start has the same", store.rows() == before)


# A Prometheus sends a minus zero as a zero, and a viewer has series of its own rules.
QUERIES = [
    "up", "steps_total", "rate(steps_total[10s])", "sum by (job) (rate(steps_total[10s]))",
    "special{value!=\"minus zero\"}", "-special{value!=\"minus zero\"}",
    "histogram_quantile(0.9, rate(delay_bucket[10s]))", "max_over_time(steps_total[20s:2s])",
    "absent(nothing)", "count({__name__=~\"prometheus_.+\"})", "steps_total offset 5s",
    "prometheus_tsdb_head_samples_appended_total",
    "avg_over_time(special{value!~\"nan|.*inf\"}[15s])", "topk(3, scrape_duration_seconds)",
]
ALERT = """
groups:
  - name: test
    interval: 1s
    rules:
      - alert: StepsGo
        expr: rate(steps_total[10s]) > 0
        for: 5s
      - record: job:steps:rate10s
        expr: sum by (job) (rate(steps_total[10s]))
"""


def viewer(room):
    """A Prometheus that scrapes nothing gives the answers of the one that scrapes, and its alert fires."""
    port, view, exporter = lib.free_port(), lib.free_port(), lib.free_port()
    rules_file = pathlib.Path(room) / "rules.yml"
    rules_file.write_text(ALERT)
    with store_in(room) as store, beside(sys.executable, HERE / "exporter.py", exporter), \
            prometheus(room, "scraper", scraping(port, exporter, store), port), \
            prometheus(room, "viewer", viewing(store, f"rule_files: [{rules_file}]"), view):
        time.sleep(SECONDS)
        at = all_sent(port) / 1000
        equal = 0
        for query in QUERIES:
            (wanted, _), (got, warned) = queried(port, query, at), queried(view, query, at)
            if wanted != got:
                print(query, wanted[:2], got[:2], warned)
            equal += wanted == got and not warned
            holds(f"the same answer to {query}", wanted == got and not warned)
        print(f"{equal} of {len(QUERIES)} answers are the same")

        def fires():
            with urllib.request.urlopen(f"http://127.0.0.1:{view}/api/v1/alerts") as reply:
                return any(one["state"] == "firing" for one in json.load(reply)["data"]["alerts"])

        holds("an alert over the store fires", waits_for("an alert", fires))


def shared(room):
    """Two stores behind one Prometheus, which shares its series out by a hash: together they have all, no
    series stands in both, and a viewer of both gives the answers of the one that scrapes; with one of them
    down it says so."""
    port, view, exporter = lib.free_port(), lib.free_port(), lib.free_port()

    def writes(store, shard):
        return f"""
  - url: http://127.0.0.1:{store.port}/api/v1/write
    queue_config: {{batch_send_deadline: 1s}}
    write_relabel_configs:
      - source_labels: [__name__, value, le, number]
        modulus: 2
        target_label: __tmp_shard
        action: hashmod
      - {{source_labels: [__tmp_shard], regex: "{shard}", action: keep}}
      - {{regex: __tmp_shard, action: labeldrop}}"""

    with store_in(room, name="first") as one, store_in(room, name="second") as other, \
            beside(sys.executable, HERE / "exporter.py", exporter, 50):
        config = f"""
global: {{scrape_interval: 1s}}
scrape_configs:
  - job_name: app
    static_configs: [{{targets: ["127.0.0.1:{exporter}"]}}]
remote_write:{writes(one, 0)}{writes(other, 1)}
"""
        looking = f"""
remote_read:
  - {{url: "http://127.0.0.1:{one.port}/api/v1/read", read_recent: true}}
  - {{url: "http://127.0.0.1:{other.port}/api/v1/read", read_recent: true}}
"""
        with prometheus(room, "viewer", looking, view):
            with prometheus(room, "scraper", config, port):
                time.sleep(SECONDS)
                at = all_sent(port)
                for query in ["count({job=\"app\"})", "sum(load)", "steps_total"]:
                    wanted, _ = queried(port, query, at / 1000)
                    got, warned = queried(view, query, at / 1000)
                    holds(f"the same answer to {query}", wanted == got and not warned)
            rows, others = one.rows(), other.rows()
            holds("each store has series", min(len(rows), len(others)) > 5)
            holds("no series stands in both", not set(rows) & set(others))
            compare("two stores", dumped(pathlib.Path(room) / "scraper"), {**rows, **others}, at)
            other.kill()
            _, warned = queried(view, "count({job=\"app\"})", at / 1000)
            holds("with one store down the answer has a warning", bool(warned))


def killed(room):
    """The store is killed while it receives: at the end nothing is lost, and nothing was refused."""
    port, exporter = lib.free_port(), lib.free_port()
    with store_in(room) as store, beside(sys.executable, HERE / "exporter.py", exporter, 200):
        with prometheus(room, "scraper", scraping(port, exporter, store), port):
            time.sleep(5)
            for _ in range(KILLS):
                time.sleep(random.uniform(0.3, 2))
                store.kill()
                time.sleep(random.uniform(0, 1))
                store.start()
            at = all_sent(port)
            with urllib.request.urlopen(f"http://127.0.0.1:{port}/metrics") as reply:
                lines = reply.read().decode().splitlines()
        counts = [line for line in lines if line.startswith("prometheus_remote_storage_samples_failed_total")]
        print(f"killed {KILLS} times; {counts}")
        holds("nothing was refused", all(line.endswith(" 0") for line in counts) and counts)
        compare("after the kills", dumped(pathlib.Path(room) / "scraper"), store.rows(), at)


def vmagent(room):
    """What vmagent sends is taken, too."""
    exporter, own = lib.free_port(), lib.free_port()
    config = pathlib.Path(room) / "vmagent.yml"
    config.write_text(f"""
global: {{scrape_interval: 1s}}
scrape_configs:
  - job_name: app
    static_configs: [{{targets: ["127.0.0.1:{exporter}"]}}]
""")
    with store_in(room) as store, beside(sys.executable, HERE / "exporter.py", exporter), beside(
        "vmagent", f"-promscrape.config={config}",
        f"-remoteWrite.url=http://127.0.0.1:{store.port}/api/v1/write",
        f"-remoteWrite.tmpDataPath={pathlib.Path(room) / 'queue'}", f"-httpListenAddr=127.0.0.1:{own}",
        "-remoteWrite.flushInterval=1s", "-remoteWrite.queues=1",
    ):
        came = waits_for("samples of vmagent", lambda: len(store.rows('steps_total')) == 1
                         and len(next(iter(store.rows('steps_total').values()))) >= 5)
        holds("samples of vmagent come", came)
        rows = store.rows("special").items()
        special = {dict(labels)["value"]: set(samples.values()) for labels, samples in rows}
        holds("a fraction, bit for bit", special.get("fraction") == {wire.bits_of(0.1)})
        holds("an infinity", special.get("minus inf") == {wire.bits_of(float("-inf"))})


def meanings(room):
    """A store that begins with the port has doubles ever after; one of whole numbers is left as it is, and
    the port is refused."""
    def served(name, *words):
        ran = subprocess.run(
            [lib.find_program("querier"), "serve", "--data", str(pathlib.Path(room) / name), "--port", "0",
             "--requests", "0", *words],
            capture_output=True, text=True, timeout=120,
        )
        journal = (pathlib.Path(room) / name / "journal").read_bytes()
        return ran.returncode, ran.stderr.splitlines()[-1:], journal

    port = ["--prometheus-port", str(lib.free_port())]
    whole = served("whole")
    holds("a store begins without the port", whole[0] == 0)
    holds("whole numbers: the port is refused", served("whole", *port) == (1, ["refused O5"], whole[2]))
    holds("whole numbers: served without it", served("whole")[0] == 0)
    doubles = served("doubles", *port)
    holds("a store begins with the port", doubles[0] == 0 and doubles[2] != whole[2])
    holds("doubles: served without the port", served("doubles")[0] == 0)
    holds("doubles: served with the port", served("doubles", *port)[0] == 0)


PARTS = {
    "rules": (rules, []), "pages": (pages, []), "hostile": (hostile, []), "silent": (silent, []),
    "meanings": (meanings, []),
    "same": (same, ["prometheus", "promtool"]), "viewer": (viewer, ["prometheus"]),
    "shared": (shared, ["prometheus", "promtool"]), "killed": (killed, ["prometheus", "promtool"]),
    "vmagent": (vmagent, ["vmagent"]),
}


def main():
    names = sys.argv[1:] or list(PARTS)
    left_out = []
    for name in names:
        part, tools = PARTS[name]
        lacking = [tool for tool in tools if not shutil.which(tool)]
        if lacking:
            left_out.append(f"{name} ({', '.join(lacking)} not here)")
            continue
        with tempfile.TemporaryDirectory(prefix="live-") as room:
            try:
                part(room)
            finally:
                lib.end_all()
        print(f"{name}: done", flush=True)
    if left_out:
        print("left out:", "; ".join(left_out))
    print(f"{looked} looks, {len(lib.failed)} failed")
    return 1 if lib.failed or not looked else 0


if __name__ == "__main__":
    sys.exit(main())
