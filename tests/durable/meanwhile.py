"""What clients see while blocks are joined: each reply is right beside a plain map, an auditor accepts it,
and how long the longest write and the longest read took, which is told beside the same without joins and not
judged."""
import bisect
import http.client
import json
import os
import random
import re
import subprocess
import threading
import time
import urllib.parse

from house import LEAST, MOST, OK, Batch, Cut, Deletion, Lost, Server, equals, piped, rows_in, run, set_of
from lib import free_port
from upkeep import metrics

EVERY = 1000
# as many cuts as leave a store that joins nothing below 63 blocks; series, and samples of each in a cut
CUTS, SERIES = 54, 32
SAMPLES = int(os.environ.get("MEANWHILE_SAMPLES") or 500)
# with more blocks than this the next cut waits, while single samples are written
MANY = 10
# batches of so many series
TOGETHER = 8


def labels(n):
    return {"__name__": "meanwhile", "n": str(n), "suite": "durable"}


class Log:
    """The events that one client sent, in their order, by series; how many were sent and acknowledged."""

    def __init__(self):
        self.sent = self.done = self.clock = 0
        # of each series the numbers of its batches, their first times, their samples; and deletions
        self.batches = {n: ([], [], []) for n in range(SERIES + 1)}
        self.deletions = {n: [] for n in range(SERIES + 1)}

    def begins(self, event):
        """An event is sent."""
        if isinstance(event, Batch):
            for one, samples in event.rows:
                numbers, firsts, batches = self.batches[int(one["n"])]
                batches.append(samples)
                numbers.append(self.sent)
                firsts.append(samples[0][0])
        elif isinstance(event, Deletion):
            self.deletions[int(event.matchers[0][2])].append((self.sent, event.first, event.last))
        self.sent += 1

    def at(self, count, n, first, last):
        """The samples of a series in a range after so many events."""
        numbers, firsts, batches = self.batches[n]
        gone, found = [one for one in self.deletions[n] if one[0] < count], {}
        low, high = max(0, bisect.bisect_right(firsts, first) - 1), bisect.bisect_right(firsts, last)
        for number, samples in list(zip(numbers, batches))[low:high]:
            if number < count:
                spans = [(begin, end) for later, begin, end in gone if number < later]
                found.update(
                    (t, v) for t, v in samples
                    if first <= t <= last and not any(begin <= t <= end for begin, end in spans)
                )
        return found


class Clients:
    """A server, one that writes, some that ask, and one that audits."""

    def __init__(self, looks, querier, auditor, folder, seed, joins):
        self.looks, self.auditor, self.folder, self.joins = looks, auditor, folder, joins
        self.random, self.log, self.over = random.Random(seed), Log(), threading.Event()
        self.status, self.writes, self.reads, self.wrong = free_port(), [], [], []
        self.audits = {"valid": 0, "rolled since": 0, "ask again": 0}
        words = ["--cut-every", str(EVERY), "--cut-after", "0"] if joins else []
        words += ["--workers", "6", "--status-port", str(self.status)]
        self.server = Server(querier, "--data", folder, *words)
        looks.that("it starts", self.server.wait(), self.server.told, tell=False)

    def tell(self, event):
        self.log.begins(event)
        began = time.monotonic()
        got = self.server.tell(event)
        self.writes.append(time.monotonic() - began)
        self.log.done = self.log.sent
        if got != OK:
            self.wrong.append(f"{event.line()}: {got}")

    def write(self):
        """CUTS cuts, each as soon as the one before is made; and deletions of what may be joined just
        then."""
        for cut in range(1, CUTS + 1):
            for first in range(0, SERIES, TOGETHER):
                span = range(cut * EVERY - EVERY, cut * EVERY, EVERY // SAMPLES)
                self.tell(Batch([
                    (labels(n), [(t, t * SERIES + n) for t in span]) for n in range(first, first + TOGETHER)
                ]))
                self.log.clock = cut * EVERY
                if self.random.random() < 0.08:
                    at, n = self.random.randrange(cut * EVERY), str(self.random.randrange(SERIES))
                    self.tell(Deletion([equals("n", n)], at, at + self.random.randrange(3 * EVERY)))
            self.tell(self.mark(cut * EVERY))
            if self.joins:
                self.wait_for(cut * EVERY)
            else:
                self.tell(Cut(cut * EVERY))

    def mark(self, at):
        """A sample at the time of a cut, which makes it due, or a little later."""
        return Batch([(labels(SERIES), [(at, at)])])

    def wait_for(self, cut):
        """Waits until it is cut and has few blocks, and writes a sample now and then."""
        for later in range(1, EVERY):
            now = metrics(self.status)
            if int(now["fuzzledge_head_floor"]) >= cut and int(now["fuzzledge_blocks"]) <= MANY:
                return
            self.tell(self.mark(cut + later))
            time.sleep(0.1)
        self.wrong.append(f"no cut at {cut}, or many blocks: {now['fuzzledge_blocks']}")

    def ask(self, draw):
        """Asks until it is over; each reply is that of some moment between the question and the reply."""
        while not self.over.wait(0.03):
            n, clock = draw.randrange(SERIES + 1), max(1, self.log.clock)
            first, last = sorted((draw.randrange(clock), draw.randrange(clock)))
            if draw.random() < 0.7:
                last = min(last, first + 2 * EVERY)
            done, began = self.log.done, time.monotonic()
            try:
                status, reply = self.server.exchange("GET", "/select?" + urllib.parse.urlencode(
                    {"selector": f'{{n="{n}",suite="durable"}}', "from": first, "to": last}))
            except Lost:
                self.wrong.append(f"no reply of {n} from {first} to {last}")
                return
            took, sent = time.monotonic() - began, self.log.sent
            self.reads.append(took)
            if status != 200:
                self.wrong.append(f"{n} from {first} to {last}: {status} {reply}")
                continue
            got = rows_in(reply["rows"]).get(set_of(labels(n)), {})
            if not any(self.log.at(count, n, first, last) == got for count in range(done, sent + 1)):
                now = self.log.at(done, n, first, last)
                self.wrong.append(
                    f"{n} from {first} to {last} after {done} to {sent} events: {len(got)} samples, not "
                    f"{len(now)}: {sorted(set(got.items()) ^ set(now.items()))[:3]}"
                )

    def audit(self, draw):
        """Has an auditor judge replies, each behind a mark."""
        while not self.over.wait(0.2):
            status, out, err = run([self.auditor, "--store", self.folder, "--mark"])
            if status == 3 and " changes" in err:
                continue
            if status or not re.fullmatch("mark [0-9a-f]{8}:[0-9]+\n", out):
                self.wrong.append(f"no mark: {status} {out} {err}")
                return
            mark, clock = out.split()[1], max(1, self.log.clock)
            selector, first = f'{{n=~"{draw.randrange(10)}|1.",suite="durable"}}', draw.randrange(clock)
            words = urllib.parse.urlencode({"selector": selector, "from": first, "to": first + EVERY})
            link = http.client.HTTPConnection("127.0.0.1", self.server.port, timeout=120)
            link.request("GET", f"/select?{words}")
            body = link.getresponse().read()
            link.close()
            if draw.random() < 0.1:
                self.lie(body, selector, first, mark)
                continue
            status, out, err = self.judged(body, selector, first, mark)
            if status == 0:
                self.audits["valid"] += 1
            elif status == 3 and err.startswith("rolled since "):
                self.audits["rolled since"] += 1
            elif status == 3 and (err.rstrip().endswith("ask again") or " changes" in err):
                self.audits["ask again"] += 1
            elif err == "too slow":
                self.audits["too slow"] = self.audits.get("too slow", 0) + 1
            else:
                self.wrong.append(
                    f"an audit of {selector} from {first} since {mark}: {status} {out[-300:]} {err}"
                )

    def judged(self, body, selector, first, mark):
        """What an auditor says of a reply."""
        words = ["--selector", selector, f"--from={first}", f"--to={first + EVERY}"]
        try:
            return piped([self.auditor, "--store", self.folder, "--since", mark, *words], body)
        except subprocess.TimeoutExpired:
            return 3, "", "too slow"

    def lie(self, body, selector, first, mark):
        """A reply of which a sample is changed is not accepted."""
        reply = json.loads(body)
        if not reply["rows"]:
            return
        reply["rows"][0]["samples"][0][1] += 1
        text = json.dumps(reply, separators=(",", ":")).encode()
        status, _, err = self.judged(text, selector, first, mark)
        self.audits["lies refused"] = self.audits.get("lies refused", 0) + (status != 0)
        if not status:
            self.wrong.append(f"an audit accepts a lie: {err}")

    def run(self):
        asks = [threading.Thread(target=self.ask, args=(random.Random(k),), daemon=True) for k in range(2)]
        if self.auditor and self.joins:
            asks.append(threading.Thread(target=self.audit, args=(random.Random(9),), daemon=True))
        for thread in asks:
            thread.start()
        began = time.monotonic()
        self.write()
        took = time.monotonic() - began
        self.over.set()
        for thread in asks:
            thread.join()
        return took


def told(times):
    """The longest of these, and what half and 99 of 100 take at most."""
    ordered = sorted(times)
    return ", ".join(
        f"{name} {1000 * ordered[min(len(ordered) - 1, int(len(ordered) * part))]:.0f} ms"
        for name, part in [("longest", 1), ("of 100 the 99th", 0.99), ("median", 0.5)]
    )


def once(looks, querier, auditor, folder, seed, joins):
    what = "with joins" if joins else "without"
    them = Clients(looks, querier, auditor, folder, seed, joins)
    took = them.run()
    looks.at(f"{what}: replies that are wrong", [], them.wrong[:3])
    looks.that(f"{what}: replies were judged", len(them.reads) > 50, len(them.reads))
    parts, rows = them.server.select()
    wanted = {set_of(labels(n)): them.log.at(them.log.sent, n, LEAST, MOST) for n in range(SERIES + 1)}
    wanted = {one: found for one, found in wanted.items() if found}
    looks.that(f"{what}: what it says in the end", rows == wanted)
    lines = [line for line in them.server.told_err if line.startswith("joined ")]
    if joins:
        looks.that(f"{what}: blocks were joined", len(lines) > CUTS // 4, len(lines))
        looks.that(f"{what}: few blocks", len(parts) <= 30, len(parts))
        cannot = [line for line in them.server.told_err if line.startswith("cannot")]
        looks.at(f"{what}: nothing is refused", [], cannot)
    else:
        looks.at(f"{what}: no blocks were joined", [], lines)
    looks.say(f"{what}: {CUTS} cuts of {SERIES * SAMPLES} samples in {took:.0f} s, {len(lines)} joins, "
              f"{len(parts) - 1} blocks; {len(them.writes)} writes: {told(them.writes)}; "
              f"{len(them.reads)} reads: {told(them.reads)}")
    if auditor and joins:
        looks.that(f"{what}: audits were valid", them.audits["valid"] > 3, them.audits)
        looks.say(f"{what}: audits: {them.audits}")
    # one sample more, and it would not be so
    them.log.begins(Batch([(labels(3), [(them.log.clock + 1, 1)])]))
    found = them.log.at(them.log.sent, 3, LEAST, MOST)
    looks.that(f"{what}: a map with a sample more differs", found != rows.get(set_of(labels(3))))
    them.server.end()


def meanwhile(looks, querier, auditor, work, seed):
    if not auditor:
        looks.say("there is no auditor: audits are left")
    for joins in (False, True):
        once(looks, querier, auditor, f"{work}/{'joins' if joins else 'none'}", f"{seed} meanwhile", joins)
