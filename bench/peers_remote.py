"""The class of bench/peers.py that sends and asks as a Prometheus does: remote."""
import contextlib
import os
import shutil
import statistics

from peers_house import Failed, Server, free_port, present, tell
from peers_table import milli

# the series, each with one sample a request, the clients, and the least beside the faster peer
WRITES = [(500, 1, 0.7), (500, 4, 1.5), (4096, 1, 1.0), (4096, 4, 1.5)]
# the work, and the labels of what is read
READS = [("one series", ["__name__", "metric_3", "instance", "host-00012:9100"]), ("all", ["dc", "main"])]
RANGE = [1_600_000_000_000, 1_800_000_000_000]


@contextlib.contextmanager
def querier(house, *words):
    """`querier` with the port of Prometheus, as a server on that port."""
    port = free_port()
    words = [house.querier, "serve", "--port", "0", "--prometheus-port", str(port), *words]
    with house.running("querier", words, None) as server:
        yield Server("querier", server.process, port, None)


@contextlib.contextmanager
def receiver(house):
    """A Prometheus that takes remote writes, without samples."""
    port, data, config = free_port(), f"{house.work}/receiver", f"{house.work}/empty"
    open(config, "w").close()
    words = ["prometheus", f"--config.file={config}", f"--storage.tsdb.path={data}", "--log.level=error",
             "--web.enable-remote-write-receiver", f"--web.listen-address=127.0.0.1:{port}"]
    with house.running("Prometheus", words, None, port) as server:
        server.wait("/-/ready")
        yield server
    shutil.rmtree(data)


def asked(house, server, clients, *words):
    """What so many clients got in a second: replies a second, the median time, and the bytes of a reply."""
    told = house.tool("remote", server.port, clients, 1, *words).split()
    if int(told[2]):
        raise Failed(f"{server.name} refused {told[2]} requests ({' '.join(map(str, words))})")
    return float(told[4]), float(told[7]), int(told[9])


def remote(house, table, rounds, quick):
    writes(house, table, 1 if quick else 3)
    reads(house, table, 1 if quick else 3)


def writes(house, table, turns):
    kept = os.path.join(house.work, "kept")
    with contextlib.ExitStack() as stack:
        servers = [stack.enter_context(querier(house, "--data", kept))]
        if present("Prometheus"):
            servers.append(stack.enter_context(receiver(house)))
        if present("VictoriaMetrics"):
            servers.append(stack.enter_context(house.victoria()))
        names = [one.name for one in servers[1:]]
        table.title("Remote write, million samples a second, each synced here", ", ".join(names))
        for series, clients, least in WRITES:
            tell(f"remote: {clients} clients write {series} samples a request")
            rates = {server.name: [] for server in servers}
            for _ in range(turns):
                for server in servers:
                    requests = asked(house, server, clients, "write", series)[0]
                    rates[server.name].append(requests * series / 1e6)
            here, *others = (statistics.median(one) for one in rates.values())
            beside = ", ".join(f"{one:.2f}" for one in others)
            ratio = f"{here / max(others):.2f}" if others else ""
            who = "one client" if clients == 1 else f"{clients} clients"
            table.row(f"{series:,} samples of as many series, {who}", f"{here:.2f}", beside, ratio,
                      f"{least} and more" if others else "", not others or here >= least * max(others))


def reads(house, table, turns):
    series, samples = 10_000, 120
    block = house.block(series, samples)
    peer = house.prometheus(series, samples) if present("Prometheus") else contextlib.nullcontext()
    with querier(house, block) as here, peer as other:
        servers = [here, other] if other else [here]
        table.title(f"Remote read, {series:,} x {samples}, ms", "Prometheus" if other else "")
        for work, labels in READS:
            tell(f"remote: reads {work}")
            times = {server.name: [] for server in servers}
            for _ in range(turns):
                for server in servers:
                    _, time, size = asked(house, server, 1, "read", *RANGE, *labels)
                    times[server.name].append((time, size))
            (mine, size), *others = (min(one) for one in times.values())
            ratio = f"{mine / others[0][0]:.2f}" if others else ""
            beside = ", ".join(milli(one[0]) for one in others)
            table.row(f"{work}: {size:,} bytes", milli(mine), beside, ratio,
                      "0.5" if others else "", not others or mine <= 0.5 * others[0][0])
