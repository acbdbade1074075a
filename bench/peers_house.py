"""What bench/peers.py and bench/durable.py start and measure: programs, and servers on 127.0.0.1 over the
same samples."""
import argparse
import contextlib
import os
import shutil
import signal
import socket
import statistics
import subprocess
import sys
import tempfile
import time
import urllib.parse
import urllib.request

BENCH = os.path.dirname(os.path.abspath(__file__))
sys.path.insert(0, f"{os.path.dirname(BENCH)}/tests")
from lib import Running, find_program, free_port  # noqa: E402, F401

AFTER = 1_700_010_000  # seconds: after the last sample of make_block.rs, less than two hours after the first
MB = 1e6
PEERS = {"Prometheus": ("prometheus", "promtool"), "VictoriaMetrics": ("victoria-metrics",)}
TOOLS = ("make_block", "open_metrics", "load", "remote", "turns")


class Failed(Exception):
    """Something did not run as it should."""


def parser_of(doc, rounds):
    """The words that both scripts read; the first sentence of their text says which."""
    parser = argparse.ArgumentParser(
        prog=sys.argv[0], description=doc, formatter_class=argparse.RawDescriptionHelpFormatter)
    parser.add_argument("--rounds", type=int, default=rounds, metavar="N")
    parser.add_argument("--quick", action="store_true")
    return parser


def words_of(parser):
    words = parser.parse_args()
    if words.rounds < 1:
        parser.error("--rounds takes a number from 1")
    return words


def run_to_end(main):
    """Runs a script: status 1 if something did not run as it should, 130 or 143 if it was interrupted."""
    signal.signal(signal.SIGTERM, lambda *_: sys.exit(143))
    try:
        main()
    except Failed as fault:
        sys.exit(f"{sys.argv[0]}: {fault}")
    except KeyboardInterrupt:
        sys.exit(130)


def tell(line):
    print(line, file=sys.stderr, flush=True)


def present(peer):
    return all(shutil.which(program) for program in PEERS[peer])


def run(words, stdout=subprocess.PIPE, **options):
    """What a program prints; it has to succeed."""
    done = subprocess.run(words, stdout=stdout, stderr=subprocess.PIPE, text=True, **options)
    if done.returncode:
        told = done.stderr.strip()[-400:]
        raise Failed(f"{' '.join(words)[:200]}: status {done.returncode}: {told}")
    return done.stdout


class Cost:
    """The median milliseconds of runs of a program, and the greatest megabytes of memory."""

    def __init__(self):
        self.times, self.peak = [], 0.0

    def add(self, words, out="/dev/null", given="/dev/null", processors=None):
        """One run more, on so many processors. The script stays small, since the peak that the system tells
        of a child is never below its parent's."""
        everywhere = os.sched_getaffinity(0)
        files = [(os.POSIX_SPAWN_OPEN, 0, given, os.O_RDONLY, 0),
                 (os.POSIX_SPAWN_OPEN, 1, out, os.O_WRONLY | os.O_CREAT | os.O_TRUNC, 0o600)]
        os.sched_setaffinity(0, sorted(everywhere)[:processors])
        before = time.perf_counter()
        child = os.posix_spawnp(words[0], words, os.environ, file_actions=files)
        try:
            os.sched_setaffinity(0, everywhere)
            _, status, usage = os.wait4(child, 0)
        except BaseException:
            os.kill(child, signal.SIGKILL)
            raise
        self.times.append((time.perf_counter() - before) * 1e3)
        self.peak = max(self.peak, usage.ru_maxrss * 1024 / MB)
        if status:
            raise Failed(f"{' '.join(words)[:200]}: status {os.waitstatus_to_exitcode(status)}")

    @property
    def median(self):
        return statistics.median(self.times)


class Server:
    """A server that runs, its port, and what is asked of it for a selector."""

    def __init__(self, name, process, port, target):
        self.name, self.process, self.port, self.target = name, process, port, target

    def peak(self):
        """The greatest megabytes of memory so far."""
        with open(f"/proc/{self.process.pid}/status") as status:
            line = next(line for line in status if line.startswith("VmHWM"))
        return int(line.split()[1]) * 1024 / MB

    def ask(self, target):
        """The milliseconds of a reply over a new connection, whatever it says."""
        request = f"GET {target} HTTP/1.1\r\nHost: 127.0.0.1\r\nConnection: close\r\n\r\n".encode()
        before, size = time.perf_counter(), 0
        with socket.create_connection(("127.0.0.1", self.port)) as link:
            link.sendall(request)
            while piece := link.recv(1 << 16):
                size += len(piece)
        if not size:
            raise Failed(f"{self.name} did not reply to {target}")
        return (time.perf_counter() - before) * 1e3

    def wait(self, path):
        """Waits until the server replies with success to a path."""
        for _ in range(600):
            if self.process.poll() is not None:
                break
            with contextlib.suppress(OSError):
                urllib.request.urlopen(f"http://127.0.0.1:{self.port}{path}", timeout=5).close()
                return
            time.sleep(0.1)
        raise Failed(f"{self.name} does not serve")


def select_target(selector):
    words = {"selector": selector, "from": 0, "to": 2**62 - 1}
    return f"/select?{urllib.parse.urlencode(words)}"


def peer_target(selector):
    """The same samples, as they are."""
    words = {"query": f"{selector}[2h]", "time": AFTER}
    return f"/api/v1/query?{urllib.parse.urlencode(words)}"


class House:
    """A folder for all, the programs, and the tools of this folder; it goes when the `with` ends."""

    def __init__(self, querier, auditor):
        self.querier, self.auditor = querier, auditor
        self.folder = tempfile.TemporaryDirectory(
            prefix="fuzzledge-peers-", ignore_cleanup_errors=True)
        self.work = self.folder.name

    def __enter__(self):
        try:
            for tool in TOOLS:
                compiler = os.environ.get("RUSTC", "rustc")
                run([compiler, "-O", f"{BENCH}/{tool}.rs", "-o", f"{self.work}/{tool}"])
        except BaseException:
            self.folder.cleanup()
            raise
        return self

    def __exit__(self, *_):
        self.folder.cleanup()

    def tool(self, name, *words, **options):
        return run([f"{self.work}/{name}", *map(str, words)], **options)

    def load(self, port, clients, seconds, *words):
        """Of so many clients at once: the requests that failed, and how many there were a second."""
        told = self.tool("load", port, clients, seconds, *words).split()
        return {"bad": int(told[2]), "rate": float(told[4])}

    def block(self, series, samples):
        """The folder of a block, which is made once."""
        folder = f"{self.work}/{series}x{samples}"
        if not os.path.exists(folder):
            self.tool("make_block", series, samples, folder)
        return folder

    @contextlib.contextmanager
    def running(self, name, words, target, port=None):
        """A server; without a port, it tells in its first line which one it took."""
        running = Running(words)
        try:
            if port is None and not running.wait():
                raise Failed(f"{name} does not listen: {' '.join(words)[:200]}: {running.told[-400:]}")
            yield Server(name, running.process, port or running.port, target)
        finally:
            running.end(signal.SIGTERM, 20)

    def serving(self, *folders, workers=16):
        words = [self.querier, "serve", "--port", "0", "--workers", str(workers), *folders]
        return self.running("querier", words, select_target)

    @contextlib.contextmanager
    def prometheus(self, series, samples):
        """Prometheus over a block that promtool made of a text."""
        text, data, config = (f"{self.work}/{name}" for name in ("text", "prometheus", "empty"))
        with open(text, "wb") as out:
            self.tool("open_metrics", series, samples, stdout=out)
        run(["promtool", "tsdb", "create-blocks-from", "openmetrics", text, data])
        os.remove(text)
        open(config, "w").close()
        port = free_port()
        words = ["prometheus", f"--config.file={config}", f"--storage.tsdb.path={data}",
                 "--storage.tsdb.retention.time=100y", f"--web.listen-address=127.0.0.1:{port}",
                 "--log.level=error"]
        with self.running("Prometheus", words, peer_target, port) as server:
            server.wait("/-/ready")
            yield server
        shutil.rmtree(data)

    @contextlib.contextmanager
    def victoria(self, series=0, samples=0):
        """VictoriaMetrics with as many series imported, or with none."""
        port, data = free_port(), f"{self.work}/victoria"
        words = ["victoria-metrics", f"-storageDataPath={data}", "-retentionPeriod=100y",
                 f"-httpListenAddr=127.0.0.1:{port}", "-loggerLevel=ERROR"]
        with self.running("VictoriaMetrics", words, peer_target, port) as server:
            server.wait("/health")
            if series:
                self.tool("load", port, "fill", series, samples, "import")
                server.ask("/internal/force_flush")
            yield server
        shutil.rmtree(data)

    @contextlib.contextmanager
    def peers(self, series, samples):
        """The peers that are installed, with the same samples."""
        makers = {"Prometheus": self.prometheus, "VictoriaMetrics": self.victoria}
        with contextlib.ExitStack() as stack:
            yield [stack.enter_context(make(series, samples))
                   for name, make in makers.items() if present(name)]

    def victoria_if(self):
        """VictoriaMetrics without samples, or nothing where it is not installed."""
        return self.victoria() if present("VictoriaMetrics") else contextlib.nullcontext()
