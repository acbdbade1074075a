"""What the Python scripts of tests/ and bench/ share: the programs, servers, and what was looked at."""
import contextlib
import os
import pathlib
import signal
import socket
import subprocess
import sys
import threading
import time

TOP = pathlib.Path(__file__).resolve().parent.parent
# the programs, and the crates that they are built in
CRATES = {"querier": "querier", "auditor": "auditor_program", "explain": "explain", "blocktool": "blocktool"}


def find_program(name):
    """The path of a program: the one that a variable names (QUERIER `querier`), or that make install put into
    PREFIX, or else the one that is built where its crate stands (RT)."""
    if path := os.environ.get(name.upper()):
        return os.path.abspath(path)
    if prefix := os.environ.get("PREFIX"):
        return os.path.join(os.path.abspath(prefix), "bin", name)
    folder = TOP / "crates" / CRATES[name]
    print(f"building {name}", file=sys.stderr, flush=True)
    built = subprocess.run(
        [os.environ.get("RT") or "rt", "run", "--", "--version"], cwd=folder,
        stdin=subprocess.DEVNULL, stdout=subprocess.PIPE, stderr=subprocess.STDOUT, text=True,
    )
    if built.returncode:
        sys.exit(f"{name} is not built:\n" + "\n".join(built.stdout.splitlines()[-20:]))
    return str(folder / "out" / CRATES[name])


def free_port():
    """A port of this machine that nobody has."""
    with socket.create_server(("127.0.0.1", 0)) as one:
        return one.getsockname()[1]


class Running:
    """A server that runs until it is ended; `told_out` and `told_err` are its lines so far."""

    processes = set()

    def __init__(self, words, env=None, cwd=None):
        self.told_out, self.told_err, self.port = [], [], None
        self.process = subprocess.Popen(
            words, stdin=subprocess.DEVNULL, stdout=subprocess.PIPE, stderr=subprocess.PIPE, cwd=cwd,
            env={**os.environ, **(env or {})},
        )
        Running.processes.add(self.process)
        self.has_told = threading.Event()
        self.readers = [
            threading.Thread(target=self.read, args=(pipe, lines), daemon=True)
            for pipe, lines in [(self.process.stdout, self.told_out), (self.process.stderr, self.told_err)]
        ]
        for reader in self.readers:
            reader.start()

    def read(self, pipe, lines):
        for line in pipe:
            lines.append(line.decode(errors="replace").rstrip("\n"))
            if lines is self.told_out:
                self.has_told.set()
        if lines is self.told_out:
            self.has_told.set()

    def wait(self, seconds=600):
        """Waits until it says on which port it listens, or has ended; whether it listens."""
        if not self.has_told.wait(seconds):
            raise AssertionError(f"no line of the server in {seconds} s")
        lines = [line for line in self.told_out if line.startswith("listening ")]
        self.port = int(lines[0].split()[1]) if lines else None
        return self.port is not None

    @property
    def told(self):
        return "\n".join(self.told_err)

    def first_lines(self, count):
        """Its first lines on standard error, for which it has two seconds."""
        for _ in range(200):
            if len(self.told_err) >= count:
                break
            time.sleep(0.01)
        return self.told_err[:count]

    def first_told(self):
        return "".join(self.first_lines(1))

    def end(self, how=signal.SIGKILL, seconds=120):
        """Kills it if it runs, and says its exit status."""
        if self.process.poll() is None:
            self.process.send_signal(how)
        return self.ended(seconds)

    def ended(self, seconds=120):
        """Waits until it has ended: its exit status, or the number of the signal, negative."""
        try:
            status = self.process.wait(seconds)
        except subprocess.TimeoutExpired:
            self.process.kill()
            status = self.process.wait()
            self.told_err.append(f"(it did not end in {seconds} s)")
        for reader in self.readers:
            reader.join(5)
        Running.processes.discard(self.process)
        return status


def end_all():
    """Kills each server that runs."""
    for process in list(Running.processes):
        with contextlib.suppress(OSError):
            process.kill()
        process.wait()


# the facts that do not hold
failed = []


def holds(name, fact):
    if not fact:
        failed.append(name)
        print("not so:", name)
