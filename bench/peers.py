"""Servers of memcached's protocol, each started for a script and killed at its end: micad, memcached, and redis for its own protocol."""
import contextlib
import os
import pathlib
import socket
import subprocess
import time

from formats import HOST, TOP
from sizes import shape_for

PLAIN = TOP / "bench/target/release/mica_bench"
MICAD = pathlib.Path(os.environ.get("MICAD", TOP / "crates/micad/out/micad"))


def free_port(ports=1):
    """The first of so many ports that nobody listens at."""
    while True:
        with socket.socket() as first:
            first.bind((HOST, 0))
            port = first.getsockname()[1]
        with contextlib.ExitStack() as taken:
            try:
                for more in range(ports):
                    taken.enter_context(socket.socket()).bind((HOST, port + more))
                if port + ports <= 65_000:
                    return port
            except OSError:
                pass


def await_port(running, port, seconds=300):
    end = time.monotonic() + seconds
    while time.monotonic() < end and running.poll() is None:
        with contextlib.suppress(OSError):
            socket.create_connection((HOST, port)).close()
            return
        time.sleep(0.02)
    raise OSError(f"nobody listens at {port}")


@contextlib.contextmanager
def started(command, ports):
    with subprocess.Popen([str(word) for word in command], stdout=subprocess.DEVNULL, stderr=subprocess.DEVNULL) as running:
        try:
            for port in ports:
                await_port(running, port)
            yield running
        finally:
            running.kill()


@contextlib.contextmanager
def micad(*words, threads=1, mode="store", memory="64M", build=MICAD):
    """The process, and its port. Without memory its sizes stand among the words."""
    port = free_port()
    command = [build, "--mode", mode, *(("--memory", memory) if memory else ()), "--memcached", port, "--threads", threads, *words]
    with started(command, [port]) as running:
        yield running, range(port, port + 1)


@contextlib.contextmanager
def memcached(*words, threads=1, megabytes=64, udp=False):
    port = free_port()
    command = ["memcached", "-l", HOST, "-p", port, "-U", port if udp else 0, "-m", megabytes, "-t", threads, "-c", 4096, "-u", "root", *words]
    with started(command, [port]) as running:
        yield running, range(port, port + 1)


@contextlib.contextmanager
def redis(*words):
    port = free_port()
    with started(["redis-server", "--bind", HOST, "--port", port, "--save", "", "--appendonly", "no", *words], [port]) as running:
        yield running, range(port, port + 1)


@contextlib.contextmanager
def plain_rust(fronts=1, mode="store", memory="64M"):
    """Plain Rust of the same form: partitions under locks, of the sizes that micad makes for so much memory, and fronts over epoll. It knows get, gets, set and stats alone, keeps flags, end and
    unique number of an item, reads the clock for each command, answers what is over as absent, and counts. It takes away nothing that is over."""
    port = free_port(fronts)
    ports = range(port, port + fronts)
    with started([PLAIN, "streams", "--mode", mode, *shape_for(mode, memory), "--port", port, "--fronts", fronts], ports) as running:
        yield running, ports


def resident(process):
    """Its resident memory in bytes."""
    for line in pathlib.Path(f"/proc/{process.pid}/status").read_text().splitlines():
        if line.startswith("VmRSS"):
            return int(line.split()[1]) * 1024
    raise OSError("no resident memory")


def processor_seconds(process):
    """How long its threads have run on processors."""
    return sum(int((thread / "schedstat").read_text().split()[0]) for thread in pathlib.Path(f"/proc/{process.pid}/task").iterdir()) / 1e9


def pin(process, processors):
    """Has its threads run on these alone."""
    for thread in pathlib.Path(f"/proc/{process.pid}/task").iterdir():
        os.sched_setaffinity(int(thread.name), processors)


def places(number, threads):
    """The processors of a server in a turn, and those of its client."""
    processors = sorted(os.sched_getaffinity(0))
    behind = len(processors) // 2
    return tuple({processors[(number + first + place) % len(processors)] for place in range(threads)} for first in (0, behind))


def run_on(processors, *words):
    """What a program prints that runs on these processors."""
    on = lambda: os.sched_setaffinity(0, processors)
    return subprocess.run([str(word) for word in words], capture_output=True, text=True, timeout=600, check=True, preexec_fn=on).stdout


def reach(door, seconds=30):
    """A socket that is connected to a door: a port, an address with its port, or the path of a Unix socket."""
    if isinstance(door, (str, pathlib.Path)):
        client = socket.socket(socket.AF_UNIX)
        client.settimeout(seconds)
        client.connect(str(door))
        return client
    client = socket.create_connection(door if isinstance(door, tuple) else (HOST, door), timeout=seconds)
    client.setsockopt(socket.IPPROTO_TCP, socket.TCP_NODELAY, 1)
    return client


class Line:
    """A connection to a door that is written to and read from by whole lines and blocks."""

    def __init__(self, door, seconds=30):
        self.socket = reach(door, seconds)
        self.kept = b""

    def send(self, text):
        self.socket.sendall(text)

    def line(self):
        while b"\n" not in self.kept:
            more = self.socket.recv(65_536)
            if not more:
                raise EOFError("the connection ended")
            self.kept += more
        line, self.kept = self.kept.split(b"\n", 1)
        return line.removesuffix(b"\r")

    def block(self, length):
        while len(self.kept) < length + 2:
            more = self.socket.recv(65_536)
            if not more:
                raise EOFError("the connection ended")
            self.kept += more
        block, self.kept = self.kept[:length], self.kept[length + 2 :]
        return block

    def ask(self, text):
        self.send(text)
        return self.line()

    def get(self, key, word=b"get"):
        """The value (with its unique number, where `gets` asks for it), or None."""
        head = self.ask(word + b" " + key + b"\r\n")
        if head == b"END":
            return None
        parts = head.split()
        value = self.block(int(parts[3]))
        if self.line() != b"END":
            raise ValueError(f"no END behind {key}")
        return (value, int(parts[4])) if len(parts) > 4 else value

    def end(self):
        """All that comes until the other side closes."""
        rest = self.kept
        while more := self.socket.recv(65_536):
            rest += more
        return rest

    def close(self):
        self.socket.close()
