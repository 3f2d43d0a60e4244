"""What the scripts of this folder share: the datagrams of docs/FORMATS.md, the program, and a server of it."""
import contextlib
import os
import pathlib
import select
import socket
import struct
import subprocess
import time

TOP = pathlib.Path(__file__).resolve().parent.parent
MICA = pathlib.Path(os.environ.get("MICA", TOP / "crates/mica/out/mica"))
MICAD = pathlib.Path(os.environ.get("MICAD", TOP / "crates/micad/out/micad"))
HOST = "127.0.0.1"

GET, PUT, DELETE, ADD, TOUCH = range(5)
HIT, MISS, STORED, DELETED, ABSENT, FULL_SPARE, FULL_BLOCK, WORN = range(8)
BAD, LONG, EXISTS, TOUCHED = 9, 10, 11, 12
OPERATIONS = {1: (GET, PUT, DELETE), 2: (GET, PUT, DELETE, ADD, TOUCH)}
LENGTHS = {1: 1_472, 2: 9_000}
VALUES = {1: 1_024, 2: 8_192}
BAD_BATCH = bytes.fromhex("4d494352010100000000" "09000000000000000000000000000000")


def key_hash(key):
    number = 0xCBF29CE484222325
    for byte in key:
        number = ((number ^ byte) * 0x100000001B3) & (2**64 - 1)
    return number


def partition_of(key, partitions):
    return (key_hash(key) >> 48) % partitions


def batch_of(version, number, requests):
    """The text of a batch: requests are (operation, ticket, key, value)."""
    text = [b"MICA", bytes((version, len(requests))), struct.pack("<I", number)]
    for operation, ticket, key, value in requests:
        text += [struct.pack("<BBHI", operation, len(key), len(value), ticket), key, value]
    return b"".join(text)


def read_batch(text):
    """The version, the number and the requests of a batch; None where the bytes are no batch."""
    if len(text) < 10 or text[:4] != b"MICA" or text[4] not in LENGTHS or len(text) > LENGTHS[text[4]] or text[5] == 0:
        return None
    version, number, at, requests = text[4], struct.unpack_from("<I", text, 6)[0], 10, []
    for _ in range(text[5]):
        if len(text) - at < 8:
            return None
        operation, key_len, value_len, ticket = struct.unpack_from("<BBHI", text, at)
        longest = VALUES[version] if operation in (PUT, ADD) else 0
        if operation not in OPERATIONS[version] or key_len == 0 or value_len > longest or len(text) - at - 8 < key_len + value_len:
            return None
        at += 8
        requests.append((operation, ticket, text[at : at + key_len], text[at + key_len : at + key_len + value_len]))
        at += key_len + value_len
    return (version, number, requests) if at == len(text) else None


def read_replies(text):
    """The version, the number and the replies (status, ticket, stamp, value) of a datagram that a server sent."""
    if text[:4] != b"MICR" or text[4] not in LENGTHS or len(text) > LENGTHS[text[4]]:
        raise ValueError(f"no replies: {text[:16].hex()}")
    replies, at = [], 10
    for _ in range(text[5]):
        status, zero, value_len, ticket, stamp = struct.unpack_from("<BBHIQ", text, at)
        if zero or len(text) - at - 16 < value_len:
            raise ValueError(f"no reply at {at}: {text.hex()}")
        replies.append((status, ticket, stamp, text[at + 16 : at + 16 + value_len]))
        at += 16 + value_len
    if at != len(text):
        raise ValueError(f"{len(text) - at} bytes behind the last reply")
    return text[4], struct.unpack_from("<I", text, 6)[0], replies


class Client:
    """A client of one port, which waits for all replies to a batch before the next one."""

    def __init__(self, port, seconds=30):
        self.seconds, self.number, self.socket = seconds, 0, socket.socket(socket.AF_INET, socket.SOCK_DGRAM)
        self.socket.connect((HOST, port))

    def close(self):
        self.socket.close()

    def receive(self):
        if not select.select([self.socket], [], [], self.seconds)[0]:
            raise TimeoutError(f"no reply in {self.seconds} seconds")
        return self.socket.recv(65_536)

    def ask(self, version, requests):
        """The replies to the requests, in order. Requests are (operation, key, value)."""
        self.number = (self.number + 1) % 2**32
        self.socket.send(batch_of(version, self.number, [(op, ticket, key, value) for ticket, (op, key, value) in enumerate(requests)]))
        replies = []
        while len(replies) < len(requests):
            found = read_replies(self.receive())
            if found[:2] != (version, self.number):
                raise ValueError(f"replies of version {found[0]} to batch {found[1]}, not {version} and {self.number}")
            replies += found[2]
        if [ticket for _, ticket, _, _ in replies] != list(range(len(requests))):
            raise ValueError("other tickets than those asked")
        return replies


def free_port(count=1):
    """The first of so many ports that nobody has, outside of the range that the system gives away by itself."""
    for first in range(10_000 + os.getpid() % 15_000, 32_000, count):
        with contextlib.ExitStack() as ends:
            try:
                for port in range(first, first + count):
                    ends.enter_context(socket.socket(socket.AF_INET, socket.SOCK_DGRAM)).bind((HOST, port))
                return first
            except OSError:
                continue
    raise OSError("no free ports")


def is_bound(port):
    """Whether somebody has the UDP port of 127.0.0.1."""
    address = f"0100007F:{port:04X}"
    return any(line.split()[1] == address for line in pathlib.Path("/proc/net/udp").read_text().splitlines()[1:])


def await_ports(running, port, fronts, seconds=60):
    """Waits until the server has its ports. A server that ended before has none."""
    end = time.monotonic() + seconds
    while not all(is_bound(port + front) for front in range(fronts)):
        if running.poll() is not None or time.monotonic() > end:
            return False
        time.sleep(0.01)
    return True


@contextlib.contextmanager
def server(*words, fronts=1, batches=1_000_000, stays_up=False):
    """A server, killed at the end: its process and its first port. It is `mica serve`, or `micad`, which takes any number of batches."""
    port = free_port(fronts)
    program = [MICAD] if stays_up else [MICA, "serve", "--batches", str(batches)]
    command = [*program, "--port", str(port), "--fronts", str(fronts), *words]
    with subprocess.Popen(command, stdout=subprocess.PIPE) as running:
        try:
            if not await_ports(running, port, fronts):
                raise OSError("the server did not bind its ports")
            yield running, port
        finally:
            running.kill()


# How many loops take processors beside what is measured, by what the machine is then.
MACHINES = {"at rest": 0, "in use": os.cpu_count() // 2, "busy": 2 * os.cpu_count()}


@contextlib.contextmanager
def beside(machine):
    """Has the machine at rest, in use or busy, by loops that end with it."""
    loops = [subprocess.Popen(["sh", "-c", "while :; do :; done"]) for _ in range(MACHINES[machine])]
    try:
        yield
    finally:
        for loop in loops:
            loop.kill()
            loop.wait()


def resident(process):
    """The resident memory of a process in bytes, and its peak."""
    fields = dict(line.split(":", 1) for line in pathlib.Path(f"/proc/{process}/status").read_text().splitlines() if ":" in line)
    return tuple(1_024 * int(fields[name].split()[0]) for name in ("VmRSS", "VmHWM"))
