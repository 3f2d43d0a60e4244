"""Runs of both programs that the scripts of faults share: words, input, the output that is due, and how many threads are at work at once."""
import contextlib
import dataclasses
import os
import pathlib
import pwd
import re
import shutil
import signal
import socket
import subprocess
import threading

import documents
import formats
import peers

TRACE = b"put a 1\nadd b 2\nsync\nget a\nget b\nget c\nsync\ntouch a\ndel b\n"
GETS = b"get a\nget b\nget c\n"
SMALL = ["--partitions", "2", "--buckets", "16", "--spares", "4", "--words", "1024"]
READERS = ["--readers", "2"]
GENERATED = ["--ops", "200", "--keys", "20", "--gets", "50"]
SERVES = "serves"  # in place of a status, of a server that stays up and has answered at each of its ports
PROGRAMS = {"mica": formats.MICA, "micad": formats.MICAD}
BATCH = formats.batch_of(2, 7, [(formats.PUT, 1, b"a", b"1"), (formats.GET, 2, b"a", b"")])


@dataclasses.dataclass
class Row:
    name: str
    words: list
    input: bytes = b""
    wants_server: bool = False  # a server is to be there, whose first port the words lack
    is_server: bool = False  # it is sent one batch at each port
    program: str = "mica"  # or micad, which is killed once it has answered
    over_tcp: bool = False  # it is a server of memcached's protocol
    threads: int = 0  # how many threads it asks for before its first worker starts: two for each worker
    wanted: tuple = ()


def all_rows():
    """A row for each command and mode, of the programs that are there."""
    return [*(rows_of_mica() if formats.MICA.exists() else ()), *(rows_of_micad() if formats.MICAD.exists() else ())]


def rows_of_micad():
    """Servers of each kind and mode: of two ports over UDP, of two threads over TCP."""
    for mode in ("store", "cache"):
        words = ["--mode", mode, *SMALL]
        yield Row(f"micad, datagrams, {mode}", [*words, "--fronts", "2"], is_server=True, program="micad", threads=2 * 2)
        yield Row(f"micad, connections, {mode}", [*words, "--threads", "2"], is_server=True, program="micad", over_tcp=True, threads=2 * 2)


def rows_of_mica():
    """A row for each command and mode that this build has."""
    rows = []
    for mode in ("store", "cache"):
        both = ["--mode", mode, *SMALL]
        rows += [
            Row(f"replay, {mode}", ["replay", *both, *READERS], TRACE, threads=2 * (2 + 2 + 1)),
            Row(f"bench, {mode}", ["bench", *both, *READERS, *GENERATED], threads=2 * (2 + 2 + 1)),
            Row(f"serve, {mode}", ["serve", *both, "--fronts", "2", "--batches", "1"], is_server=True, threads=2 * (2 + 2)),
            Row(f"exclusive, {mode}", ["exclusive", *both], TRACE, threads=2 * (2 + 1)),
        ]
    report = plain(rows[0].words, TRACE).stdout
    rows += [
        Row("gen", ["gen", *GENERATED]),
        Row("check", ["check", "--mode", "store", *SMALL, *READERS], TRACE + b"check\n" + report),
        Row("image", ["image", *SMALL], TRACE),
        Row("unpack", ["unpack"], bytes.fromhex("4d494d470102000000" "0101006131" "0101006232")),
        Row("ask", ["ask", "--partitions", "2"], GETS, wants_server=True),
        Row("no command", ["repla"]),
    ]
    return [row for row in rows if row.name == "no command" or not is_unknown(row)]


def is_unknown(row):
    """Whether this build lacks the row's command, which refuses it as usage."""
    if row.is_server:
        return False
    # a client of the empty trace asks nobody
    words, text = ([*row.words, "--port", "9000"], b"") if row.wants_server else (row.words, row.input)
    return plain(words, text).stdout == b"usage\n"


def plain(words, text):
    return subprocess.run([formats.MICA, *words], input=text, stdout=subprocess.PIPE, timeout=60)


class Myself:
    """Runs the programs as whoever runs the script."""

    programs = PROGRAMS
    who = {}

    def start(self, command):
        pipes = dict.fromkeys(("stdin", "stdout", "stderr"), subprocess.PIPE)
        return subprocess.Popen(command, start_new_session=True, **pipes, **self.who)


class Another(Myself):
    """Runs copies of the programs as a user that has no other process."""

    def __init__(self, folder):
        if os.getuid():
            raise PermissionError("only root may run a program as another user")
        taken = {entry.pw_uid for entry in pwd.getpwall()} | {path.stat().st_uid for path in pathlib.Path("/proc").glob("[0-9]*")}
        number = next(number for number in range(54_321, 60_000) if number not in taken)
        self.who = {"user": number, "group": number, "extra_groups": []}
        self.programs = {name: pathlib.Path(folder) / name for name in PROGRAMS}
        pathlib.Path(folder).chmod(0o755)
        for name, program in PROGRAMS.items():
            if program.exists():
                shutil.copy(program, self.programs[name])
                self.programs[name].chmod(0o755)


@dataclasses.dataclass
class Ended:
    status: int | str | None  # None where it did not end in time, or had not answered
    output: bytes
    errors: bytes
    replies: list  # of a server: what each of its ports sent


def unbound_line(port="N"):
    """What micad writes where it can't bind a port: OPERATING's line, of this port."""
    line = next(cells[2].split("`")[1] for _, cells in documents.rows(documents.TOP / "docs/OPERATING.md") if cells[0] == "7")
    return re.sub(r"\bP\b", str(port), line).encode() + b"\n"


def kill(running):
    """Kills what was started, with all that it started."""
    with contextlib.suppress(ProcessLookupError):
        os.killpg(running.pid, signal.SIGKILL)


def run(runner, before, row, seconds, server_port=None):
    """Runs the row with these words before the program's, for at most so many seconds. Whatever it started is killed then."""
    port = peers.free_port() if row.over_tcp else formats.free_port(2) if row.is_server else server_port if row.wants_server else None
    words = [*row.words, "--memcached" if row.over_tcp else "--port", str(port)] if port else row.words
    running = runner.start([*before, str(runner.programs[row.program]), *words])
    late, serves = threading.Event(), False
    clock = threading.Timer(seconds, lambda: (late.set(), kill(running)))
    clock.start()
    replies = talk_to(running, port, row) if row.is_server else []
    if row.program == "micad" and running.poll() is None:
        serves = all(replies) and not late.is_set()
        kill(running)
    try:
        output, errors = running.communicate(None if row.is_server else row.input)
    finally:
        clock.cancel()
    if row.program == "micad":
        output = re.sub(rb"\d+", b"N", output)
    return Ended(SERVES if serves else None if late.is_set() else running.returncode, output, errors, replies)


def ask_datagram(client):
    client.socket.send(BATCH)
    return client.receive()


def ask_connection(port):
    with socket.create_connection((formats.HOST, port), timeout=0.5) as connection:
        connection.sendall(b"mn\r\n")
        return connection.recv(64)


def talk_to(running, port, row):
    """Asks each of two ports, or one port twice over TCP, again each half second until the server ends or has answered: what each of them answered."""
    clients = [] if row.over_tcp else [formats.Client(port + front, 0.5) for front in (0, 1)]
    asks = [lambda front=front: ask_connection(port) if row.over_tcp else ask_datagram(clients[front]) for front in (0, 1)]
    replies, ends = [b"", b""], threading.Event()
    threading.Thread(target=lambda: (running.wait(), ends.set()), daemon=True).start()
    while not ends.is_set() and not all(replies):
        for front, ask in enumerate(asks):
            if not replies[front]:
                with contextlib.suppress(OSError):
                    replies[front] = ask()
                ends.wait(0 if replies[front] else 0.05)
    for client in clients:
        client.close()
    return replies
