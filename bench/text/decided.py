"""A model of items over the proved commands, and talks of one client that are drawn to try them."""
import concurrent.futures
import ctypes
import random
import re
import socket
import threading
import time

from model import Grammar, Model

HOST = "127.0.0.1"
STAYS, BECOMES, GOES, NONE = range(4)
KEYS = [b"k0", b"k1"]
NUMBERS = [b"0", b"1", b"9", b"10", b"99", b"007", b"18446744073709551615", b"18446744073709551616", b"000018446744073709551615", b"12 ", b"5\r\n", b"7\0x", b"3\t4"]
# No minus sign: where a number is 2^63 or more memcached looks for one also behind the value, in what lay there before.
DATA = NUMBERS + [b"", b"a", b"abc", b"1.5", b"12a", b"mn\r\n", b"x" * 300, b"y" * 2_000]
MORE = [data for data in DATA if len(data) <= 300]
DELTAS = [b"0", b"1", b"1", b"5", b"01", b"100", b"18446744073709551615"]
NOBODYS = b"18446744073709551615"
SHORT = b"3"
LIVES = [b"0"] * 6 + [b"100"] * 3 + [b"2592000", b"2592001", b"-1", b"-0", b"2147483648", b"4294967295", b"4294967296"]
PASSED = 4
# Room for the longest value, as it is stored and as it is replied.
MOST = 1_100_000
LARGE = 1_050_000


class Decided(ctypes.Structure):
    _fields_ = [(name, ctypes.c_uint64) for name in "second flushed unique".split()] + [
        (name, ctypes.c_uint32) for name in "stored change".split()
    ] + [(name, ctypes.c_uint64) for name in "next_len part_len last_len".split()]


class Commands(Grammar):
    """The grammar, and what its commands make of what is stored."""

    def __init__(self, path):
        super().__init__(path)
        self.decide = ctypes.CDLL(path).text_decide
        place = [ctypes.c_char_p, ctypes.c_size_t]
        self.decide.argtypes = [*place, ctypes.POINTER(Decided), *place, *place, *place]
        self.item, self.reply = (ctypes.create_string_buffer(MOST) for _ in range(2))

    def decided(self, text, at, stored):
        at.stored = stored is not None
        old = stored or b""
        self.decide(text, len(text), ctypes.byref(at), old, len(old), self.item, MOST, self.reply, MOST)
        reply = ctypes.string_at(self.reply, at.part_len + at.last_len)
        return at.change, ctypes.string_at(self.item, at.next_len), reply[: at.part_len], reply[at.part_len :]


class Items(Model):
    """The stored values of one server, changed as the commands say."""

    def __init__(self, grammar):
        super().__init__(grammar)
        self.second, self.flushed, self.unique = int(time.time()), 0, 1

    def carry_out(self, text, key):
        """What is answered to a command of one key, and what becomes of its value."""
        at = Decided(second=self.second, flushed=self.flushed, unique=self.unique)
        change, item, part, last = self.grammar.decided(text, at, self.items.get(key))
        if change == NONE:
            raise SystemExit(f"nothing is decided of {text[:200]!r}")
        if change == BECOMES:
            self.unique += item[8:16] == self.unique.to_bytes(8, "little")
            self.items[key] = item
        elif change == GOES:
            self.items.pop(key, None)
        return part, last

    def act(self, name, found, words, data, text):
        if name == "flush":
            if found.life == 2:
                self.flushed = self.unique
            return b"OK\r\n"
        if name in ("stats", "version", "verbosity", "mn"):
            return super().act(name, found, words, data, text)
        if name != "get":
            return b"".join(self.carry_out(text, words[1]))
        first = 2 if found.life else 1
        parts = [self.carry_out(b" ".join([*words[:first], key]) + b"\r\n", key)[0] for key in words[first:]]
        return b"".join(parts) + b"END\r\n"

    def spoil(self, words, text):
        self.carry_out(text, words[1])


def number_for(draw, key):
    """A unique number: the one that was told last for the key, or another."""
    return draw.choices([b"<%s>" % key, b"<k0>", b"0", NOBODYS], [8, 2, 1, 1])[0]


def command(draw, own, short):
    key = draw.choice(KEYS)
    name = own + key
    life = draw.choice(LIVES + ([SHORT] * 6 if short else [b"%d" % (int(time.time()) + 1_000)]))
    quiet = draw.choice([b"", b"", b"", b" noreply"])
    flags = draw.choice([b"0", b"5", b"4294967295"])
    data = draw.choice(NUMBERS if draw.random() < 0.5 else DATA)
    kinds = {"store": 6, "cas": 5, "join": 4, "count": 8, "get": 8, "gat": 2, "touch": 3, "delete": 2, "flush": 0 if short else 0.5, "large": 0.3}
    kind = draw.choices(list(kinds), kinds.values())[0]
    if kind == "store":
        return b"%s %s %s %s %d%s\r\n%s\r\n" % (draw.choice([b"set", b"set", b"set", b"add", b"add", b"replace"]), name, flags, life, len(data), quiet, data)
    if kind == "cas":
        return b"gets %s\r\ncas %s %s %s %d %s%s\r\n%s\r\n" % (name, name, flags, life, len(data), number_for(draw, key), quiet, data)
    if kind == "join":
        data = draw.choice(MORE)
        return b"%s %s 0 0 %d%s\r\n%s\r\n" % (draw.choice([b"append", b"prepend"]), name, len(data), quiet, data)
    if kind == "count":
        return b"%s %s %s%s\r\n" % (draw.choice([b"incr", b"incr", b"decr"]), name, draw.choice(DELTAS), quiet)
    if kind in ("get", "gat"):
        names = b" ".join(own + draw.choice(KEYS) for _ in range(draw.randrange(1, 4)))
        number = draw.choice([b"", b"s"])
        return b"get%s %s\r\n" % (number, names) if kind == "get" else b"gat%s %s %s\r\n" % (number, life, names)
    if kind == "touch":
        return b"touch %s %s%s\r\n" % (name, life, quiet)
    if kind == "delete":
        return b"delete %s%s\r\n" % (name, quiet)
    if kind == "large":
        return b"%s %s 0 0 %d%s\r\n%s\r\n" % (draw.choice([b"set", b"add", b"append"]), name, LARGE, quiet, b"z" * LARGE)
    return b"flush_all%s\r\n" % quiet


def talk(seed):
    """What one client sends, as pieces of which each waits for the answers to those before, and where seconds pass: None. A number in brackets is
    the one that was told last for this key. Flushes are not drawn where seconds pass, since such talks are held side by side."""
    draw = random.Random(seed)
    own = b"%x:" % seed
    short = draw.random() < 0.1
    pieces = []
    for turn in range(draw.randrange(8, 30)):
        if short and turn and draw.random() < 0.07:
            pieces.append(None)
        text = command(draw, own, short)
        if b"<" in text:
            asked, text = text.split(b"\r\n", 1)
            pieces.append(asked + b"\r\n")
        pieces.append(text)
    return own, pieces


def held(own, pieces, send, wait):
    """What is answered to a talk, where `send` gives the answer to a piece."""
    told, answers = {}, b""
    for piece in pieces:
        if piece is None:
            wait()
            continue
        answer = send(re.sub(rb"<(k\d)>", lambda match: told.get(match.group(1), NOBODYS), piece))
        for key, number in re.findall(rb"VALUE %s(k\d) \d+ \d+ (\d+)\r\n" % own, answer):
            told[key] = number
        answers += answer
    return answers


def held_with_server(port, own, pieces):
    """And the seconds that it took beside those that it waited for."""
    begin, waited = time.monotonic(), pieces.count(None) * PASSED
    with socket.create_connection((HOST, port)) as client:
        client.setsockopt(socket.IPPROTO_TCP, socket.TCP_NODELAY, 1)
        client.settimeout(20)

        def send(piece):
            client.sendall(piece + b"mn\r\n")
            answer = b""
            while not answer.endswith(b"MN\r\n"):
                some = client.recv(65_536)
                if not some:
                    return answer + b"<closed>"
                answer += some
            return answer.removesuffix(b"MN\r\n")

        answers = held(own, pieces, send, lambda: time.sleep(PASSED))
    return answers, time.monotonic() - begin - waited


def held_with_items(grammar, own, pieces):
    items = Items(grammar)

    def wait():
        items.second += PASSED

    return held(own, pieces, items.answers, wait)


def compare(port, grammar, plain, seeds, ours_port=None):
    """Holds these talks with a server and with the items or the server at another port, those in which seconds pass side by side, and gives those whose answers differ."""
    lock = threading.Lock()

    def differs(seed):
        own, pieces = talk(seed)
        theirs, seconds = held_with_server(port, own, pieces)
        if None in pieces and seconds > 1:
            raise SystemExit("too slow for talks in which seconds pass")
        if ours_port:
            ours, seconds = held_with_server(ours_port, own, pieces)
        else:
            with lock:
                ours = held_with_items(grammar, own, pieces)
        if None in pieces and seconds > 1:
            raise SystemExit("too slow for talks in which seconds pass")
        return None if plain(theirs) == plain(ours) else (seed, pieces, plain(theirs), plain(ours))

    with concurrent.futures.ThreadPoolExecutor(40) as pool:
        found = list(pool.map(differs, [seed for seed in seeds if None in talk(seed)[1]]))
    found += [differs(seed) for seed in seeds if None not in talk(seed)[1]]
    return [one for one in found if one]
