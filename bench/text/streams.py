"""Streams of memcached's text protocol, drawn: well formed commands, bad words, and hostile bytes."""
import random

KEYS = [b"k0", b"k1", b"k2", b"k" * 250]
NOREPLY = [b"", b"", b"", b" noreply", b" foo"]
LIVES = [b"0", b"0", b"100", b"-1", b"-0", b"2592001", b"00", b"2147483648", b"4294967295", b"4294967296"]
DATA = [b"", b"a", b"10", b"9", b"007", b"18446744073709551615", b"18446744073709551616", b"12 ", b"5\r\n", b"abc", b"mn\r\n", b"x" * 300]
DELTAS = [b"0", b"1", b"5", b"01", b"18446744073709551615"]
BAD_NUMBERS = [b"x", b"-1", b"1x", b"18446744073709551616"]


def ending(draw):
    return b"\n" if draw.random() < 0.1 else b"\r\n"


def spaced(draw, words):
    """Words with a space between, or more."""
    if draw.random() < 0.9:
        return b" ".join(words)
    return b" " * draw.randrange(3) + b"".join(word + b" " * draw.randrange(1, 4) for word in words)


def words_of(tail):
    return [tail.strip()] if tail else []


def storage(draw, prefix):
    verb = draw.choice([b"set", b"set", b"add", b"replace", b"append", b"prepend", b"cas"])
    data = draw.choice(DATA)
    length = b"%d" % len(data)
    words = [verb, prefix(draw), b"%d" % draw.choice([0, 5, 4294967295]), draw.choice(LIVES), length]
    large = draw.random() < 0.02
    if large:
        data, words[4] = (b"y" * 98 + b"\r\n") * 10_500, b"1050000"
    elif draw.random() < 0.04:
        words[4] = draw.choice([b"-1", b"x", b"1x", b"4294967295"])
    if verb == b"cas":
        words.append(draw.choice([b"0", b"1", b"18446744073709551615"]))
    words += words_of(draw.choice(NOREPLY))
    if large:
        pass
    elif draw.random() < 0.03:
        words = words[: draw.randrange(1, len(words))]
        words = words if len(words) < 5 else words[:4]
    elif draw.random() < 0.03:
        words += [b"a", b"b"]
    if words[4:5] == [length] and draw.random() < 0.06 and len(data) < 300:
        data = draw.choice([data + b"z", data[:-1], data + b"\r\nabc"])
    return spaced(draw, words) + ending(draw) + data + b"\r\n"


def keyed(draw, prefix):
    name = draw.choice([b"delete", b"touch", b"incr", b"decr"])
    key = prefix(draw) if draw.random() < 0.96 else b"k" * 251
    words = [name, key]
    if name == b"touch":
        words.append(draw.choice(LIVES + [b"x", b"-", b"noreply"]))
    elif name != b"delete":
        words.append(draw.choice(DELTAS + BAD_NUMBERS[:3] + [b"noreply"]))
    elif draw.random() < 0.3:
        words.append(draw.choice([b"0", b"5", b"noreply", b"x"]))
    words += words_of(draw.choice(NOREPLY))
    if draw.random() < 0.05:
        words = words[: draw.randrange(1, len(words))]
    return spaced(draw, words) + ending(draw)


def retrieval(draw, prefix):
    name = draw.choice([b"get", b"get", b"gets", b"gat", b"gats"])
    words = [name] + ([draw.choice(LIVES + [b"x"])] if name[:3] == b"gat" else [])
    words += [prefix(draw) for _ in range(draw.randrange(0 if draw.random() < 0.1 else 1, 5))]
    return spaced(draw, words) + ending(draw)


def other(draw, prefix):
    return draw.choice(
        [
            b"version", b"mn", b"mn x", b"verbosity 0", b"verbosity 0 noreply", b"verbosity", b"verbosity x", b"flush_all", b"flush_all 0",
            b"flush_all noreply", b"flush_all x", b"flush_all x noreply", b"flush_all -1", b"flush_all 1 2 3", b"stats foo", b"stats noreply",
            b"", b"   ", b"GET k0", b"get\tk0", b"xyz k noreply", b"set", b"cas", b"incr", b"gat", b"noreply", b"VALUE k 0 1", b"ms k x", b"ms k",
        ]
    ) + ending(draw)


def hostile(draw, prefix):
    return bytes(draw.choice(b"gets k0\r\n x19-") for _ in range(draw.randrange(1, 40))).replace(b"\x80", b"") + ending(draw)


def stream(seed):
    """The bytes of one client, over keys that no other client has, and what it sends last."""
    draw = random.Random(seed)
    own = b"%x:" % seed

    def prefix(draw):
        key = draw.choice(KEYS)
        return own + key[: 250 - len(own)]

    text = b""
    for _ in range(draw.randrange(1, 14)):
        kind = draw.choices([storage, keyed, retrieval, other, hostile], [6, 4, 5, 2, 0.5])[0]
        text += kind(draw, prefix)
    last = b""
    if draw.random() < 0.15:
        last = draw.choice([b"quit\r\n", b"quit x\r\nmn\r\n", b"xyz / HTTP/1.1\r\nmn\r\n", b"get k", b"set k0 0 0 5\r\nab"])
    return text, last
