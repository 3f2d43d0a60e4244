"""A model of items over the proved grammar: what is due to the bytes that a client of memcached's text protocol sends."""
import ctypes
import time

MAX_TEXT = 1_048_576
COMMANDS = "get store join count delete touch flush stats version verbosity mn quit".split()
WHITE = b" \t\n\v\f\r"


class Found(ctypes.Structure):
    _fields_ = [(name, ctypes.c_uint32) for name in "kind name which quiet life seconds flags".split()] + [
        (name, ctypes.c_uint64) for name in "number len value_len fault_len".split()
    ]


class Grammar:
    def __init__(self, path):
        self.call = ctypes.CDLL(path).text_next
        self.call.argtypes = [ctypes.c_char_p, ctypes.c_size_t, ctypes.POINTER(Found), ctypes.c_char_p, ctypes.c_size_t]
        self.line = ctypes.create_string_buffer(128)

    def next(self, bytes_):
        found = Found()
        self.call(bytes_, len(bytes_), ctypes.byref(found), self.line, 128)
        return found, self.line.raw[: found.fault_len]


class Item:
    def __init__(self, flags, end, unique, data):
        self.flags, self.end, self.unique, self.data = flags, end, unique, data


class Model:
    """The items of one server, and the answers to a connection's bytes."""

    def __init__(self, grammar):
        self.grammar, self.items, self.unique, self.waits = grammar, {}, 1_000_000, False

    def found(self, key):
        item = self.items.get(key)
        if item and item.end is not None and item.end <= time.time():
            del self.items[key]
            return None
        return item

    def keep(self, key, item, found):
        """Keeps an item for a lifetime."""
        item.end = {1: None, 2: 0, 3: time.time() + found.seconds, 4: found.seconds}[found.life]
        self.items[key] = item

    def fresh(self):
        self.unique += 1
        return self.unique

    def store(self, found, key, data):
        item = self.found(key)
        if found.which == 1 and item or found.which == 2 and not item:
            return b"NOT_STORED\r\n"
        if found.which == 3:
            if not item:
                return b"NOT_FOUND\r\n"
            if item.unique != found.number:
                return b"EXISTS\r\n"
        self.keep(key, Item(found.flags, None, self.fresh(), data), found)
        return b"STORED\r\n"

    def join(self, found, key, data):
        item = self.found(key)
        if not item:
            return b"NOT_STORED\r\n"
        if len(item.data) + len(data) > MAX_TEXT:
            return b"SERVER_ERROR object too large for cache\r\n"
        item.data, item.unique = (item.data + data if found.which else data + item.data), self.fresh()
        return b"STORED\r\n"

    def count(self, found, key):
        item = self.found(key)
        if not item:
            return b"NOT_FOUND\r\n"
        digits = item.data[: next((at for at, byte in enumerate(item.data) if not 48 <= byte <= 57), len(item.data))]
        behind = item.data[len(digits) : len(digits) + 1]
        if not digits or behind and behind not in (b"\0", *(bytes((byte,)) for byte in WHITE)) or int(digits) >= 2**64:
            return b"CLIENT_ERROR cannot increment or decrement non-numeric value\r\n"
        number = (int(digits) + found.number) % 2**64 if found.which else max(0, int(digits) - found.number)
        text = b"%d" % number
        item.data, item.unique = text.ljust(len(item.data)), self.fresh()
        return text + b"\r\n"

    def get(self, found, keys):
        text = b""
        for key in keys:
            item = self.found(key)
            if item:
                unique = b" %d" % item.unique if found.which else b""
                text += b"VALUE %s %d %d%s\r\n%s\r\n" % (key, item.flags, len(item.data), unique, item.data)
                if found.life:
                    self.keep(key, item, found)
        return text + b"END\r\n"

    def act(self, name, found, words, data, text):
        """What is answered to a command of these words and this data, whose text the bytes begin with."""
        key = words[1] if len(words) > 1 else b""
        if name == "get":
            return self.get(found, words[2:] if found.life else words[1:])
        if name == "store":
            return self.store(found, key, data)
        if name == "join":
            return self.join(found, key, data)
        if name == "count":
            return self.count(found, key)
        if name == "delete":
            known = self.found(key)
            self.items.pop(key, None)
            return b"DELETED\r\n" if known else b"NOT_FOUND\r\n"
        if name == "touch":
            item = self.found(key)
            if item:
                self.keep(key, item, found)
            return b"TOUCHED\r\n" if item else b"NOT_FOUND\r\n"
        if name == "flush":
            if found.life == 2:
                self.items.clear()
            return b"OK\r\n"
        return {"stats": b"END\r\n", "version": b"VERSION\r\n", "verbosity": b"OK\r\n", "mn": b"MN\r\n"}[name]

    def spoil(self, words, text):
        self.items.pop(words[1], None)

    def answers(self, stream):
        """What is due to a connection that sends these bytes and then ends."""
        text, rest = b"", stream
        while True:
            found, line = self.grammar.next(rest)
            if found.kind >= 2:
                self.waits = bool(rest)
                return text + (b"CLIENT_ERROR line too long\r\n" if found.kind == 3 else b"")
            words = [word for word in rest[: rest.find(b"\n")].removesuffix(b"\r").split(b" ") if word]
            if found.kind == 1:
                if found.which:
                    self.spoil(words, rest)
                text += b"" if found.quiet else line
            else:
                name = COMMANDS[found.name]
                if name == "quit":
                    return text
                data = rest[found.len - 2 - found.value_len : found.len - 2]
                reply = self.act(name, found, words, data, rest)
                text += b"" if found.quiet else reply
            if found.len > len(rest):
                return text
            rest = rest[found.len :]
