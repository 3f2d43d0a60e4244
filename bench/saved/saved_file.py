"""Files of saved items, written and read as crates/saved_items/FORMAT.md says, and by nothing else: no code of the tree is used here."""
import struct

BLOCK, CONTENT = 65_536, 65_528
FIRST_SUM, FACTOR, WORD = 0xCBF29CE484222325, 0x9E3779B97F4A7C15, 1 << 64
MAGIC = b"MIMG\x02\0\0\0"
MAX_KEY, MAX_VALUE, MAX_PARTITIONS = 250, 1_048_592, 65_536


class Fault(Exception):
    """The first fault of a file."""


def words(*numbers):
    return b"".join(struct.pack("<Q", number) for number in numbers)


def sum_on(total, content):
    for (word,) in struct.iter_unpack("<Q", content):
        mixed = (total ^ word) * FACTOR % WORD
        total = (mixed & 0xFFFFFFFF) << 32 | mixed >> 32
    return total


def blocks(content):
    """The content in blocks with their sums; it is as many bytes as whole blocks hold."""
    assert len(content) % CONTENT == 0
    total, file = FIRST_SUM, b""
    for at in range(0, len(content), CONTENT):
        part = content[at : at + CONTENT]
        total = sum_on(total, part)
        file += part + words(total)
    return file


def head(second, secret, mode, partitions):
    return MAGIC + words(second, *((1, *secret) if secret else (0, 0, 0)), ("cache", "store").index(mode), partitions)


def pair(key, value, reads=0, is_long=False):
    return words(len(key) | reads << 8 | is_long << 10 | len(value) << 32) + key + value


def closing(pairs, written, upcoming, until=0):
    return words(256 * pairs % WORD, written, upcoming, until)


def filled(content):
    return content + bytes(-len(content) % CONTENT)


class Reader:
    """What stands in the blocks, none of which is used before its sum held."""

    def __init__(self, file):
        self.file, self.at, self.total, self.rest = file, 0, FIRST_SUM, b""

    def take(self, count):
        while len(self.rest) < count:
            block = self.file[self.at : self.at + BLOCK]
            if len(block) < BLOCK:
                raise Fault("short")
            self.total = sum_on(self.total, block[:CONTENT])
            if words(self.total) != block[CONTENT:]:
                raise Fault("sum")
            self.rest += block[:CONTENT]
            self.at += BLOCK
        taken, self.rest = self.rest[:count], self.rest[count:]
        return taken

    def word(self):
        return struct.unpack("<Q", self.take(8))[0]


def shown(data):
    """Bytes in hexadecimal, those of a run of four and more as HHxCOUNT."""
    text, at = [], 0
    while at < len(data):
        end = at
        while end < len(data) and data[end] == data[at]:
            end += 1
        text.append(f"{data[at]:02x}x{end - at}" if end - at >= 4 else f"{data[at]:02x}" * (end - at))
        at = end
    return ".".join(text) or "-"


def head_of(reader):
    first = reader.take(56)
    if first[:4] != MAGIC[:4]:
        raise Fault("magic")
    if first[4:8] != MAGIC[4:]:
        raise Fault("version")
    second, kind, k0, k1, mode, partitions = struct.unpack("<6Q", first[8:])
    if kind > 1 or kind == 0 and (k0 or k1) or mode > 1 or not 1 <= partitions <= MAX_PARTITIONS:
        raise Fault("head")
    hashing = f"secret {k0} {k1}" if kind else "papers"
    return f"head {second} {hashing} {('cache', 'store')[mode]} {partitions}", partitions


def partition_of(reader):
    count = 0
    while True:
        word = reader.word()
        if word % 256 == 0:
            if word != 256 * count % WORD:
                raise Fault("count")
            written, upcoming, until = struct.unpack("<3Q", reader.take(24))
            if not 0 < upcoming < 1 << 62:
                raise Fault("count")
            yield f"close {written} {upcoming} {until}"
            return
        key_len, reads, is_long, value_len = word & 255, word >> 8 & 3, word >> 10 & 1, word >> 32
        if key_len > MAX_KEY or word >> 11 & (1 << 21) - 1 or value_len > MAX_VALUE:
            raise Fault("length")
        key, value = reader.take(key_len), reader.take(value_len)
        yield f"pair {shown(key)} {shown(value)} {reads} {'long' if is_long else 'short'}"
        count += 1


def read(file):
    """The lines of what a file has: its head, pairs and closings, and then `end` or its fault."""
    reader, lines = Reader(file), []
    try:
        line, partitions = head_of(reader)
        lines.append(line)
        for _ in range(partitions):
            for line in partition_of(reader):
                lines.append(line)
        if any(reader.rest) or reader.at != len(file):
            raise Fault("trailing")
        lines.append("end")
    except Fault as fault:
        lines.append(f"fault {fault}")
    return lines
