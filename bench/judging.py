"""Whether a report is lawful for a trace, by the rules of crates/mica/FORMATS.md, written for itself: it shares nothing with the program.

It keeps what each key's answer was after each write, so a get's line is looked up at the writes whose stamp it has. A put or add of store mode
may be refused because no block fits, wherever the rules leave the choice.
"""
import bisect
import collections
import re

from formats import key_hash

LONGEST_VALUE = 8_192
REPLIES = {
    b"put": (b"stored", b"full spare", b"full block", b"worn"),
    b"add": (b"stored", b"exists", b"full spare", b"full block", b"worn"),
    b"del": (b"deleted", b"absent", b"worn"),
    b"touch": (b"touched", b"absent", b"worn"),
}
NUMBER = re.compile(rb"0|[1-9][0-9]*")
VALUE = re.compile(rb"[ -~]*")


def item_size(key, value):
    return 2 + (len(key) + 7) // 8 + (len(value) + 7) // 8


class Store:
    """The machine of store mode: its cells, by key, and the counts that a put asks for."""

    def __init__(self, options):
        self.options, self.cells, self.rooms, self.stamp = options, {}, 0, 0
        self.keys = collections.Counter()

    def spares(self):
        return sum(max(0, (n + 14) // 15 - 1) for n in self.keys.values())

    def step(self, word, key, value):
        """The replies that may be given, each with what the write leaves: a key and its cell, nothing, or None where it is refused."""
        options, bucket = self.options, key_hash(key) % self.options.buckets
        if self.stamp == options.wear:
            return {b"worn": None}
        cell = self.cells.get(key)
        if word == b"del":
            return {b"deleted": (key, None)} if cell else {b"absent": ()}
        if word == b"touch":
            return {b"touched" if cell else b"absent": ()}
        if word == b"add" and cell:
            return {b"exists": None}
        size = item_size(key, value)
        if cell and size <= cell[1]:
            return {b"stored": (key, (value, cell[1]))}
        keys = self.keys[bucket]
        if not cell and keys and keys % 15 == 0 and self.spares() == options.spares:
            return {b"full spare": None}
        may = {}
        if self.rooms + size <= options.words:
            may[b"stored"] = (key, (value, size))
        if (len(self.cells) + 1) * (size - 1) + self.rooms >= options.words:
            may[b"full block"] = None
        return may

    def take(self, change):
        """Takes the step, and gives the keys whose answers changed."""
        self.stamp += 1
        if not change:
            return []
        key, cell = change
        bucket, old = key_hash(key) % self.options.buckets, self.cells.pop(key, None)
        self.rooms -= old[1] if old else 0
        self.keys[bucket] -= 1 if old else 0
        if cell:
            self.cells[key] = cell
            self.rooms += cell[1]
            self.keys[bucket] += 1
        return [(key, cell[0] if cell else None)]


class Cache:
    """The machine of cache mode: records of (value, offset, room) by key, in order of offset."""

    def __init__(self, options):
        self.options, self.records, self.stamp, self.accepted = options, {}, 0, 0

    def step(self, word, key, value):
        if self.accepted == self.options.wear:
            return {b"worn": None}
        record = self.records.get(key)
        if word == b"del":
            return {b"deleted" if record else b"absent": (word, key, None)}
        if word == b"touch":
            return {b"touched" if record else b"absent": (word, key, record and record[0])}
        if word == b"add" and record:
            return {b"exists": None}
        if item_size(key, value) > self.options.words:
            return {b"full block": None}
        return {b"stored": (word, key, value)}

    def take(self, change):
        word, key, value = change
        words, old = self.options.words, self.records.get(key)
        self.accepted += 1
        changes = []
        if value is None:
            self.stamp += 1
            if old and word == b"del":
                del self.records[key]
                changes.append((key, None))
        else:
            size = item_size(key, value)
            if word == b"put" and old and size <= old[2] and (self.stamp + 1) >> 16 <= old[1] + words:
                self.records[key] = (value, old[1], old[2])
                self.stamp += 1
            else:
                self.records.pop(key, None)
                self.records[key] = (value, self.stamp >> 16, size)
                self.stamp += 65536 * size
            changes.append((key, value))
        tail, bucket = self.stamp >> 16, key_hash(key) % self.options.buckets
        gone = []
        for other, (_, offset, _) in self.records.items():
            if offset + words >= tail:
                break
            gone.append(other)
        alike = [k for k in self.records if k not in gone and key_hash(k) % self.options.buckets == bucket] if len(self.records) > 15 else []
        if len(alike) == 16:
            gone.append(alike[0])
        for other in gone:
            del self.records[other]
            changes.append((other, None))
        return changes


class Partition:
    """A machine, its stamp after each number of writes, and each key's answers since."""

    def __init__(self, options):
        self.machine = (Cache if options.mode == "cache" else Store)(options)
        self.stamps, self.answers = [0], collections.defaultdict(lambda: ([0], [None]))

    def write(self, word, key, value, reply, stamp):
        may = self.machine.step(word, key, value)
        if reply not in may:
            return False
        if may[reply] is not None:
            for other, answer in self.machine.take(may[reply]):
                places, answers = self.answers[other]
                places.append(len(self.stamps))
                answers.append(answer)
        self.stamps.append(self.machine.stamp)
        return stamp == self.machine.stamp

    def answer(self, key, place):
        places, answers = self.answers[key]
        return answers[bisect.bisect_right(places, place) - 1]


def lines_of(text):
    """The lines of a text, the last of which may lack its line feed."""
    lines = text.split(b"\n")
    return lines[:-1] if lines[-1] == b"" else lines


def report_line(line):
    """The word, the stamp and the reply of a report line, or None where it is none."""
    if line == b"sync":
        return b"sync", 0, b""
    word, _, told = line.partition(b" ")
    stamp, _, reply = told.partition(b" ")
    if not NUMBER.fullmatch(stamp) or int(stamp) >= 2**64:
        return None
    if word == b"get":
        found = reply == b"miss" or reply.startswith(b"hit ") and len(reply) <= 4 + LONGEST_VALUE and VALUE.fullmatch(reply)
        return (word, int(stamp), reply) if found else None
    return (word, int(stamp), reply) if reply in REPLIES.get(word, ()) else None


def first_bad_line(text):
    """The number of the first line of a report that is none with its line feed, or None."""
    lines = text.split(b"\n")
    for number, line in enumerate(lines[:-1], 1):
        if report_line(line) is None:
            return number
    return len(lines) if lines[-1] else None


def judge(options, trace, report):
    """The number of the first unlawful line of a report, or None: lines that stand for none of the trace, then writes, then gets."""
    asked = []
    for line in lines_of(trace):
        word, _, rest = line.partition(b" ")
        key, _, value = rest.partition(b" ") if word in (b"put", b"add") else (rest, b"", b"")
        asked.append((word, key, value, (key_hash(key) >> 48) % options.partitions))
    told = [report_line(line) for line in lines_of(report)]
    for number, ((word, *_), (said, *_)) in enumerate(zip(asked, told), 1):
        if word != said:
            return number
    if len(asked) != len(told):
        return min(len(asked), len(told)) + 1
    partitions = [Partition(options) for _ in range(options.partitions)]
    places = [[0] * options.partitions]  # how many writes each partition has before each round
    for number, ((word, key, value, place), (_, stamp, reply)) in enumerate(zip(asked, told), 1):
        if word == b"sync":
            places.append([len(partition.stamps) - 1 for partition in partitions])
        elif word != b"get" and not partitions[place].write(word, key, value, reply, stamp):
            return number
    places.append([len(partition.stamps) - 1 for partition in partitions])
    return first_bad_get(options, partitions, places, asked, told)


def first_bad_get(options, partitions, places, asked, told):
    rounds = gets = 0
    last = collections.Counter()
    for number, ((word, key, _, place), (_, stamp, reply)) in enumerate(zip(asked, told), 1):
        if word == b"sync":
            rounds += 1
        if word != b"get":
            continue
        seat = (gets % options.readers, place)
        gets += 1
        partition, first, end = partitions[place], places[rounds][place], places[rounds + 1][place]
        at = bisect.bisect_left(partition.stamps, stamp, first, end + 1)
        if at > end or partition.stamps[at] != stamp or stamp < last[seat]:
            return number
        answer = partition.answer(key, at)
        if reply != (b"miss" if answer is None else b"hit " + answer):
            return number
        last[seat] = stamp
    return None
