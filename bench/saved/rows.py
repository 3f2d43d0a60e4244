#!/usr/bin/env python3
"""Writes the rows of crates/saved_rows: files of saved items as this folder's writer makes them, whole and damaged, and what its reader reads in them.

    bench/saved/rows.py > crates/saved_rows/data/saved.rows
"""
import random
import struct

from saved_file import BLOCK, CONTENT, blocks, closing, filled, head, pair, read, words

SECRET = (0x0706050403020100, 0x0F0E0D0C0B0A0908)


def item(flags, end, unique, value):
    return struct.pack("<IIQ", flags, end, unique) + value


def small(mode="store", secret=SECRET):
    text = head(1_700_000_000, secret, mode, 2)
    text += pair(b"a", item(0, 0, 5, b"1")) + pair(b"lock:7", item(42, 1_700_000_060, 6, b"owner")) + closing(2, 9, 12, 1_700_000_100)
    return text + closing(0, 0, 7)


def long():
    """Pairs that lie across blocks, and keys from the shortest to the longest."""
    text = head(1_700_000_000, None, "cache", 3)
    for number in range(20):
        text += pair(b"k%d" % number, bytes([97 + number]) * 8_192, number % 4, number % 2 == 1)
    text += closing(20, 400, 1 << 61, (1 << 64) - 1) + closing(0, 0, 1, 1)
    text += pair(b"K" * 250, b"") + pair(b"\0", b"\xff") + closing(2, (1 << 64) - 1, (1 << 62) - 1)
    return text


def across(length):
    """A value that lies in several blocks, and a pair behind it."""
    text = head(1_700_000_000, None, "store", 1)
    text += pair(b"big", item(7, 0, 9, b"B" * length)) + pair(b"k", item(0, 0, 10, b"v")) + closing(2, 11, 12)
    return text


def exact():
    """Content that fills its blocks: nothing is behind the last closing."""
    text = head(1, SECRET, "cache", 1)
    left = CONTENT - len(text) - 32
    while left > 8_192 + 8 + 3:
        text += pair(b"key", b"v" * 8_000)
        left -= 8_000 + 8 + 3
    text += pair(b"last", b"w" * (left - 8 - 4))
    return text + closing(text.count(b"key") + 1, 3, 4)


def changed(file, at, data):
    return file[:at] + data + file[at + len(data) :]


def files():
    whole, two = blocks(filled(small())), blocks(filled(long()))
    yield "small", whole
    yield "small_cache", blocks(filled(small("cache", None)))
    yield "long", two
    yield "exact", blocks(filled(exact()))
    yield "longest", blocks(filled(across(1_048_576)))
    yield "across_and_cut", blocks(filled(across(150_000)))[: 2 * BLOCK]
    yield "across_and_one_bit_changed", changed(blocks(filled(across(150_000))), BLOCK + 77, b"\x40")
    yield "empty", b""
    yield "one_byte_less", whole[:-1]
    yield "one_block_less", two[:BLOCK]
    yield "a_byte_behind", whole + b"\0"
    yield "a_block_behind", blocks(filled(small()) + bytes(CONTENT))
    yield "a_byte_after_the_items", blocks(changed(filled(small()), len(small()), b"\1"))
    yield "last_byte_of_the_content", blocks(filled(small())[:-1] + b"\1")
    yield "other_sum_behind", changed(two, 2 * BLOCK + 7, b"\7")
    yield "word_of_a_sum", changed(whole, CONTENT, b"\0")
    rng = random.Random(84)
    for number in range(12):
        at = rng.randrange(len(two))
        yield f"one_bit_{number}", changed(two, at, bytes([two[at] ^ 1 << rng.randrange(8)]))
    yield "blocks_swapped", two[BLOCK : 2 * BLOCK] + two[:BLOCK] + two[2 * BLOCK :]
    for name, at, data in (
        ("magic", 0, b"X"),
        ("version_1", 4, b"\1"),
        ("version_high", 7, b"\1"),
        ("hashing_2", 16, b"\2"),
        ("papers_with_secret", 16, b"\0"),
        ("mode_2", 40, b"\2"),
        ("no_partitions", 48, b"\0"),
        ("partitions_65537", 48, words(65_537)),
        ("one_partition_more", 48, b"\3"),
        ("one_partition_less", 48, b"\1"),
        ("key_of_251", 56, words(251 | 17 << 32)),
        ("value_of_1048593", 56, words(1 | 1_048_593 << 32)),
        ("value_of_2_32_less_1", 56, words(1 | 0xFFFFFFFF << 32)),
        ("a_bit_that_must_be_0", 57, b"\x08"),
        ("the_last_bit_that_must_be_0", 59, b"\x80"),
        ("key_of_0", 56, words(17 << 32)),
        ("closed_by_1", len(small()) - 64, words(256)),
        ("closed_by_3", len(small()) - 64, words(3 * 256)),
        ("next_0", len(small()) - 48, words(0)),
        ("next_2_62", len(small()) - 48, words(1 << 62)),
    ):
        yield name, blocks(changed(filled(small()), at, data))


def row(name, file):
    """The file by its pieces: bytes in hexadecimal, and runs of one byte."""
    print(f"file {name}")
    at = 0
    while at < len(file):
        end = at
        while end < len(file) and file[end] == file[at]:
            end += 1
        if end - at >= 32:
            print(f"* {end - at} {file[at]:02x}")
        else:
            end = min(at + 64, len(file))
            print(f"+ {file[at:end].hex()}")
        at = end
    for line in read(file):
        print(f"> {line}")
    print()


if __name__ == "__main__":
    print("# made by bench/saved/rows.py: files of saved items, and what is read in them")
    print()
    for name, file in files():
        row(name, file)
