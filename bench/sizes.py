#!/usr/bin/env python3
"""The sizes of partitions that `--memory SIZE` makes: crates/partition_sizes/src told once more, for servers beside micad. bench/sizes.py prints docs/OPERATING.md's table by it, or with --check says
whether it stands there so.
"""
import re
import sys

from formats import TOP

MIB = 1 << 20
SOURCE = "".join((TOP / "crates/partition_sizes/src" / name).read_text() for name in ("bytes.rt", "sizes.rt"))


def constant(name):
    return int(re.search(rf"const {name}: u64 = ([\d_]+);", SOURCE)[1])


HEAP_BYTES, LISTS_BYTES, SPARE_BYTES, READS_BYTES = map(constant, ("HEAP_BYTES", "LISTS_BYTES", "SPARE_BYTES", "READS_BYTES"))
FEW_PARTITIONS_MEMORY, PARTITION_MEMORY = map(constant, ("FEW_PARTITIONS_MEMORY", "PARTITION_MEMORY"))
PROGRAM_BYTES, ITEM_WORDS, INDEX_BYTES = map(constant, ("PROGRAM_BYTES", "ITEM_WORDS", "INDEX_BYTES"))
MOST_WORDS = 1 << 30
# words of a main bucket and of a spare, and the word of the stamp
BUCKET_WORDS, SPARE_WORDS, STAMP_WORDS = 17, 16, 1


def bytes_of(memory):
    """The number of bytes that a size such as 64M tells."""
    return int(memory[:-1]) << {"K": 10, "M": 20, "G": 30}[memory[-1]] if memory[-1] in "KMG" else int(memory)


def word_bytes(mode):
    return 8 + HEAP_BYTES * (mode == "store")


def items_for(mode, share):
    return share // (ITEM_WORDS * word_bytes(mode) + INDEX_BYTES)


def sizes_for(mode, memory):
    """How many partitions there are, and the buckets, spares and words of each."""
    memory = bytes_of(memory)
    partitions = min(memory // PARTITION_MEMORY, 16) if memory <= FEW_PARTITIONS_MEMORY else 64
    share = (memory - PROGRAM_BYTES) // partitions
    buckets = 1 << max(0, -(-items_for(mode, share) // 10) - 1).bit_length()
    spares = buckets // 8 if mode == "store" else 0
    beside = LISTS_BYTES + SPARE_BYTES * spares if mode == "store" else READS_BYTES * buckets
    empty = 8 * (STAMP_WORDS + BUCKET_WORDS * buckets + SPARE_WORDS * spares) + beside
    words = min(MOST_WORDS, (share - empty) // word_bytes(mode))
    return {"partitions": partitions, "buckets": buckets, "spares": spares, "words": words}


def shape_for(mode, memory):
    """The same as words of a command line."""
    return [word for name, size in sizes_for(mode, memory).items() for word in (f"--{name}", size)]


def rows():
    for memory in ("64M", "1G", "4G", "64G"):
        for mode in ("cache", "store"):
            sizes = sizes_for(mode, memory)
            items = sizes["partitions"] * items_for(mode, (bytes_of(memory) - PROGRAM_BYTES) // sizes["partitions"]) / 1e6
            numbers = " | ".join(f"{size:,}" for size in sizes.values())
            yield f"| {memory} | {mode} | {numbers} | {items:{'.0f' if items >= 100 else '.2g'}} million |"


def main():
    page = (TOP / "docs/OPERATING.md").read_text()
    found = list(rows())
    if sys.argv[1:] != ["--check"]:
        print(*found, sep="\n")
    elif wrong := [row for row in found if row not in page]:
        sys.exit("\n".join(("docs/OPERATING.md does not have", *wrong)))


if __name__ == "__main__":
    main()
