"""The table of moving day, and crates.txt."""
import sys
from pathlib import Path

HERE = Path(__file__).resolve().parent
trouble = []


def loud(text):
    """Something that a person has to look at."""
    if text not in trouble:
        trouble.append(text)


class Table:
    """whole: old crate -> new one. parts: old crate -> its modules, 'src'/'specs'/'proofs' -> module -> new crate.
    first: old crate -> the crate for modules that the table does not name. facades: crates that stay as re-exports.
    modules: (old crate, module) -> its new name. roots: old crate -> the module that its lib.rt becomes."""

    def __init__(self, path):
        self.whole, self.parts, self.first = {}, {}, {}
        self.facades, self.modules, self.roots = set(), {}, {}
        self.words, self.texts, self.widened = [], [], set()
        old = None
        for number, line in enumerate(path.read_text().splitlines(), 1):
            words = line.split("#")[0].split()
            if not words:
                continue
            match words:
                case ["whole", a, b]:
                    self.whole[a] = b
                case ["part", a]:
                    old = a
                    self.parts[a] = {"src": {}, "specs": {}, "proofs": {}}
                case [("src" | "specs" | "proofs") as kind, new, *modules]:
                    self.first.setdefault(old, new)
                    for module in modules:
                        self.parts[old][kind][module] = new
                case ["facade"]:
                    self.facades.add(old)
                case ["root", module]:
                    self.roots[old] = module
                case ["widen", module]:
                    self.widened.add((old, module))
                case ["module", crate, a, b]:
                    self.modules[crate, a] = b
                case ["text", a, b]:
                    self.texts.append((a, b))
                case ["word", crates, a, b]:
                    self.words.append((crates.split(","), a, b))
                case _:
                    sys.exit(f"{path.name}:{number}: not a line of the table: {line}")


def read_crates(path):
    """crates.txt: name -> (its options, its dependencies)."""
    lines = {}
    for line in path.read_text().splitlines():
        line = line.split("#")[0].strip()
        if line:
            head, _, deps = line.partition(":")
            name, *options = head.split()
            lines[name] = (options, deps.split())
    return lines


def read_heads():
    """heads.txt: a line '= CRATE', then the lines of its head."""
    heads, crate = {}, None
    for line in (HERE / "heads.txt").read_text().splitlines():
        if line.startswith("= "):
            crate = line[2:].strip()
            heads[crate] = ""
        elif crate and line.strip():
            heads[crate] += f"//! {line}".rstrip() + "\n" if line != "-" else "//!\n"
    return heads
