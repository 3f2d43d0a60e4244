#!/usr/bin/env python3
"""Looks, without a proof, whether each name that crates cite of each other is there.

bench/moving/references.py [TREE]

It reads `Rattle.CRATE.specs..`, `Rattle.CRATE.proofs..`, and `use CRATE::..` and `use crate::..` of each .rt file, and whether
crates.txt lists each crate that is cited. What is not there is a line each; its status is 1 where there is one.
"""
import re
import sys
from pathlib import Path

sys.dont_write_bytecode = True
from rust import USE, blank_comments, leaves
from table import read_crates

top = Path(sys.argv[1] if len(sys.argv) > 1 else ".").resolve()
crates = top / "crates"
lines = read_crates(top / "crates.txt")
missing = []
GHOST_USE = re.compile(r"\buse Rattle\.([a-z_0-9]+)\.(specs|proofs)\.([\w.<>-]+?)(?:\.\{([^}]*)\}| as [\w-]+)?(?=[;\s]|$)")
DEFINED = re.compile(r"^\s*(?:(?:unfoldable|opaque|abbrev|pub|record|data|syntax|infix\w*|instance|reducible) +)+(\S+)", re.M)
RUST = re.compile(r"^\s*(?:pub(?:\(\w+\))? )?(?:const fn|unsafe fn|fn|struct|enum|trait|const|type|static|mod) (\w+)", re.M)


def defined_in(path, seen={}):
    """The names that an .antt file gives."""
    if path not in seen:
        text = re.sub(r"--[^\n]*", "", path.read_text())
        names = set(DEFINED.findall(text)) | set(re.findall(r"^(?:pub )?([^\s:]+) :", text, re.M))
        names |= set(re.findall(r"^\s*(?:pub )?([^\s:|]+) :", text, re.M))
        for found in re.finditer(r"^\s*(?:unfoldable )?pub use [^{\n]*\.\{([^}]*)\}", text, re.M):
            names |= {part.split(" as ")[-1].strip() for part in found[1].split(",")}
        seen[path] = names
    return seen[path]


def cited(crate, kind, path, names, where):
    if crate not in lines:
        return
    parts = path.split(".")
    home = where[0]
    if crate != home and crate not in lines[home][1]:
        missing.append(f"{where[1]}: {crate} is not among its libraries")
    folder = crates / crate
    if kind == "specs" and parts[0] == "declared":
        source = folder / "src" / f"{parts[1]}.rt"
        if not source.exists():
            missing.append(f"{where[1]}: {crate}.specs.declared.{parts[1]}: no such module")
            return
        kinds = set(RUST.findall(source.read_text()))
        if parts[2] == "TheConstants":
            gone = [n for n in names if n.split(" as ")[0] not in kinds]
        else:
            gone = [] if parts[2] in kinds else [parts[2]]
    elif parts[0][0].isupper():
        source = folder / kind / f"{parts[0]}.antt"
        if not source.exists():
            missing.append(f"{where[1]}: {crate}.{kind}.{parts[0]}: no such module")
            return
        if len(parts) > 1:
            return
        gone = [n for n in names if n.split(" as ")[0].strip() not in defined_in(source)]
    else:
        gone = [] if (folder / "src" / f"{parts[0]}.rt").exists() or parts[0] in roots(crate) else [parts[0]]
    for name in gone:
        missing.append(f"{where[1]}: {crate}.{kind}.{path}: no {name}")


def roots(crate, seen={}):
    """What a lib.rt offers."""
    if crate not in seen:
        lib = crates / crate / "src/lib.rt"
        text = lib.read_text() if lib.exists() else ""
        names = set(RUST.findall(text))
        for found in USE.finditer(blank_comments(text)):
            if found[2].startswith("pub"):
                names |= {alias or name for _, name, alias in leaves(found[3])}
        seen[crate] = names
    return seen[crate]


def used(crate, path, name, where):
    first, rest = path[0], [*path[1:], name]
    source = crate if first == "crate" else first
    if first != "crate" and first not in lines[crate][1] and (crates / crate / "src" / f"{first}.rt").exists():
        return
    if source not in lines or rest[0] in ("specs", "proofs"):
        return
    if source != crate and source not in lines[crate][1]:
        missing.append(f"{where}: {source} is not among its libraries")
    if rest[0] in roots(source) and len(rest) == 1:
        return
    module = crates / source / "src" / f"{rest[0]}.rt"
    if not module.exists():
        if rest[0] not in roots(source) and not (first == "crate" and len(rest) == 1):
            missing.append(f"{where}: {source} offers no {rest[0]}")
        return
    if source != crate and not re.search(rf"^pub mod {rest[0]};", (crates / source / "src/lib.rt").read_text(), re.M):
        missing.append(f"{where}: module {rest[0]} of {source} is not pub")
    if len(rest) > 1 and rest[1] not in RUST.findall(module.read_text()) and rest[1] not in module.read_text():
        missing.append(f"{where}: {source}::{rest[0]} has no {rest[1]}")


for crate in lines:
    for file in sorted((crates / crate).rglob("*")):
        if file.suffix not in (".rt", ".antt") or "out" in file.relative_to(crates / crate).parts[:1]:
            continue
        text, where = file.read_text(), str(file.relative_to(crates))
        for found in GHOST_USE.finditer(text):
            names = [n.strip() for n in found[4].split(",")] if found[4] else []
            cited(found[1], found[2], found[3], names, (crate, where))
        if file.suffix == ".rt":
            for found in USE.finditer(blank_comments(text)):
                for path, name, _ in leaves(found[3]):
                    if path and (path[0] == "crate" or path[0] in lines):
                        used(crate, path, name, where)

for crate in lines:
    for lib in (crates / crate / "src").glob("*.rt"):
        text = blank_comments(lib.read_text())
        modules = set(re.findall(r"^(?:pub )?mod (\w+);", text, re.M))
        beside = {alias or name for found in USE.finditer(text) for _, name, alias in leaves(found[3])}
        beside |= set(re.findall(r"^(?:pub(?:\(\w+\))? )?(?:fn|struct|enum|trait|const|type|static) (\w+)", text, re.M))
        for name in sorted(modules & beside):
            missing.append(f"{crate}/src/{lib.name}: {name} is a module and an item beside it")

for line in dict.fromkeys(missing):
    print(line)
sys.exit(1 if missing else 0)
