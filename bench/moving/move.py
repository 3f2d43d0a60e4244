#!/usr/bin/env python3
"""Moves the crates of a tree with the names before moving day to the names behind it. It was run once, and is kept for carry.py (README.md).

bench/moving/move.py [--no-fmt] [TREE]      (TREE: the tree's top; without it the folder where it is run)

What goes where stands beside this script: table.txt (crates, modules, renames), heads.txt (the heads of new crates),
crates_order.txt (groups and comments of crates.txt) and rows.txt (rows of tables in documents). It works by modules and
symbols, so it can be run on any tree with the old names. A patch for the old names is carried over so: apply it to the old
tree, run this, and take the difference to the moved tree. It moves files in the folder alone: `git add -A` then sees renames.

It writes what it did, and what it could not place as lines that begin with '!!'; its status is 1 where there were any such.
"""
import os
import shutil
import subprocess
import sys
from pathlib import Path

sys.dont_write_bytecode = True
from files import collect, files_of, with_words
from listing import new_list
from prose import move_wrong_bodies, outside_crates, in_comments, write
from roots import write_crates
from rust import Tree
from table import HERE, Table, loud, read_crates, trouble


def put_in_place(tree, new, sources):
    """Writes the new crates where they differ, and takes the old ones away. Returns the crates that changed."""
    changed = set()
    for (home, path), text in new.items():
        file = tree.crates / home / path
        data = text if isinstance(text, bytes) else text.encode()
        source = sources[home, path]
        before = tree.crates / source[0] / source[1] if source[0] else None
        if file.exists() and file.read_bytes() == data:
            continue
        mode = before.stat().st_mode if before and before.exists() else None
        write(file, data)
        if mode:
            os.chmod(file, mode)
        changed.add(home)
    for old in tree.names:
        folder = tree.crates / old
        if not any(home == old for home, _ in new):
            shutil.rmtree(folder)
            continue
        for file in files_of(folder):
            if (old, file.relative_to(folder)) not in new:
                file.unlink()
        for sub in sorted(folder.rglob("*"), reverse=True):
            if sub.is_dir() and not any(sub.iterdir()):
                sub.rmdir()
    return changed


def edits_left(tree):
    """Each edit whose first text does not stand once in its file: {(name, text)}."""
    out = set()
    for edit in sorted([*tree.crates.glob("*/*/*.edit"), *(tree.top / "bench").rglob("*.edit")]):
        crate, texts, file = edit.parent.parent if tree.crates in edit.parents else tree.crates / edit.parent.name, {}, None
        for line in edit.read_text().splitlines():
            kind, _, body = line.partition(": ")
            if kind == "file":
                file = crate / body.strip()
                texts.setdefault(file, file.read_text() if file.exists() else "")
            elif kind == "old":
                old = body
                if file is None or texts[file].count(old) != 1:
                    out.add(edit.name)
            elif kind == "new" and file is not None:
                texts[file] = texts[file].replace(old, body, 1)
    return out


def main():
    arguments = [a for a in sys.argv[1:] if a != "--no-fmt"]
    top = Path(arguments[0] if arguments else ".").resolve()
    table = Table(HERE / "table.txt")
    there = sorted({*table.whole.values(), *table.first.values()} & set(read_crates(top / "crates.txt")))
    if there:
        sys.exit(f"{top} has the new names already: {' '.join(there)}")
    tree = Tree(top, table)
    wrong_before = edits_left(tree)
    new, sources = collect(tree)
    write_crates(tree, new, sources)
    for (home, path), text in new.items():
        if isinstance(text, str):
            text = in_comments(tree, text, path, sources[home, path])
            new[home, path] = with_words(tree, text, path, sources[home, path])
    lines, deps = new_list(tree, new)
    prose = outside_crates(tree, deps)
    move_wrong_bodies(tree)
    changed = put_in_place(tree, new, sources)
    for file, text in prose.items():
        file.write_text(text)
    (top / "crates.txt").write_text(lines)
    if "--no-fmt" not in sys.argv:
        for crate in sorted(changed):
            run = subprocess.run(["rt", "fmt"], cwd=tree.crates / crate, capture_output=True, text=True)
            if run.returncode != 0:
                loud(f"{crate}: rt fmt: {(run.stdout + run.stderr).strip()[-300:]}")
    for name in sorted(edits_left(tree) - wrong_before):
        loud(f"the edit {name}: its text does not stand once in its file")
    print(f"{len(changed)} crates changed: {' '.join(sorted(changed))}")
    for line in trouble:
        print("!!", line)
    sys.exit(1 if trouble else 0)


if __name__ == "__main__":
    main()
