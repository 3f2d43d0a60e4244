"""The lib.rt, specs/Lib.antt and proofs/Lib.antt of crates that are made of parts."""
import re
from pathlib import Path

from files import put, with_words
from rust import is_module, use_line
from table import loud, read_heads


def write_crates(tree, new, sources):
    """The new lib.rt, specs/Lib.antt and proofs/Lib.antt of crates that are made of parts."""
    heads = read_heads()
    made = dict.fromkeys(home for old in tree.symbols for kind in tree.table.parts[old].values() for home in kind.values())
    made.update(dict.fromkeys(tree.table.first.values()))
    for home in made:
        uses = tree.needed.get(home, {})
        if (home, Path("src/lib.rt")) in new:
            loud(f"{home}: it has a lib.rt, and parts of others go there")
            continue
        mods, passed, lists = [], {}, {"specs": [], "proofs": []}
        for old in tree.symbols:
            at_root(tree, old, home, mods, passed)
            for kind in lists:
                lists[kind] += declared(tree, old, home, kind)
        for module, names in uses.items():
            passed.setdefault((module,), set()).update(names)
            for name in names:
                if name in mods:
                    loud(f"{home}: {name} of module {module} is to be passed on, and is a module's name too")
                widen(new, home, module, name)
        text = heads.get(home, "") + "#![tactic(auto)]\n\n"
        if home not in heads:
            loud(f"{home}: no head in heads.txt")
        for module in sorted(set(mods)):
            text += f"{'pub ' if (home, module) in tree.open_modules else ''}mod {module};\n"
        text += "\n" + "".join(use_line("", "pub ", path, list(names)) for path, names in sorted(passed.items()))
        put(new, sources, home, Path("src/lib.rt"), text, ("", Path("lib.rt")))
        for kind, lines in lists.items():
            if lines:
                put(new, sources, home, Path(kind, "Lib.antt"), "\n".join(lines) + "\n", ("", Path("Lib.antt")))
    for old in tree.table.facades:
        if old in tree.symbols:
            put(new, sources, old, Path("src/lib.rt"), facade(tree, old, heads), ("", Path("lib.rt")))


def at_root(tree, old, home, mods, passed):
    """What the root of a new crate declares and passes on of an old one."""
    root = tree.table.roots.get(old)
    if root and tree.table.first[old] == home:
        mods.append(root)
        passed[root,] = {name for name, (modules, _) in tree.symbols[old].items() if not modules}
    for module, to in tree.table.parts[old]["src"].items():
        if to == home and is_module(tree, old, module):
            named = tree.table.modules.get((old, module), module)
            mods.append(named)
            if module in tree.public[old]:
                tree.open_modules.add((home, named))
    for alias, (modules, name) in tree.symbols[old].items():
        if not modules:
            continue
        if modules[0] in tree.names:
            loud(f"{old}: its root passes on {modules[0]}::{name}")
            continue
        to, named = tree.place(old, "src", modules[0])
        if to == home:
            names = name if name == alias else f"{name} as {alias}"
            names = with_words(tree, names, Path("lib.rt"), (old, Path("src", f"{modules[0]}.rt")))
            passed.setdefault((named, *modules[1:]), set()).add(names)


def declared(tree, old, home, kind):
    """The lines of an old Lib.antt whose modules go to this crate."""
    lib = tree.crates / old / kind / "Lib.antt"
    if not lib.exists():
        return []
    lines = []
    for line in lib.read_text().splitlines():
        found = re.match(r"(?:pub )?mod (\w+)", line)
        if found and tree.place(old, kind, found[1])[0] == home:
            lines.append(line)
        elif not found and line.strip():
            loud(f"{old}/{kind}/Lib.antt: {line}")
    return lines


def facade(tree, old, heads):
    groups = {}
    for alias, (modules, name) in tree.symbols[old].items():
        home = tree.place(old, "src", modules[0])[0]
        groups.setdefault((home,), set()).add(alias)
    for module in tree.public[old]:
        groups.setdefault((tree.place(old, "src", module)[0],), set()).add(module)
    if old not in heads:
        loud(f"{old}: no head in heads.txt")
    text = heads.get(old, "") + "#![tactic(auto)]\n\n"
    return text + "".join(use_line("", "pub ", path, list(names)) for path, names in sorted(groups.items()))


def widen(new, home, module, name):
    """An item that another crate needs now is pub."""
    path = (home, Path(f"src/{module}.rt"))
    text = new.get(path)
    if text is None:
        loud(f"{home}: no module {module}, of which {name} is needed")
        return
    kinds = r"(?:const fn|unsafe fn|fn|struct|enum|trait|const|type|static)"
    if re.search(rf"^pub {kinds} {name}\b", text, re.M):
        return
    wider, times = re.subn(rf"^(?:pub\(crate\) )?({kinds} {name}\b)", r"pub \1", text, flags=re.M)
    if times != 1:
        loud(f"{home}: {name} of module {module} can't be made pub")
    new[path] = wider
