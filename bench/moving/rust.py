"""References: the `use` lines and paths of .rt files, and what cites specs and proofs."""
import re

from table import loud, read_crates

USE = re.compile(r"^([ \t]*)((?:pub(?:\([a-z]+\))? )?)use ([^;]+);\n?", re.M)
GHOST = re.compile(r"\bRattle\.([a-z_0-9]+)\.(specs|proofs)\.([A-Za-z_0-9]+)(\.([A-Za-z_0-9]+))?")


def blank_comments(text):
    return re.sub(r"//[^\n]*", "", text)


def root_symbols(text):
    """What a lib.rt passes on: symbol -> (module, its name there), and the modules that are pub."""
    symbols, public = {}, set()
    for path, name, alias in leaves_of_text(text):
        symbols[alias or name] = (path, name)
    for found in re.finditer(r"^pub mod (\w+);", text, re.M):
        public.add(found[1])
    for found in re.finditer(r"^pub (?:fn|struct|enum|trait|const|type|static) (\w+)", text, re.M):
        symbols[found[1]] = ([], found[1])
    return symbols, public


def leaves_of_text(text):
    """The leaves of each `pub use` of a lib.rt: (path, name, alias or None)."""
    for found in USE.finditer(blank_comments(text)):
        if found[2].startswith("pub "):
            yield from leaves(found[3])


def split_top(text):
    """Splits at the commas outside of braces."""
    depth, start, out = 0, 0, []
    for i, c in enumerate(text):
        depth += (c == "{") - (c == "}")
        if c == "," and depth == 0:
            out.append(text[start:i])
            start = i + 1
    out.append(text[start:])
    return [part.strip() for part in out if part.strip()]


def leaves(tree, path=()):
    """The leaves of a use tree: (path, name, alias or None)."""
    tree = " ".join(tree.split())
    brace = tree.find("{")
    if brace >= 0:
        head = [s for s in tree[:brace].split("::") if s]
        for part in split_top(tree[brace + 1:tree.rindex("}")]):
            yield from leaves(part, (*path, *head))
        return
    whole, _, alias = tree.partition(" as ")
    *head, name = [s.strip() for s in whole.split("::")]
    if name == "self" and (path or head):
        *head, name = [*path, *head]
        yield list(head), name, alias or None
        return
    yield [*path, *head], name, alias or None


class Tree:
    def __init__(self, top, table):
        self.top, self.table = top, table
        self.crates = top / "crates"
        self.old_lines = read_crates(top / "crates.txt")
        self.names = list(self.old_lines)
        self.symbols, self.public = {}, {}
        for old in table.parts:
            lib = self.crates / old / "src/lib.rt"
            if not lib.exists():
                loud(f"{old}: the table parts it, and it is not there")
                continue
            self.symbols[old], self.public[old] = root_symbols(lib.read_text())
        # What a new crate has to pass on beyond what the old one did: (crate, module, name); and modules that have to be pub.
        self.needed, self.open_modules = {}, set()

    def parted(self, crate):
        return crate in self.symbols

    def place(self, old, kind, module):
        """The new crate of a module of an old crate, and the module's name there."""
        named = self.table.modules.get((old, module), module) if kind == "src" else module
        if old in self.symbols:
            known = self.table.parts[old][kind]
            if module not in known:
                loud(f"{old}: {kind} module {module} is not in the table; it goes to {self.table.first[old]}")
                known[module] = self.table.first[old]
            return known[module], named
        return self.table.whole.get(old, old), named


def rewrite_ghost(tree, text, where):
    """Each `Rattle.CRATE.specs..` and `Rattle.CRATE.proofs..`."""
    def new(found):
        crate, kind, first, rest, second = found.groups()
        if crate not in tree.names:
            return found[0]
        if kind == "specs" and first == "declared":
            home, module = tree.place(crate, "src", second)
            return f"Rattle.{home}.specs.declared.{module}"
        if first[0].isupper():
            home, module = tree.place(crate, kind, first)
        else:
            home, module = tree.place(crate, "src", first)
        return f"Rattle.{home}.{kind}.{module}{rest or ''}"
    return GHOST.sub(new, text)


class RustFile:
    """The references of one .rt file, which lay in crate `old` and lies in crate `home`."""

    def __init__(self, tree, old, home, module, where):
        self.tree, self.old, self.home, self.module, self.where = tree, old, home, module, where
        self.is_root = module in ("lib", "main")

    def target(self, path):
        """The new path of a path whose first segment is a crate of the repository or `crate`; None where nothing changes."""
        tree = self.tree
        first, rest = path[0], path[1:]
        if self.is_root and (self.old, first) in tree.table.modules and not tree.parted(self.old):
            return [tree.table.modules[self.old, first], *rest]
        crate = self.old if first == "crate" else first
        if crate not in tree.names or not rest:
            return None
        if rest[0] in ("specs", "proofs") and len(rest) > 1:
            home, module = tree.place(crate, rest[0], rest[1])
            return [self.named(home), rest[0], module, *rest[2:]]
        if not tree.parted(crate):
            through = len(rest) > 1 or first == "crate" and not is_root_item(tree, crate, rest[0])
            module = tree.table.modules.get((crate, rest[0]), rest[0]) if through else rest[0]
            return [self.named(tree.table.whole.get(crate, crate)), module, *rest[1:]]
        return self.in_parted(crate, rest)

    def in_parted(self, crate, rest):
        tree = self.tree
        symbols, name = tree.symbols[crate], rest[0]
        if name in symbols:
            modules, there = symbols[name]
            if not modules:
                root = tree.table.roots.get(crate)
                home = tree.table.first[crate]
                return [self.named(home), *([root] if root and home == self.home else []), *rest]
            if modules[0] in tree.names:
                if crate == self.old and modules[0] not in tree.symbols:
                    loud(f"{self.where}: {crate}::{name} was passed on from {modules[0]}")
                return self.target([*modules, there, *rest[1:]])
            home, module = tree.place(crate, "src", modules[0])
            return [self.named(home), *rest]
        if is_module(tree, crate, name):
            home, module = tree.place(crate, "src", name)
            if home == self.home:
                return [self.named(home), module, *rest[1:]]
            if len(rest) == 1 or name in tree.public[crate]:
                tree.open_modules.add((home, module))
                return [home, module, *rest[1:]]
            if is_module(tree, home, rest[1]) or rest[1] in modules_of(tree, home):
                tree.open_modules.add((home, module))
                return [home, module, *rest[1:]]
            tree.needed.setdefault(home, {}).setdefault(module, set()).add(rest[1])
            return [home, *rest[1:]]
        loud(f"{self.where}: {crate}::{name} is not known")
        return None

    def named(self, home):
        return "crate" if home == self.home else home

    def rewrite(self, text):
        text = rewrite_ghost(self.tree, text, self.where)
        return self.rewrite_paths(self.rewrite_uses(text))

    def rewrite_uses(self, text):
        """Each `use`; those that come to lie under one path are joined where the first one stands."""
        uses = [self.new_use(found) for found in USE.finditer(text)]
        groups = {}
        for use in uses:
            for path, name in use["leaves"]:
                names = groups.setdefault((*use["head"], path), [])
                if name not in names:
                    names.append(name)
        touched = {(*use["head"], path) for use in uses if use["changed"] and not use["head"][0] for path, _ in use["leaves"]}
        out, at, written = [], 0, set()
        for use in uses:
            keys = list(dict.fromkeys((*use["head"], path) for path, _ in use["leaves"]))
            if not use["changed"] and not any(key in touched for key in keys):
                continue
            out.append(text[at:use["from"]])
            at = use["to"]
            for key in keys:
                if key not in touched:
                    out.append(use_line(*key, [name for path, name in use["leaves"] if path == key[2]]))
                elif key not in written:
                    out.append(use_line(*key, groups[key]))
                    written.add(key)
        return "".join(out) + text[at:]

    def new_use(self, found):
        """A `use`: where it stands, its indent and visibility, its new leaves, and whether they differ."""
        pairs, changed = [], False
        for path, name, alias in leaves(found[3]):
            new = self.target([*path, name]) or [*path, name]
            changed = changed or new != [*path, name]
            pairs.append((tuple(new[:-1]), new[-1] + (f" as {alias}" if alias else "")))
        return {"from": found.start(), "to": found.end(), "head": (found[1], found[2]), "leaves": pairs, "changed": changed}

    def rewrite_paths(self, text):
        """Each path in code that begins with a crate."""
        heads = "|".join(["crate", *map(re.escape, self.tree.names)])
        path = re.compile(rf"(?<![\w:.$])({heads})((?:::\w+)+)")
        lines = text.split("\n")
        for i, line in enumerate(lines):
            code, slashes, comment = split_comment(line)
            if USE.match(code + "\n") or "::" not in code:
                continue
            lines[i] = path.sub(self.new_path, code) + slashes + comment
        return "\n".join(lines)

    def new_path(self, found):
        new = self.target([found[1], *found[2][2:].split("::")])
        return "::".join(new) if new else found[0]


def split_comment(line):
    at = line.find("//")
    return (line, "", "") if at < 0 else (line[:at], "//", line[at + 2:])


def use_line(indent, visible, path, names):
    head = "".join(segment + "::" for segment in path)
    names = sorted(names)
    return f"{indent}{visible}use {head}{names[0] if len(names) == 1 else '{' + ', '.join(names) + '}'};\n"


def is_root_item(tree, crate, name):
    lib = tree.crates / crate / "src/lib.rt"
    return lib.exists() and name in root_symbols(lib.read_text())[0]


def is_module(tree, crate, name):
    return (tree.crates / crate / "src" / f"{name}.rt").exists()


def modules_of(tree, home):
    """The names of the modules that come to lie in this crate."""
    names = set()
    for old in tree.names:
        if old in tree.symbols:
            names |= {m for m, new in tree.table.parts[old]["src"].items() if new == home}
        elif tree.table.whole.get(old, old) == home:
            names |= {p.stem for p in (tree.crates / old / "src").glob("*.rt")}
    return names
