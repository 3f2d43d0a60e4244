"""Files: where each one goes and what it is then, edits with what they change, and the roots of crates that are made of parts."""
import re
from pathlib import Path

from rust import USE, RustFile, rewrite_ghost
from table import loud


def module_of(path):
    """('src', module) and its like of a path within a crate, or None."""
    kind, *rest = path.parts
    if not rest or kind not in ("src", "specs", "proofs"):
        return None
    name = rest[0] if len(rest) > 1 else Path(rest[0]).stem
    if kind == "proofs" and len(rest) > 1:
        return "src", name
    return kind, name


def file_of_edit(text):
    found = re.search(r"^file: *(\S+)", text, re.M)
    return Path(found[1]) if found else None


def new_file(tree, old, path):
    """The crate and the path there of a file of an old crate; None for what is written anew."""
    if not tree.parted(old):
        home = tree.table.whole.get(old, old)
        which = module_of(path)
        if which and which[0] == "src" and (old, which[1]) in tree.table.modules:
            return home, with_module(path, tree.table.modules[old, which[1]])
        return home, path
    which = module_of(path)
    if which is None:
        return None
    kind, module = which
    if path.name in ("Lib.antt", "lib.rt") and len(path.parts) == 2:
        root = tree.table.roots.get(old)
        return (tree.table.first[old], Path(f"src/{root}.rt")) if path.name == "lib.rt" and root else None
    home, named = tree.place(old, kind, module)
    return home, with_module(path, named) if kind == "src" else path


def with_module(path, module):
    kind, *rest = path.parts
    if len(rest) == 1:
        return Path(kind) / (module + Path(rest[0]).suffix)
    return Path(kind, module, *rest[1:])


def files_of(crate):
    return [p for p in sorted(crate.rglob("*")) if p.is_file() and "out" not in p.relative_to(crate).parts[:1]]


def collect(tree):
    """Every file of every crate as it will be: (crate, path) -> its text, or the bytes of what is no text of ours."""
    new, sources = {}, {}
    for old in tree.names:
        folder = tree.crates / old
        for file in files_of(folder):
            path = file.relative_to(folder)
            if path.suffix == ".edit":
                put(new, sources, *moved_edit(tree, old, file, path), (old, path))
                continue
            to = new_file(tree, old, path)
            if to is None:
                if not (tree.parted(old) and path.name in ("Lib.antt", "lib.rt")):
                    loud(f"{old}/{path}: no place for it")
                continue
            home, there = to
            if path.suffix == ".rt":
                text = moved_rust(tree, old, home, path, there, file.read_text())
            elif path.suffix == ".antt":
                text = rewrite_ghost(tree, file.read_text(), f"{old}/{path}")
            else:
                text = file.read_bytes()
            put(new, sources, home, there, text, (old, path))
    return new, sources


def put(new, sources, home, path, text, source):
    if (home, path) in new:
        loud(f"{source[0]}/{source[1]}: {home}/{path} is there twice")
    new[home, path] = text
    sources[home, path] = source


def moved_rust(tree, old, home, path, there, text):
    module = path.stem if len(path.parts) == 2 else path.parts[1]
    text = RustFile(tree, old, home, module, f"{old}/{path}").rewrite(text)
    if module in ("lib", "main") and not tree.parted(old):
        for (crate, a), b in tree.table.modules.items():
            if crate == old:
                text = re.sub(rf"^((?:pub )?mod ){a};", rf"\g<1>{b};", text, flags=re.M)
    if tree.table.roots.get(old) == there.stem and path.name == "lib.rt":
        text = text.replace("#![tactic(auto)]\n", "", 1)
    if (old, module) in tree.table.widened:
        text = text.replace("pub(crate) ", "pub ")
    return text


def moved_edit(tree, old, file, path):
    """An edit goes with the file that it changes, and its texts are rewritten as that file is."""
    text = file.read_text()
    target = file_of_edit(text)
    home, there = (tree.table.whole.get(old, old), target)
    if target is None:
        loud(f"{old}/{path}: an edit with no line 'file:'")
        return home, path, text
    to = new_file(tree, old, target)
    if to is None:
        loud(f"{old}/{path}: changes {target}, which is written anew")
    else:
        home, there = to
    for other in re.findall(r"^file: *(\S+)", text, re.M)[1:]:
        if (new_file(tree, old, Path(other)) or (home,))[0] != home:
            loud(f"{old}/{path}: changes files of two crates")
    rust = RustFile(tree, old, home, target.stem, f"{old}/{path}")

    def line(found):
        kind, body = found[1], found[2]
        if kind == "file":
            to = new_file(tree, old, Path(body.strip()))
            return f"file: {to[1] if to else body.strip()}"
        body = rewrite_ghost(tree, body, f"{old}/{path}")
        if USE.match(body.lstrip() + "\n"):
            body = rust.rewrite_uses(body + "\n").rstrip("\n")
        return f"{kind}: {rust.rewrite_paths(body)}"
    return home, path, re.sub(r"^(file|old|new): ?(.*)$", line, text, flags=re.M)


def with_words(tree, text, path, source):
    """Identifiers that are renamed in the crate that the file lay in: in code, and between backticks in comments."""
    old, before = source
    mark = {".rt": "//", ".antt": "--"}.get(path.suffix)
    for places, a, b in tree.table.words:
        if not any(covers(place, old, before) for place in places):
            continue
        word = re.compile(rf"(?<!\w){re.escape(a)}(?!\w)")
        lines = []
        for line in text.split("\n"):
            at = line.find(mark) if mark else -1
            code, comment = (line, "") if at < 0 else (line[:at], line[at:])
            lines.append(word.sub(b, code) + re.sub(rf"`[^`]*`", lambda f: word.sub(b, f[0]), comment))
        text = "\n".join(lines)
    return text


def covers(place, old, path):
    """A place of the table: CRATE, or CRATE:FOLDER for what lies there alone."""
    crate, _, folder = place.partition(":")
    return crate == old and str(path).startswith(folder)
